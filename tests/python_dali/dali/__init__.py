"""Stands for the library python-dali, with what of its published interface an adapter may use, and no device.

PLAYED_DALI names a file of JSON, which `play` reads: what the interface does, and where it notes what it hears.
"""
