"""The option --list of the adapters to an interface: a line for each device that is there, by the name that stays.

    /dev/serial/by-id/usb-FTDI_FT232R_A50285BI-if00-port0 (ttyUSB0)

Behind the device stands what it is, and where this user may not open it that too. Nothing is opened or changed.
"""

import argparse
import os
import pathlib
import re

# Serial lines that an interface may have; a computer has many ttyS that lead nowhere.
SERIAL = ("ttyUSB*", "ttyACM*", "ttyAMA*")
# The system's words on a device over HID: its bus, maker and product.
HID_ID = re.compile("^HID_ID=[0-9A-F]+:0*([0-9A-F]{4}):0*([0-9A-F]{4})$", re.MULTILINE)
HID_NAME = re.compile("^HID_NAME=(.*)$", re.MULTILINE)


def add_list(parser, find, none):
    """Add the option, with the function that gives the lines; if there are none, these words are printed."""

    class Listing(argparse.Action):
        """Names the devices, and ends."""

        def __call__(self, *_):
            """Do so: no other option is looked at."""
            lines = list(find())
            try:
                print("".join(f"{it}\n" for it in lines), end="", flush=True)
            except OSError as fault:
                parser.exit(2, f"error: the output can't be written: {fault.strerror}\n")
            parser.exit(0, None if lines else f"{none}\n")

    parser.add_argument("--list", action=Listing, nargs=0, help="name the devices that are there, and end")


def line_of(path, what):
    """Give the line of a device: its path, what it is, and whether this user may not open it."""
    return f"{path} ({what}{'' if os.access(path, os.R_OK | os.W_OK) else '; this user may not open it'})"


def names_in(folder):
    """Give by device the names that lead to it in a folder, where that is there."""
    return {path.resolve(): path for path in sorted(pathlib.Path(folder).glob("*"))}


def serial_lines(devices="/dev"):
    """Give the lines of the serial lines that are there."""
    named = names_in(f"{devices}/serial/by-id")
    found = sorted({*named, *(path for kind in SERIAL for path in pathlib.Path(devices).glob(kind))})
    return [line_of(named.get(path, path), path.name) for path in found]


def hid_devices(known, devices="/dev", system="/sys"):
    """Give the lines of the devices over HID whose maker and product are known, each after the word for that."""
    named, lines = names_in(f"{devices}/dali"), []
    for path in sorted(pathlib.Path(system, "class/hidraw").glob("hidraw*")):
        about = (path / "device/uevent").read_text(encoding="utf-8", errors="replace")
        its = HID_ID.search(about)
        word = its and known.get(f"{its[1]}:{its[2]}".lower())
        if word:
            device, name = pathlib.Path(devices, path.name), HID_NAME.search(about)
            lines.append(f"{word} {line_of(named.get(device.resolve(), device), name[1] if name else path.name)}")
    return lines
