#!/usr/bin/env python3
"""Test `dali_bench address`: the built program over pipes, simulated units, journals and kills.

    test_address.py [PROGRAM [FOLDER]]

PROGRAM is by default that of the checkout. FOLDER has drive_shim.so and refuse_alloc.so, built from the C files of
this folder; without it they are built here. The last line is `N passed, M failed`, and the status is 0 only
where none failed. A line that begins with `skipped` names each test that this machine can't run.
"""

import sys

sys.dont_write_bytecode = True

import beside  # noqa: E402

MODULES = ("address_units", "address_streams", "address_library")

if __name__ == "__main__":
    sys.exit(beside.main(__doc__, MODULES, sys.argv[1:]))
