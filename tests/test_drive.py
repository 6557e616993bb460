#!/usr/bin/env python3
"""Test `dali_bench drive`: the built program over pipes, with simulated units, real files, kills and calls that fail.

    test_drive.py [PROGRAM [FOLDER]]

PROGRAM is by default that of the checkout. FOLDER has drive_shim.so and refuse_alloc.so, built from the C files of
this folder; without it they are built here. The last line is `N passed, M failed`, and the status is 0 only
where none failed. A line that begins with `skipped` names each test that this machine can't run.
"""

import sys

sys.dont_write_bytecode = True

import beside  # noqa: E402

MODULES = ("drive_streams", "drive_units", "drive_plans", "drive_altered", "drive_calls", "drive_places",
           "drive_progress", "drive_report", "drive_report_files", "drive_follow", "drive_older", "drive_settled",
           "drive_buses", "drive_upgrade")

if __name__ == "__main__":
    sys.exit(beside.main(__doc__, MODULES, sys.argv[1:]))
