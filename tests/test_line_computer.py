#!/usr/bin/env python3
"""Test the line computer: its store, the processes of its buses, its page, and what kills leave of all of it.

    test_line_computer.py [PROGRAM [FOLDER]]

PROGRAM and FOLDER are as of test_drive.py. The tests over PostgreSQL, in a server of their own, need it and psycopg2
(Debian: postgresql, python3-psycopg2), and those of a browser chromium; without them a line that begins with `skipped`
names each. The last line is `N passed, M failed`, and the status is 0 only where none failed.
"""

import sys

sys.dont_write_bytecode = True

import beside  # noqa: E402

MODULES = ("line_storm", "line_day_storm", "line_process", "line_look", "line_shift", "line_day", "line_orders",
           "line_labels", "line_listing", "line_service", "line_station", "station_desk", "station_places",
           "station_scans")

if __name__ == "__main__":
    sys.exit(beside.main(__doc__, MODULES, sys.argv[1:]))
