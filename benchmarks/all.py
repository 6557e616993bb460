#!/usr/bin/env python3
"""Take all figures of one machine, one script after the other, and beside them a yardstick of the machine.

    all.py FOLDER [--program PROGRAM]

The output of each script goes into a file of FOLDER, as check.txt. The yardstick is the processor time of the kit's `rt
selftest`, by which times of different machines can be compared. Run it with nothing else at work.

The status is the highest of the scripts': 0 if each aim is held.
"""

import argparse
import pathlib
import subprocess
import sys

sys.dont_write_bytecode = True

from measuring import PROGRAM, REPOSITORY, print_machine  # noqa: E402
from proving import yardstick  # noqa: E402

SCRIPTS = ("check", "journal", "drive", "plans", "address", "line_computer")


def taken(name, folder, program):
    """Run a script, and give its status."""
    path = folder / f"{name}.txt"
    with open(path, "w", encoding="utf-8") as file:
        words = [REPOSITORY / "benchmarks" / f"{name}.py", "--program", program]
        status = subprocess.run(words, stdout=file, stderr=subprocess.STDOUT, check=False).returncode
    print(f"{name}: status {status}, {path}", flush=True)
    return status


def main():
    """Run all, and return the status."""
    parser = argparse.ArgumentParser(description=__doc__.splitlines()[0])
    parser.add_argument("folder", type=pathlib.Path, metavar="FOLDER")
    parser.add_argument("--program", type=pathlib.Path, default=PROGRAM, help="the built program")
    options = parser.parse_args()
    options.folder.mkdir(parents=True, exist_ok=True)
    print_machine()
    yardstick()
    return max(taken(name, options.folder, options.program.resolve()) for name in SCRIPTS)


if __name__ == "__main__":
    sys.exit(main())
