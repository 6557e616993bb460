#!/usr/bin/env python3
"""Give short addresses over benches of ten simulated units that lose 5 % of frames and answers, with kills.

    address_benches.py [--count N] [--first K] [PROGRAM]

PROGRAM is run, by default the plan of address_plan.py. Each bench depends on its number alone: some units have a
short address before, the standard is read in each way that it may be, and up to three runs are killed before one comes
to its end. No unit may lose its address, be listed under an address that it doesn't have, or be left without one
unreported. The last line is `N passed, M failed`, and the status is 0 only where none failed.
"""

import argparse
import multiprocessing
import pathlib
import sys
import traceback

sys.dont_write_bytecode = True

import address_cases  # noqa: E402
from address_desk import plan_over  # noqa: E402
from address_runs import program_over  # noqa: E402


def judged(bench):
    """Run one bench by a program, or by the plan; give its number, and what was wrong, or None."""
    program, number = bench
    try:
        address_cases.want_bench(program_over(program) if program else plan_over, number)
        return number, None
    except Exception:
        return number, traceback.format_exc()


def main():
    """Run the benches, and return the status."""
    parser = argparse.ArgumentParser(description="Run address over benches of simulated units.")
    parser.add_argument("--count", type=int, default=1000)
    parser.add_argument("--first", type=int, default=0)
    parser.add_argument("--beside", type=int, default=1, help="how many benches run at once (default: %(default)s)")
    parser.add_argument("program", nargs="?", type=pathlib.Path, metavar="PROGRAM")
    options = parser.parse_args()
    program = options.program and options.program.resolve()
    failed, benches = 0, [(program, options.first + number) for number in range(options.count)]
    with multiprocessing.Pool(options.beside) as pool:
        for number, wrong in pool.imap_unordered(judged, benches):
            if wrong:
                failed += 1
                print(f"FAILED: bench {number}\n{wrong}", flush=True)
    print(f"{options.count - failed} passed, {failed} failed")
    return int(failed > 0)


if __name__ == "__main__":
    sys.exit(main())
