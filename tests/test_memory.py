#!/usr/bin/env python3
"""Test library calls without memory: each allocation of some tests in the language is refused in turn.

    test_memory.py [PROGRAM [FOLDER]]

The tests are those that `rt ci` has built. PROGRAM and FOLDER are as of test_drive.py. The last line is `N passed, M
failed`, and the status is 0 only where none failed.
"""

import itertools
import os
import subprocess
import sys

sys.dont_write_bytecode = True

import beside  # noqa: E402
from base import BenchTest, preloaded  # noqa: E402
from driven import ROOT  # noqa: E402

TESTS = ROOT / "crates" / "dali_tests" / "out" / "dali_tests_tests"
REFUSED = "an allocation was refused"
SWEPT = ("gear::unit::units_are_made", "journal::a_refused_growth_changes_nothing", "writer::bench::a_run_with_a_left_unit",
         "writer::stops::a_refused_run_leaves_the_bus_there",
         "writer::submits::a_refused_order_is_taken_when_it_comes_again",
         "writer::submits::a_taken_order_comes_to_its_saying")
# Room is made for the orders that come, and not for many more.
FRUGAL = {"journal::a_refused_growth_changes_nothing": 1024,
          "writer::submits::a_refused_order_is_taken_when_it_comes_again": 1024}


def run(name, **variables):
    """Run a test in the language with these variables; give its status and its lines on standard error."""
    environment = {**os.environ, "LD_PRELOAD": str(preloaded("refuse_alloc")), **variables}
    ended = subprocess.run([TESTS, name], env=environment, capture_output=True, text=True, check=False)
    return ended.returncode, ended.stderr.splitlines()


class MemoryTest(BenchTest):
    """Tests in the language with little memory, or none."""

    def test_each_allocation_refused(self):
        """Each run with a refusal ends as the fault NoMemory, or well, if less is enough; the last one well."""
        for name in SWEPT:
            ran_out = 0
            for number in itertools.count(1):
                status, told = run(name, REFUSED_ALLOCATION=str(number))
                if REFUSED not in told:
                    break
                if status:
                    self.assertIn("error: NoMemory", told, f"{name}, allocation {number}")
                    ran_out += 1
            self.assertEqual((name, status, ran_out > 0), (name, 0, True))
            print(f"{name} has {number - 1} allocations, of which {ran_out} end it as want of memory", flush=True)

    def test_little_at_once(self):
        for name, most in FRUGAL.items():
            status, told = run(name, LARGEST_ALLOCATION=str(most))
            self.assertEqual((name, status, REFUSED in told), (name, 0, False))


if __name__ == "__main__":
    sys.exit(beside.main(__doc__, ["test_memory"], sys.argv[1:]))
