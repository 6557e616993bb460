#!/usr/bin/env python3
"""Measure the first command from nothing, with each crate's share, or the gate, beside the kit's `rt selftest`.

    proving.py [--gate]

The first command is measured as `scripts/build --measure`, and the gate, which prints its own parts, as `./test`. Run
it in a fresh clone, the gate where this machine has proved no crate yet: else it isn't from nothing. The yardstick is taken before and after. How many times as long
as its mean a thing takes can be compared between machines. Run it with nothing else at work.

The status is 0 if it ended well, and 1 if it didn't.
"""

import argparse
import resource
import shutil
import subprocess
import sys
import time
from typing import NamedTuple

sys.dont_write_bytecode = True

from measuring import REPOSITORY, print_machine  # noqa: E402

sys.path.insert(0, str(REPOSITORY / "scripts"))
from crates import free_memory  # noqa: E402

# The seconds after which memory and disk are looked at again.
PAUSE = 1


class Use(NamedTuple):
    """The time, memory and disk that a command and all that it started took."""

    # By the clock, and of the processors.
    seconds: float
    processor_seconds: float
    # The most bytes at a time, beside what was in use before.
    memory: int
    disk: int
    is_well: bool

    def told(self):
        """Give it in words."""
        times = f"{self.seconds / 60:.1f} minutes by the clock, {self.processor_seconds / 60:.1f} of the processor"
        return f"{times}, {self.memory / 1e9:.1f} GB of memory, {self.disk / 1e9:.1f} of disk"

    def beside(self, yardsticks):
        """Give in words how many times as long as the mean of others it took."""
        clock, processor = (sum(it) / len(yardsticks) for it in tuple(zip(*yardsticks))[:2])
        return f"{self.seconds / clock:.0f} by the clock, {self.processor_seconds / processor:.0f} of the processor"


def children_seconds():
    """Give the seconds of the processor of all processes that have ended below this one."""
    used = resource.getrusage(resource.RUSAGE_CHILDREN)
    return used.ru_utime + used.ru_stime


def use_of(*command, **how):
    """Run a command, and give what it took."""
    memory, disk = free_memory(), shutil.disk_usage(REPOSITORY).used
    least_free, most_used, before, begun = memory, disk, children_seconds(), time.monotonic()
    process = subprocess.Popen(command, cwd=REPOSITORY, stdin=subprocess.DEVNULL, **how)
    while True:
        least_free = min(least_free, free_memory())
        most_used = max(most_used, shutil.disk_usage(REPOSITORY).used)
        try:
            process.wait(PAUSE)
            break
        except subprocess.TimeoutExpired:
            pass
    return Use(time.monotonic() - begun, children_seconds() - before, memory - least_free, most_used - disk,
               process.returncode == 0)


def yardstick():
    """Give what `rt selftest` takes, after printing it: the second time, once the kit is read from the disk."""
    for _ in range(2):
        use = use_of("rt", "selftest", stdout=subprocess.DEVNULL, stderr=subprocess.DEVNULL)
    print(f"yardstick {use.seconds:.0f} s by the clock, {use.processor_seconds:.0f} of the processor (rt selftest)",
          flush=True)
    return use


def main():
    """Measure, and return the status."""
    parser = argparse.ArgumentParser(description=__doc__.splitlines()[0])
    parser.add_argument("--gate", action="store_true", help="measure the gate")
    options = parser.parse_args()
    words = ["./test"] if options.gate else ["scripts/build", "--measure"]
    print_machine()
    before = yardstick()
    use = use_of(*words)
    after = yardstick()
    print(f"{' '.join(words)}: {use.told()}")
    print(f"times as long as rt selftest: {use.beside([before, after])}")
    return int(not use.is_well)


if __name__ == "__main__":
    sys.exit(main())
