"""Runs of `dali_bench address`: for tests/test_address.py, tests/fuzz and tests/address_benches.py."""

import re

import driven
from base import settings

import address_desk
import address_plan

BROKEN = "4 End"
FRAME = re.compile(rb"[0-9A-F]{4}\n")
# No unit is there: the output, and the frames.
NONE_TOLD = "given 0 missing 0 shared 0\n"
# Before and after the question whether a unit has none, and once more: the frames of a closing.
NONE_SENT = "".join(f"{word}\n" for word in address_desk.CLOSING + ["FF96"] * 8 + address_desk.CLOSING * 2).encode()


class Addressing(driven.Desk):
    """Runs of `address`, with these words after it."""

    def __init__(self, words=(), program=None):
        self.program = program or settings["program"]
        self.options, self.given = [], [str(word) for word in words]

    def words(self):
        """Give the command line."""
        return [self.program, "address", *self.options, *self.given]

    def look_at(self, sent):
        """Raise where a frame was sent that isn't one of addresses, as one of a memory bank."""
        for line in sent.splitlines(keepends=True):
            assert driven.OF_ADDRESSES.fullmatch(line) or not FRAME.fullmatch(line), line


def program_over(program=None):
    """Give what runs the program over a bus, as `plan_over` runs the plan."""
    return lambda bus, words=(), stop=None: Addressing(words, program).over(bus, stop)


def planned(answers, words=()):
    """Give how a run ends by the plan that gets these answers, as `FF` or `--`, and where it wants more, no more."""
    left = list(answers)

    def carry(_):
        if not left:
            raise address_plan.Broken(BROKEN)
        answer = left.pop(0)
        return None if answer == "--" else int(answer, 16)

    units = [int(word) for word in words if word not in address_desk.TASKS]
    ended = driven.Ended(*address_plan.Run(carry, units, address_desk.task_of(words)).ended())
    # A list brings no unit into the initialisation state.
    return ended._replace(told=ended.told.replace(address_plan.OPEN, "")) if "--list" in words else ended
