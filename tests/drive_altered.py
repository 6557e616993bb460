#!/usr/bin/env python3
"""Tests of orders over a bus that alters answers and frames: where a byte may go, and that Done is true.

    drive_altered.py PROGRAM

As a module of test_drive.py it alters by chosen bytes. By itself it tries each other byte for each answer, each bit of
each frame, and 20,000 orders by chance, in some minutes. The last line is `N passed, M failed`, and the status is 0
only where none failed.
"""

import concurrent.futures
import pathlib
import sys
from functools import partial
from typing import NamedTuple

from base import BenchTest, in_cases, new_folder, settings, want
from drive_desk import GTIN, GTIN_BYTES, desk_of
from drive_fixtures import At
from driven import LOCK_BYTE, SHUT, groups_of, judge, simulated_link

BANK_1 = simulated_link.BLANK_BANK_1
PLANS = {"checked": [], "short": ["--short-plan"]}
# Units, and another one beside each, of which the address byte differs in one bit. Those of 35 and 36, 47h and 49h, are
# one bit from WRITE MEMORY LOCATION (C7h) and from WRITE MEMORY LOCATION - NO REPLY (C9h).
BESIDE = {5: 7, 35: 33, 36: 38}
RATE = 0.01


class Case(NamedTuple):
    """An order's fields, the bytes that it writes, and how many frames it takes by each plan."""

    fields: dict
    updates: dict
    frames: dict


CASES = {
    "year": Case({"year": 24}, {0x13: 24}, {"checked": 56, "short": 44}),
    "gtin": Case({"gtin": GTIN}, dict(enumerate(GTIN_BYTES, 3)), {"checked": 112, "short": 49}),
    # One jump after the other: 02h, 13h, 20h, 02h.
    "jumps": Case({"year": 24, "cri": 80}, {0x13: 24, 0x20: 80}, {"checked": 70, "short": 55}),
}
# The orders and plans of which answers are altered, each a case.
ANSWERED = [(name, plan) for name in CASES for plan in PLANS]


class Run(NamedTuple):
    """The result of an order over an altering bus."""

    is_done: bool
    # Places that aren't the order's and hold another byte.
    elsewhere: list
    # The bytes at the order's locations.
    held: dict
    is_lock_shut: bool


def places_of(units):
    """Give each byte that the units hold, by its place: the unit, the bank and the location."""
    return {(unit.short_address, number, location): byte for unit in units
            for number, bank in unit.banks.items() for location, byte in enumerate(bank)}


def bus_of(unit, altering):
    """Make a bus of a unit and another one beside it, which alters so."""
    return simulated_link.Bus([simulated_link.Unit(at) for at in (unit, BESIDE[unit])], altering=altering)


def run_over(bus, case, plan):
    """Carry an order out at the first unit of a bus."""
    unit = bus.units[0].short_address
    with new_folder() as folder:
        desk = desk_of(folder, [{"order": 1, "unit": unit, **case.fields}], b"")
        desk.options = PLANS[plan]
        before = places_of(bus.units)
        is_done = "reply 1 kept 0 Done\n" in desk.over(bus).told
    now = places_of(bus.units)
    own = {(unit, 1, location) for location in (LOCK_BYTE, *case.updates)}
    return Run(is_done, [place for place in now if now[place] != before[place] and place not in own],
               {location: now[unit, 1, location] for location in case.updates}, now[unit, 1, LOCK_BYTE] == SHUT)


def want_true(case, run, what):
    """Raise where `Done` is false."""
    assert not run.is_done or run.held == case.updates and run.is_lock_shut, (what, run)


def try_answer(name, plan, number, mask):
    """Alter the answer to a frame: no byte goes elsewhere, each is old or new, and `Done` is true."""
    case = CASES[name]
    run = run_over(bus_of(5, At(number, answer=mask)), case, plan)
    want_true(case, run, (name, plan, number, mask))
    for location, byte in run.held.items():
        assert byte in (BANK_1[location], case.updates[location]), (name, plan, number, mask, run)
    assert not run.elsewhere, (name, plan, number, mask, run)


def try_frames(name, plan, unit, bits):
    """Turn each of some bits of each frame: `Done` is true, and just those frames put a byte elsewhere that have to."""
    case, found = CASES[name], 0
    for number in range(1, case.frames[plan] + 1):
        for bit in bits:
            run = run_over(bus_of(unit, At(number, frame=bit)), case, plan)
            want_true(case, run, (name, plan, unit, number, bit))
            found += bool(run.elsewhere)
    want((name, plan, unit, found), (name, plan, unit, harmful_frames(case, plan, unit)))


def harmful_frames(case, plan, unit):
    """Give how many frames put a byte elsewhere where one bit of them is turned.

    By the checked plan DTR1 comes while the unit is unlocked and enabled: before each write but the first. One bit
    makes it a write, to the location after the one just written. So do those frames before it that have the address of
    unit 35 or 36: ENABLE WRITE MEMORY, twice, and QUERY CONTENT DTR1.
    """
    if plan == "short":
        return 0
    last_written = [LOCK_BYTE, *case.updates]
    return sum(location + 1 not in case.updates for location in last_written) * (1 if unit == 5 else 4)


def try_orders(plan, count, seed):
    """Carry `count` orders out over a bus that alters answers by chance; judge what they leave."""
    orders = [{"order": number, "unit": 5, "year": number % 100, "cri": number // 100 % 101}
              for number in range(1, count + 1)]
    with new_folder() as folder:
        desk, bus = desk_of(folder, orders, b""), bus_of(5, simulated_link.Altering(answers=RATE, seed=seed))
        desk.options = PLANS[plan]
        want(desk.over(bus).status, 0)
        judge(bus, {unit.short_address: BANK_1 for unit in bus.units}, desk.held())
        codes = [group.code for group in groups_of(desk.held())]
    # Some come to no good end, as a length or a format that is altered is believed.
    assert len(codes) == count and codes.count(0) > 0.8 * count, codes


class AlteredTest(BenchTest):
    """Orders over a bus that alters one answer or one bit of a frame."""

    @in_cases(len(ANSWERED))
    def test_each_answer(self, case):
        name, plan = ANSWERED[case]
        for number in range(1, CASES[name].frames[plan] + 1):
            for mask in 1 << number % 8, 1 + 97 * number % 0xFF:
                try_answer(name, plan, number, mask)

    @in_cases(len(BESIDE))
    def test_frames_that_become_writes(self, case):
        # Which frames those are hangs on these bits alone: from C3h to C7h, and from 47h and 49h to C7h and C9h.
        for plan in PLANS:
            for name in "year", "jumps":
                try_frames(name, plan, list(BESIDE)[case], (0x0400, 0x8000))

    def test_orders_by_chance(self):
        for plan in PLANS:
            try_orders(plan, 100, 7)


def all_tasks():
    """Give all that there is to try."""
    for name, case in CASES.items():
        for plan, frames in case.frames.items():
            for number in range(1, frames + 1):
                yield from (partial(try_answer, name, plan, number, mask) for mask in range(1, 0x100))
            yield from (partial(try_frames, name, plan, unit, [1 << bit for bit in range(16)]) for unit in BESIDE)
    yield from (partial(try_orders, plan, 500, seed) for plan in PLANS for seed in range(20))


def fault_of(task):
    """Do a task; give what is wrong, or None."""
    try:
        task()
    except AssertionError as fault:
        return str(fault)


def main(arguments):
    """Try everything with a program, and return the status."""
    if len(arguments) != 1:
        print(__doc__, file=sys.stderr)
        return 2
    settings["program"] = pathlib.Path(arguments[0]).resolve()
    with concurrent.futures.ProcessPoolExecutor() as pool:
        faults = list(pool.map(fault_of, all_tasks(), chunksize=64))
    wrong = [fault for fault in faults if fault is not None]
    for fault in wrong:
        print("FAILED:", fault)
    print(f"{len(faults) - len(wrong)} passed, {len(wrong)} failed")
    return 1 if wrong else 0


if __name__ == "__main__":
    sys.exit(main(sys.argv[1:]))
