"""The base of the tests of short addresses: simulated units, runs over them, and the judge of what a run leaves.

A run is of the program, or of the plan in address_plan.py, which stands for it if there is none. The words of the
rules are put down by hand after IEC 62386-102.
"""

import itertools
import random
import re
from typing import NamedTuple

from base import want
from driven import Ended, simulated_link

import address_plan
import addressing
import collisions

TASKS = {"--all": "all", "--list": "list", "--count": "count"}
OPEN = "open: units answer searches for up to 16.5 minutes"
SUMMARY = re.compile("given ([0-9]+) missing ([01]) shared ([0-9]+)")
UNIT = re.compile("unit ([0-9]|[1-5][0-9]|6[0-3]) random ([0-9A-F]{6})")
# Each word that a run may send: TERMINATE, INITIALISE, RANDOMISE, COMPARE; SEARCHADDRH, M and L, PROGRAM SHORT ADDRESS,
# QUERY SHORT ADDRESS; QUERY MISSING SHORT ADDRESS; and to one short address QUERY CONTROL GEAR PRESENT and QUERY RANDOM
# ADDRESS (H), (M) and (L).
OF_ALL = "A100 A700 A900 B1.. B3.. B5.. BB00 FF96 [0-7][13579BDF]91 [0-7][13579BDF]C[234]"
CLOSING = ["B1FF", "B3FF", "B5FF", "A100", "A100", "A900", "A900"]
OF_TASK = {"give": "A5FF B7[0-7][13579BDF]", "all": "A5FF A5[0-7][13579BDF] B7[0-7][13579BDF] B7FF", "list": "",
           "count": "A500 AB00"}
# All readings of what isn't sure of the standard.
READINGS = [addressing.Rules(*flags) for flags in itertools.product((False, True), repeat=4)]


class LosesOne(collisions.Collisions):
    """The losses of a bus with this many units: one frame, counted from 1, to the unit of one number alone."""

    def __init__(self, units, unit, frame):
        super().__init__()
        self.calls, self.lost = 0, units * (frame - 1) + unit

    def reaches(self):
        """Tell whether a frame reaches the next unit."""
        self.calls += 1
        return self.calls - 1 != self.lost


class AltersOne(simulated_link.Altering):
    """The alterations of a bus: the answer to one frame, counted from 1."""

    def __init__(self, frame):
        super().__init__()
        self.left = frame

    def masks(self):
        """Give the bits that are turned in the next frame, and those in its answer."""
        self.left -= 1
        return 0, 0x5A if self.left == 0 else 0


class Crowd(simulated_link.Bus):
    """A bus that keeps each word that was carried, with the answer that was reported."""

    def __init__(self, *arguments, **options):
        super().__init__(*arguments, **options)
        self.exchanges = []

    def carry(self, word):
        """Carry a forward frame; return the answer that the interface tells, or None."""
        answer = super().carry(word)
        self.exchanges.append((f"{word:04X}", answer))
        return answer


class LosesProgram(Crowd):
    """A bus that loses the first PROGRAM SHORT ADDRESS, and all answers to questions until the TERMINATE after it."""

    is_before, is_under_way = True, False

    def carry(self, word):
        """Carry a forward frame; return the answer that the interface tells, or None."""
        if word >> 8 == 0xB7 and self.is_before:
            self.is_before, self.is_under_way = False, True
            self.lost_frames = {self.frames + 1}
        self.is_under_way = self.is_under_way and word != 0xA100
        self.lost_answers = {self.frames + 1} if self.is_under_way else ()
        return super().carry(word)


def crowd(new=0, shorts=(), seed=1, rules=addressing.Rules(), chances=None, kind=Crowd, **losses):
    """Make a bus of new units, and of units at these short addresses, which may share them.

    The chances are those of `Collisions`, the losses those of `Bus`. Units draw by the seed.
    """
    clock, units = addressing.Clock(), []
    for number, short in enumerate([None] * new + list(shorts)):
        chance = random.Random(f"{seed} {number}")
        drawn = addressing.UNDRAWN if short is None else chance.randrange(addressing.UNDRAWN)
        addresses = addressing.Addresses(clock, chance, short, drawn, rules)
        units.append(simulated_link.AddressableUnit(f"unit {number}", addresses))
    if not isinstance(chances, collisions.Collisions):
        chances = collisions.Collisions(seed=seed, **chances or {})
    return kind(units, seed=seed, collisions=chances, clock=clock, **losses)


def task_of(words):
    """Give what a command line asks for."""
    return next((TASKS[word] for word in words if word in TASKS), "give")


class Killed(Exception):
    """A run was killed."""


def plan_over(bus, words=(), stop=None):
    """Run the plan over a bus; a stop (k, moment) kills it at its frame k, once that is `sent` or `carried`."""
    sent = []

    def carry(word):
        sent.append(b"%04X\n" % word)
        if stop == (len(sent), "sent"):
            raise Killed
        answer = bus.carry(word)
        if stop == (len(sent), "carried"):
            raise Killed
        return answer

    units = [int(word) for word in words if word not in TASKS]
    try:
        return Ended(*address_plan.Run(carry, units, task_of(words)).ended())
    except Killed:
        return Ended(-9, b"".join(sent), "")


class Told(NamedTuple):
    """The output of a run: random addresses by short address, shared ones, K of `apart K`, the last line, the rest."""

    units: dict
    shared: list
    apart: int | None
    is_unclear: bool
    is_open: bool
    summary: tuple | None
    rest: list


def told_by(text):
    """Read what a run told."""
    units, shared, apart, summary, rest, is_open, is_unclear = {}, [], None, None, [], False, False
    for line in text.splitlines():
        assert summary is None or line == OPEN, f"behind the last line stands {line!r}"
        if known := UNIT.fullmatch(line):
            assert int(known[1]) not in units, f"{line!r} for a second time"
            units[int(known[1])] = int(known[2], 16)
        elif known := re.fullmatch("shared ([0-9]+)", line):
            shared.append(int(known[1]))
        elif known := re.fullmatch("apart ([0-9]+)", line):
            apart = int(known[1])
        elif known := SUMMARY.fullmatch(line):
            summary = tuple(map(int, known.groups()))
        elif line in (OPEN, "unclear"):
            is_open, is_unclear = is_open or line == OPEN, is_unclear or line != OPEN
        else:
            rest.append(line)
    return Told(units, shared, apart, is_unclear, is_open, summary, rest)


def want_status(told):
    """Give the status with which a run has to end that came to its last line and told so much."""
    return int(bool(told.summary[1] or told.shared or told.is_open or told.is_unclear))


def held(bus):
    """Give what each unit holds: its short and its random address, whether a search reaches it, and its memory."""
    return [(unit.short_address, unit.addresses.drawn, unit.addresses.state != addressing.DISABLED,
             {number: bytes(bank) for number, bank in unit.banks.items()}) for unit in bus.units]


def at_each(bus):
    """Give the random addresses of the units by short address."""
    found = {}
    for unit in bus.units:
        found.setdefault(unit.short_address, []).append(unit.addresses.drawn)
    return found


def want_kept(bus, before, task):
    """Raise unless memory is as before, and both addresses of units that no search reached, as far as a task goes.

    It holds at each moment of a run, however much was lost.
    """
    for unit, (short, drawn, is_open, banks) in zip(bus.units, before):
        want((unit.name, {number: bytes(bank) for number, bank in unit.banks.items()}), (unit.name, banks))
        assert not unit.is_enabled, f"{unit.name} is write-enabled"
        if task == "count" or task == "list":
            want((unit.name, unit.short_address), (unit.name, short))
        if task != "all" and task != "count" and short is not None and not is_open:
            want((unit.name, unit.short_address, unit.addresses.drawn), (unit.name, short, drawn))


def want_true(bus, before, ended, task):
    """Raise unless what a run that ended has told is so, with the status that belongs to it; give what it told.

    It holds however much was lost.
    """
    told, there = told_by(ended.told), at_each(bus)
    want_kept(bus, before, task)
    want((told.rest, told.summary[2]), ([], len(told.shared)), ended.told)
    for short, drawn in told.units.items():
        assert there.get(short) == [drawn] or len(there.get(short, [])) > 1, (short, drawn, there)
    want(ended.status, want_status(told), ended.told)
    want_rules(bus.exchanges[-len(ended.sent.split()):], task, told)
    return told


def want_all_told(bus, before, told, task):
    """Raise where a run over a bus that loses little hasn't told who shares an address, has none or is open."""
    there = at_each(bus)
    if not told.is_open:
        want([unit.name for unit in bus.units if unit.addresses.state != addressing.DISABLED], [], "left open")
    doubled = [short for short, them in there.items() if short is not None and len(them) > 1]
    old = {short for short, *_ in before} if task == "give" else set()
    assert set(doubled) <= set(told.shared) | old, (doubled, told)
    # Noise may be heard as a unit that has none.
    assert told.summary[1] or told.is_unclear or None not in there, told
    if task == "give" and want_status(told) == 0:
        want(len(told.units), sum(short is None for short, *_ in before))


class Rules:
    """Looks whether each frame of a run stands where it may stand, and is of its task."""

    def __init__(self, task):
        self.task = task
        self.allowed = re.compile("|".join((OF_ALL + " " + OF_TASK[task]).split()))
        self.search, self.own = {}, None  # the search address by first bytes, and the short address told at it
        self.silent, self.answers = {}, {}  # asks in a row that nobody at an address answered; the last answers
        self.told = set()  # the bytes of the short addresses that units told since one was taken away
        self.since = None  # the words since PROGRAM SHORT ADDRESS and the questions after it

    def look(self, word, answer):
        """Look at the next frame, with its answer."""
        assert self.allowed.fullmatch(word), f"{word} is no word of {self.task}"
        self._want_terminated(word)
        if word[:2] in ("B1", "B3", "B5"):
            self.search[word[:2]], self.own = word[2:], None
        elif word == "BB00":
            self.own = answer if answer is not None else self.own
            self.told.add(answer)
        elif word[:2] == "B7":
            self._want_programmed(word)
        elif word[0] < "8":
            is_silent = word[2:] == "91" and answer is None
            self.silent[word[:2]] = self.silent.get(word[:2], 0) + 1 if is_silent else 0
            self.answers[word] = answer if answer is not None else self.answers.get(word)

    def _want_terminated(self, word):
        """Raise unless what comes after PROGRAM SHORT ADDRESS and its questions is TERMINATE, twice."""
        if word[:2] == "B7":
            self.since = []
        elif self.since is not None and (self.since or word != "BB00"):
            want(word, "A100", "after PROGRAM SHORT ADDRESS")
            self.since = [word] if not self.since else None

    def _want_programmed(self, word):
        """Raise unless the unit at a search address that was drawn has told its own, and the new one is free."""
        assert len(self.search) == 3 and set(self.search.values()) != {"FF"}, (word, self.search)
        if word == "B7FF":
            assert self.own is not None and self.own % 2 == 1 and self.own < 0x80, (word, self.own)
            self.told.clear()
        else:
            want((word, self.own, self.silent.get(word[2:], 0) >= 8), (word, 0xFF, True))
            assert int(word[2:], 16) not in self.told, f"{word} though a unit told that it has it"
        self.own = None


def want_rules(exchanges, task, told):
    """Raise unless the frames of a run are of its task and in their places, and each reported address was read."""
    rules = Rules(task)
    for word, answer in exchanges:
        rules.look(word, answer)
    for short, drawn in told.units.items():
        read = [rules.answers.get(f"{2 * short + 1:02X}{second}") for second in ("C2", "C3", "C4")]
        want(read, list(drawn.to_bytes(3, "big")), f"unit {short} was told and not read so")
    words, answers = zip(*exchanges)
    brought_in = [number for number, word in enumerate(words) if word[:2] == "A5"] or [len(words)]
    # The frames of a census begin with TERMINATE.
    begun = words[:brought_in[0]]
    assert closings(begun) or task == "count" and begun == ("A100", "A100"), f"it begins without closing: {begun}"
    is_closed = any(answers[at + 5:at + 7] == (None, None) for at in closings(words)
                    if at > brought_in[-1] or brought_in == [len(words)])
    want(is_closed, not told.is_open)


def closings(words):
    """Give where TERMINATE was sent twice at the highest search address, and then COMPARE twice."""
    return [at for at in range(len(words) - 6) if list(words[at:at + 7]) == CLOSING]
