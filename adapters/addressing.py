"""The addresses of a simulated unit: its short address, its random address, and how the first is given by the second.

IEC 62386-102: special commands, initialisation state, random address search. docs/ADDRESS.md has the frames,
docs/GEAR.md the rules that may be read in several ways. Nothing of memory access is here.
"""

import re
from typing import NamedTuple

from adapter import ASK_MISSING, ASK_PRESENT, COMPARE

YES = MASK = 0xFF
TERMINATE, RANDOMISE, WITHDRAW, ASK_SHORT = 0xA100, 0xA700, 0xAB00, 0xBB00
# First bytes of special commands whose second byte says more.
INITIALISE, PROGRAM, VERIFY = 0xA5, 0xB7, 0xB9
# First bytes of SEARCHADDRH, M and L, and second bytes of QUERY RANDOM ADDRESS (H), (M) and (L), with the lowest bit
# of the byte.
SEARCH = {0xB1: 16, 0xB3: 8, 0xB5: 0}
ASK_RANDOM = {0xC2: 16, 0xC3: 8, 0xC4: 0}
# The random or search address before one is drawn or set; no unit draws it.
UNDRAWN = 0xFFFFFF
DISABLED, ENABLED, WITHDRAWN = range(3)
# Seconds.
PAIR_TIME = DRAWING_TIME = 0.1
FRAME_TIME, ANSWERED_TIME = 0.029, 0.049


class Clock:
    """The time of a bus in seconds, as its frames take it."""

    def __init__(self):
        self.now = 0.0

    def pass_frame(self, is_answered):
        """Let the time of a frame pass, and of its answer."""
        self.now += ANSWERED_TIME if is_answered else FRAME_TIME


class Rules(NamedTuple):
    """How the standard is read where it may be read in several ways."""

    re_enables: bool = False  # INITIALISE brings a withdrawn unit back into the search
    withdrawn_draws: bool = False  # RANDOMISE counts in a withdrawn unit
    searches_disabled: bool = False  # SEARCHADDR counts outside of the initialisation state
    is_deaf_drawing: bool = False  # a unit hears nothing in the 100 ms after RANDOMISE
    period: float = 15 * 60  # seconds until the initialisation state ends by itself
    store_time: float = 0  # seconds for which a loss of power takes a change of the addresses back


EDITIONS = {1: Rules(re_enables=True, withdrawn_draws=True, searches_disabled=True), 2: Rules()}


class Addresses:
    """The addresses of a unit. The chance draws its random addresses."""

    def __init__(self, clock, chance, short=None, drawn=UNDRAWN, rules=EDITIONS[2]):
        self.clock, self.chance, self.rules = clock, chance, rules
        self.short, self.drawn = self.stored = short, drawn
        self.changed = None
        self.power_up()

    def power_up(self):
        """Lose the power and get it back: the addresses stay as they are stored, and the initialisation state ends."""
        self.short, self.drawn = self.stored = self.kept()
        self.state, self.search, self.changed = DISABLED, UNDRAWN, None
        self.half_pair, self.half_pair_at, self.deaf_until, self.until = None, 0.0, 0.0, 0.0

    def kept(self):
        """Give what stays without power: the short address, or None, and the random address."""
        is_settled = self.changed is None or self.clock.now - self.changed >= self.rules.store_time
        return (self.short, self.drawn) if is_settled else self.stored

    def is_deaf(self):
        """Tell whether the unit hears nothing, since it draws a random address."""
        return self.clock.now < self.deaf_until

    def hear(self, word):
        """Do what a unit does with a forward frame; return its answer, or None."""
        if self.state != DISABLED and self.clock.now >= self.until:
            self.state = DISABLED
        first, second = divmod(word, 0x100)
        if first == INITIALISE or word == RANDOMISE:
            return self._hear_half(word, second)
        self.half_pair = None
        if word == TERMINATE:
            self.state = DISABLED
        elif word == ASK_MISSING:
            return YES if self.short is None else None
        elif first in SEARCH:
            self._set_search(SEARCH[first], second)
        elif first < 0x80:
            return self._answer(second) if self.short is not None and first == 2 * self.short + 1 else None
        elif self.state != DISABLED:
            return self._search(word, first, second)
        return None

    def _answer(self, second):
        """Answer a query to this short address."""
        if second in ASK_RANDOM:
            return self.drawn >> ASK_RANDOM[second] & 0xFF
        return YES if second == ASK_PRESENT else None

    def _hear_half(self, word, second):
        """Hear INITIALISE or RANDOMISE, which count where they come twice in a row."""
        is_pair = self.half_pair == word and self.clock.now - self.half_pair_at <= PAIR_TIME
        self.half_pair, self.half_pair_at = None if is_pair else word, self.clock.now
        if not is_pair:
            return
        if word != RANDOMISE:
            self._initialise(second)
        elif self.state == ENABLED or self.state == WITHDRAWN and self.rules.withdrawn_draws:
            self._change(self.short, self.chance.randrange(UNDRAWN))
            self.deaf_until = self.clock.now + FRAME_TIME + DRAWING_TIME if self.rules.is_deaf_drawing else 0.0

    def _initialise(self, second):
        """Come into the initialisation state, or stay in it for the whole period, where this unit is meant."""
        if second == 0 or second == (MASK if self.short is None else 2 * self.short + 1):
            self.until = self.clock.now + self.rules.period
            self.state = ENABLED if self.state == DISABLED or self.rules.re_enables else self.state

    def _set_search(self, lowest_bit, byte):
        if self.state != DISABLED or self.rules.searches_disabled:
            self.search = self.search & ~(0xFF << lowest_bit) | byte << lowest_bit

    def _search(self, word, first, second):
        """Hear a command of the search in the initialisation state."""
        if word == COMPARE:
            return YES if self.state == ENABLED and self.drawn <= self.search else None
        if first == VERIFY:
            return YES if self.short is not None and second == 2 * self.short + 1 else None
        if self.drawn != self.search:
            return None
        if word == ASK_SHORT:
            return MASK if self.short is None else 2 * self.short + 1
        if word == WITHDRAW:
            self.state = WITHDRAWN
        if first == PROGRAM and (second == MASK or second < 0x80 and second % 2):
            self._change(None if second == MASK else second // 2, self.drawn)
        return None

    def _change(self, short, drawn):
        self.stored = self.kept()
        self.short, self.drawn, self.changed = short, drawn, self.clock.now


def line_of(name, short, drawn):
    """Spell the addresses of a unit on a line: its name, short address or --, random address."""
    return f"{name} {'--' if short is None else short} {drawn:06X}\n"


def lines_in(text):
    """Read such lines; give by name the short address, or None, and the random address."""
    found = {}
    for line in text.splitlines():
        known = re.fullmatch(r"(\w+) (--|[0-9]|[1-5][0-9]|6[0-3]) ([0-9A-F]{6})", line)
        if not known:
            raise ValueError(f"the line {line!r} is no unit with a short address, or --, and a random address")
        found[known[1]] = None if known[2] == "--" else int(known[2]), int(known[3], 16)
    return found
