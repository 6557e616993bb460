"""How units are given short addresses, in plain Python: for desk_addressing.py and address_benches.py.

Nothing here comes from the program or from the simulated units: the words are put down by hand after IEC 62386-102.
"""

from typing import NamedTuple

TERMINATE, INITIALISE, RANDOMISE, COMPARE, WITHDRAW = 0xA100, 0xA500, 0xA700, 0xA900, 0xAB00
HIGH, MIDDLE, LOW, PROGRAM = 0xB100, 0xB300, 0xB500, 0xB700
ASK_SHORT, ASK_MISSING = 0xBB00, 0xFF96
PRESENT, RANDOM_HIGH, RANDOM_MIDDLE, RANDOM_LOW = 0x91, 0xC2, 0xC3, 0xC4
EVERY, MISSING = 0x00, 0xFF  # whom INITIALISE brings in, besides those at a short address
NONE = 0xFF  # MASK: no short address
UNDRAWN = 0xFFFFFF
TRIES, MOST_CARE, SHORTS = 8, 4, 64
OPEN = "open: units answer searches for up to 16.5 minutes\n"


class Broken(Exception):
    """The link gives no answer to a frame any more; its text is the fault."""


class Lost(Exception):
    """A round found nothing that it could rest on."""


class Wanted(NamedTuple):
    """How a run has to end: its status, its frames' lines, what it tells."""

    status: int
    sent: bytes
    told: str


def to(short, second):
    """Give the word of a command to a short address."""
    return at(short) << 8 | second


def at(short):
    """Give the byte that stands for a short address: 0AAAAAA1 in binary digits."""
    return 2 * short + 1


def care_after(fails):
    """Give how often each frame is sent, and how many noes in a row are believed, after this many failures in a row."""
    return min(fails + 1, MOST_CARE)


class Run:
    """A run over a link, of which `carry(word)` gives the answer to a frame, or None."""

    def __init__(self, carry, units=(), task="give"):
        self.carry, self.units, self.task = carry, units, task
        self.words, self.lines = [], []
        self.programmed, self.used, self.named, self.shared = set(), set(), set(), []
        self.is_missing, self.is_closed, self.is_clear = False, False, True

    # Pieces

    def send(self, *words):
        """Send frames; give the answer to the last."""
        for word in words:
            self.words.append(word)
            answer = self.carry(word)
        return answer

    def ask(self, word, tries=TRIES):
        """Ask until something comes back; give that, or None."""
        for _ in range(tries):
            answer = self.send(word)
            if answer is not None:
                return answer
        return None

    def is_answered(self, word, needed=2):
        """Tell whether as many of eight asks are answered as needed: one could be noise."""
        for _ in range(TRIES):
            needed -= self.send(word) is not None
            if not needed:
                return True
        return False

    def is_present(self, short, needed=2):
        """Tell whether somebody is at a short address."""
        return self.is_answered(to(short, PRESENT), needed)

    def put(self, address, care=1):
        """Put the search address."""
        for _ in range(care):
            self.send(HIGH | address >> 16, MIDDLE | address >> 8 & 0xFF, LOW | address & 0xFF)

    # The search

    def open(self, whom, care):
        """Bring units into the initialisation state, and let them draw random addresses."""
        self.send(TERMINATE, *2 * care * [INITIALISE | whom], *2 * care * [RANDOMISE])
        self.put(UNDRAWN, max(care, 2))

    def is_below(self, register, byte, care):
        """Tell whether any unit compares with this byte in the search address; `care` noes in a row are believed."""
        for _ in range(care):
            self.send(*care * [register | byte])
            if self.send(COMPARE) is not None:
                return True
        return False

    def find(self, care):
        """Find the lowest random address, byte by byte. It is but a guess until a unit answers at it."""
        found = 0
        for register in (HIGH, MIDDLE, LOW):
            low, high = 0, 0xFF
            while low < high:
                middle = (low + high) // 2
                low, high = (low, middle) if self.is_below(register, middle, care) else (middle + 1, high)
            self.send(*care * [register | low])
            found = found << 8 | low
        self.put(found, care)
        return found

    def round(self, whom, new, care):
        """Give the unit with the lowest random address of these a short address, or none; raise where it is lost."""
        self.open(whom, care)
        found = self.find(care)
        if found == UNDRAWN or self.ask(ASK_SHORT, 2 * care) != whom:
            raise Lost
        for _ in range(2 * care):
            self.send(PROGRAM | new)
            if self.ask(ASK_SHORT, 2 * care) != whom:
                break
        self.send(TERMINATE, TERMINATE)

    def close(self):
        """Leave no unit in the initialisation state: after TERMINATE none compares. Tell whether that is so."""
        for _ in range(TRIES):
            self.put(UNDRAWN)
            self.send(TERMINATE, TERMINATE)
            if [self.send(COMPARE), self.send(COMPARE)] == [None, None]:
                return True
        return False

    # Parts of a run

    def next_short(self):
        """Give the next short address that is free: of the named ones, and then the lowest; or None."""
        for short in [*self.units, *range(SHORTS)]:
            if short not in self.used:
                if not self.is_present(short, 1):
                    return short
                self.used.add(short)
        return None

    def give(self):
        """Give each unit that has none a short address, as long as there are some."""
        fails = 0
        while fails < TRIES and self.is_answered(ASK_MISSING):
            short = self.next_short()
            if short is None:
                return
            try:
                self.round(MISSING, at(short), care_after(fails))
                self.programmed.add(short)
                self.used.add(short)
                fails = 0
            except Lost:
                fails += 1

    def clear(self, short):
        """Take a short address away from all units at it, one by one."""
        fails = 0
        while fails < TRIES and self.is_present(short):
            try:
                self.round(at(short), NONE, care_after(fails))
                fails = 0
            except Lost:
                fails += 1

    def name(self, short):
        """Read the random address at a short address until two readings agree, and tell it."""
        if not self.is_present(short):
            return
        readings = []
        while len(readings) < TRIES:
            read = [self.ask(to(short, it)) for it in (RANDOM_HIGH, RANDOM_MIDDLE, RANDOM_LOW)]
            if None in read:
                break
            if readings[-1:] == [read]:
                self.named.add(short)
                self.lines.append("unit {} random {:02X}{:02X}{:02X}\n".format(short, *read))
                return
            readings.append(read)
        self.shared.append(short)
        self.lines.append(f"shared {short}\n")

    def count(self):
        """Find each unit, ask its short address and withdraw it, until none compares; tell what was counted."""
        told, fails, last = [], 0, None
        self.open(EVERY, 2)
        while fails < TRIES:
            care = care_after(fails)
            self.put(UNDRAWN, care)
            if self.ask(COMPARE) is None:
                return self.tell_count(told)
            found = self.find(care)
            answer = self.ask(ASK_SHORT)
            if answer is None or found == UNDRAWN:
                fails += 1
                continue
            fails = 0
            # A unit that didn't hear WITHDRAW is found again.
            told += [answer] if found != last else []
            last = found
            self.send(*care * [WITHDRAW])
        self.is_clear = False
        self.lines.append("unclear\n")

    def tell_count(self, told):
        """Tell that units are apart, or which share a short address."""
        self.is_missing = NONE in told
        self.shared = [short for short in range(SHORTS) if told.count(at(short)) > 1]
        self.lines += [f"shared {short}\n" for short in self.shared]
        if not self.shared and not self.is_missing:
            self.lines.append(f"apart {len(told)}\n")

    # The whole

    def ended(self):
        """Run to the end, or until the link breaks; give how."""
        fault = ""
        try:
            taken = [short for short in self.units if self.is_present(short, 1)]
            if taken:
                return Wanted(1, self.sent(), "".join(f"unit {short} is taken\n" for short in taken))
            self.whole()
        except Broken as broken:
            fault = f"drive fault {broken}\n"
        told = "".join(self.lines) + ("" if self.is_closed else OPEN)
        last = f"given {len(self.programmed & self.named)} missing {int(self.is_missing)} shared {len(self.shared)}\n"
        is_well = not (fault or self.is_missing or self.shared) and self.is_closed and self.is_clear
        return Wanted(int(not is_well), self.sent(), told + (fault or last))

    def whole(self):
        """Do what is asked."""
        self.close()
        if self.task == "count":
            self.count()
        for short in range(SHORTS) if self.task == "all" else ():
            self.clear(short)
        if self.task in ("give", "all"):
            self.give()
        if self.task != "count":
            self.is_missing = self.is_answered(ASK_MISSING)
            for short in range(SHORTS) if self.task in ("all", "list") else sorted(self.programmed):
                self.name(short)
        self.is_closed = self.close()

    def sent(self):
        """Give the lines of the frames."""
        return b"".join(b"%04X\n" % word for word in self.words)
