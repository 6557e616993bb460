"""The frames and output due of `read`, `verify` and `scan`, in plain Python: for test_read.py and fuzz.

Nothing here comes from the program: it is written from the words of its pages alone. The bytes that an order writes are
those of benchmarks/baseline.py, which knows nothing of the program either.
"""

import re
from typing import NamedTuple

import driven

MOST_TRIES = 8
MOST_OF_BLOCK = 16
LAST_LOCATION = 0xFE
FORMAT = b"\x00\x03"
ANY = range(0x100)
PASSED_OVER = None
PASSIVE = re.compile(rb"(?:A3[0-9A-F]{2}|C301|(?:[0-7][13579BDF])(?:98|9C|C5))\n")
ANSWER = re.compile(rb"([0-9A-Fa-f]{2}|--)\r?\n")
MOST_OF_LINE = 8

updates_of = driven.load(driven.ROOT / "benchmarks" / "baseline.py").updates_of


class Broken(Exception):
    """The link gives no answer to a frame any more; its text is the fault."""


class Wanted(NamedTuple):
    """How a run has to end: its status, its frames' lines, what it tells, and the text that HEXFILE has, or None."""

    status: int
    sent: bytes
    told: str
    text: str | None


def text_of(data):
    """Spell bytes as HEXFILE has them."""
    return "".join(data[at:at + 16].hex(" ").upper() + "\n" for at in range(0, len(data), 16))


def check_passive(sent):
    """Raise unless each of these lines is DTR0, DTR1 01h, QUERY CONTENT DTR0, QUERY CONTENT DTR1 or a read."""
    lines = sent.splitlines(keepends=True)
    assert all(PASSIVE.fullmatch(line) for line in lines), [line for line in lines if not PASSIVE.fullmatch(line)]


def block_frames(unit, location, count):
    """Give the frames of a try of a block, each with the answers that it wants, or None where any is passed over."""
    to_it = 0x200 * unit + 0x100
    ask_dtr0, ask_dtr1, read = to_it + 0x98, to_it + 0x9C, to_it + 0xC5
    return [(0xC301, PASSED_OVER), (ask_dtr1, [1]), (0xA300 + location, PASSED_OVER), (ask_dtr0, [location]),
            *[(read, ANY)] * count, (ask_dtr0, [location + count]), (ask_dtr1, [1])]


class Reader:
    """Reads blocks over a link, of which `carry(word)` gives the answer to a frame, or None; it keeps the frames."""

    def __init__(self, carry):
        self.carry = carry
        self.words = []

    def sent(self):
        """Give the lines of the frames."""
        return b"".join(b"%04X\n" % word for word in self.words)

    def try_block(self, unit, location, count):
        """Give the bytes, or None where a frame missed its answer."""
        found = []
        for word, wish in block_frames(unit, location, count):
            self.words.append(word)
            answer = self.carry(word)
            if wish is not PASSED_OVER and answer not in wish:
                return None
            if wish is ANY:
                found.append(answer)
        return bytes(found)

    def block(self, unit, location, count):
        """Give the bytes, or None where each try missed."""
        for _ in range(MOST_TRIES):
            found = self.try_block(unit, location, count)
            if found is not None:
                return found
        return None

    def bank(self, unit):
        """Give a unit's whole bank, or None where it is silent."""
        found = self.block(unit, 0x00, 1)
        while found is not None and len(found) <= (end := min(found[0], LAST_LOCATION)):
            more = self.block(unit, len(found), min(MOST_OF_BLOCK, end + 1 - len(found)))
            found = None if more is None else found + more
        return found

    def finding(self, unit, updates):
        """Give the word of an order's line, and the words after it."""
        greatest = max(updates)
        last = self.block(unit, 0x00, 1)
        if last is None or last[0] < greatest:
            return "silent" if last is None else "short"
        if greatest >= 0x13:
            held = self.block(unit, 0x11, 2)
            if held != FORMAT:
                return "silent" if held is None else "format"
        held = {}
        for row in rows_of(sorted(updates)):
            found = self.block(unit, row[0], len(row))
            if found is None:
                return "silent"
            held.update(zip(row, found))
        return compared(updates, held)


def compared(updates, held):
    """Give the word of an order's line whose locations hold these bytes."""
    others = [at for at in sorted(updates) if held[at] != updates[at]]
    return f"other {others[0]:02X} {held[others[0]]:02X}" if others else "same"


def rows_of(locations):
    """Split rising locations into rows of neighbours, of at most sixteen."""
    rows = []
    for location in locations:
        if rows and location == rows[-1][-1] + 1 and len(rows[-1]) < MOST_OF_BLOCK:
            rows[-1].append(location)
        else:
            rows.append([location])
    return rows


def bytes_of(order):
    """Give the byte that an order writes at each location, by location."""
    pairs = (line.split() for line in updates_of(order))
    return {int(location, 16): int(byte, 16) for location, byte in pairs}


def wanted_of(carry, course):
    """Follow a course over a link; it takes the reader and a list for its lines, and gives status and text."""
    reader, told = Reader(carry), []
    try:
        status, text = course(reader, told)
    except Broken as fault:
        status, text = 1, None
        told.append(f"drive fault {fault}")
    return Wanted(status, reader.sent(), "".join(line + "\n" for line in told), text)


def wanted_read(carry, unit):
    """Give how `read` has to end over a link."""

    def course(reader, told):
        found = reader.bank(unit)
        told.append(f"unit {unit} silent" if found is None else f"unit {unit} bytes {len(found)}")
        return (1, None) if found is None else (0, text_of(found))

    return wanted_of(carry, course)


def wanted_verify(carry, orders):
    """Give how `verify` has to end over a link, of orders none of which is refused."""

    def course(reader, told):
        for order in orders:
            finding = reader.finding(order["unit"], bytes_of(order))
            told.append(f"order {order['order']} unit {order['unit']} {finding}")
        if not orders:
            told.append("error: nothing was done: ORDERS has no orders")
        return 0 if all(line.endswith(" same") for line in told) else 1, None

    return wanted_of(carry, course)


def gtin_text(held):
    """Give the text of a GTIN whose six bytes are these: its last digit makes the weighted sum a multiple of ten."""
    digits = f"{int.from_bytes(held, 'big'):014}"
    if held == b"\xFF" * 6:
        return "unknown"
    total = sum(int(digit) * (1 if at % 2 else 3) for at, digit in enumerate(digits[:14]))
    return digits if len(digits) == 14 and total % 10 == 0 else f"raw {held.hex().upper()}"


def unit_text(unit, last, known):
    """Give the line of a unit with this last location, and these bytes from 03h to 10h, if they were read."""
    if known is None:
        return f"unit {unit} last {last:02X}"
    identification = "unknown" if known[6:] == b"\xFF" * 8 else known[6:].hex().upper()
    return f"unit {unit} last {last:02X} gtin {gtin_text(known[:6])} identification {identification}"


def wanted_scan(carry, units=(), with_gtin=False):
    """Give how `scan` has to end over a link, of these units or of all."""

    def course(reader, told):
        for unit in units or range(64):
            last, known = reader.block(unit, 0x00, 1), None
            if last is not None and with_gtin and last[0] >= 0x10:
                known = reader.block(unit, 0x03, 14)
                if known is None:
                    continue
            if last is not None:
                told.append(unit_text(unit, last[0], known and bytes(known)))
        told.append(f"units {len(told)}")
        return 0, None

    return wanted_of(carry, course)


def carried(answers):
    """Give the `carry` of a link that gives these bytes on standard input, whatever is sent, and then is over."""
    at = 0

    def carry(_):
        nonlocal at
        line = answers[at:at + MOST_OF_LINE + 1]
        if b"\n" not in line:
            raise Broken("6 TooLong" if len(line) > MOST_OF_LINE else "4 End")
        line = line[:line.index(b"\n") + 1]
        at += len(line)
        found = ANSWER.fullmatch(line)
        if not found:
            raise Broken("3 Line")
        return None if found[1] == b"--" else int(found[1], 16)

    return carry
