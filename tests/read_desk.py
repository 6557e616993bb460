"""The base of the tests of `read`, `verify` and `scan`: runs over a link, and units that do more than the desk's."""

import copy
import json
import pathlib

import driven
from base import settings, want
from drive_desk import PRESENT
from driven import simulated_link
from read_plan import check_passive, wanted_read, wanted_scan, wanted_verify

# A bank of 17 with another byte at each location, and the answers that it gives to `read`, put down by hand.
BANK_17 = bytes([0x10, 0xA1, 0xFF, *range(0x83, 0x91)])
TEXT_17 = "10 A1 FF 83 84 85 86 87 88 89 8A 8B 8C 8D 8E 8F\n90\n"
FRAMES_17 = "C301 0B9C A300 0B98 0BC5 0B98 0B9C C301 0B9C A301 0B98".split() + ["0BC5"] * 16 + ["0B98", "0B9C"]
ANSWERS_17 = ("-- 01 -- 00 10 01 01 -- 01 -- 01 A1 FF 83 84 85 86 87 88 89 8A 8B 8C 8D 8E 8F 90 11 01").split()
SENT_17 = "".join(word + "\n" for word in FRAMES_17).encode()
GIVEN_17 = "".join(answer + "\n" for answer in ANSWERS_17).encode()
TOLD_17 = "unit 5 bytes 17\n"
SILENT = "unit 5 silent\n"
# A bank of 120 that has the GTIN's bytes, and the answers that it gives to `verify`.
VERIFY_SENT = (b"C301\n0B9C\nA300\n0B98\n0BC5\n0B98\n0B9C\n"
               b"C301\n0B9C\nA303\n0B98\n" + b"0BC5\n" * 6 + b"0B98\n0B9C\n")
VERIFY_GIVEN = "-- 01 -- 00 77 01 01 -- 01 -- 03 03 A4 CE EF AD AB 09 01"
SAME = "order 1 unit 5 same\n"


def varied_bank(length):
    """Give a bank of this many locations in which neighbours hold other bytes, and none FFh but the lock byte."""
    bank = bytearray((7 * at + 3 * (at // 16)) % 251 for at in range(length))
    bank[0], bank[2] = length - 1, simulated_link.SHUT
    bank[0x11:0x13] = b"\x00\x03"[:max(length - 0x11, 0)]
    return bytes(bank)


class WithBank0(simulated_link.Unit):
    """A unit with a bank 0 that is read as bank 1 is, and holds at no location what that does; it keeps all of it."""

    def __init__(self, short_address, bank_1):
        super().__init__(short_address, bank_1)
        self.banks[0] = bytearray(byte ^ 0x55 for byte in bank_1)

    def power_up(self):
        """Lose and get back the power."""
        kept = self.banks.get(0)
        kept = None if kept is None else bytes(kept)
        super().power_up()
        if kept is not None:
            self.banks[0][:] = kept


class Changing(simulated_link.Unit):
    """A unit with another byte at a location of bank 1 from its frame of a number on: {number: (location, byte)}."""

    def __init__(self, short_address, bank_1, changes):
        super().__init__(short_address, bank_1)
        self.changes = changes
        self.heard = 0

    def hear(self, word, refusing=False):
        """Do what a unit does with a forward frame."""
        self.heard += 1
        if self.heard in self.changes:
            location, byte = self.changes[self.heard]
            self.banks[1][location] = byte
        return super().hear(word, refusing)


class Reading(driven.Desk):
    """Runs of `read`, `verify` or `scan` in a folder. The frames of each of them are looked at, in any test."""

    def __init__(self, folder, command="read", unit=5, orders=(), program=None):
        self.program = program or settings["program"]
        self.folder = pathlib.Path(folder)
        self.command, self.unit, self.given_orders = command, unit, orders
        self.units, self.with_gtin = (), False
        self.options = []
        self.orders = self.folder / "orders.json"
        self.bank = self.folder / "bank.hex"
        if command == "verify":
            self.write_orders(orders)

    def words(self):
        """Give the command line."""
        behind = {"read": [str(self.unit), self.bank], "verify": [self.orders],
                  "scan": ["--gtin"] * self.with_gtin + [str(unit) for unit in self.units]}
        return [self.program, self.command, *self.options, *behind[self.command]]

    def new(self):
        """Give the path of the file that is to take the place of HEXFILE."""
        return self.bank.with_name(self.bank.name + ".new")

    def give(self, answers, environment=None, timeout=driven.PATIENCE, **options):
        """Run the command with all of its standard input given at once."""
        ended = super().give(answers, environment, timeout, **options)
        check_passive(ended.sent or b"")
        return ended

    def over(self, bus, stop=None, environment=None):
        """Run the command over a bus, whose units' memory it must leave as it is."""
        banks = banks_of(bus)
        ended = super().over(bus, stop, environment)
        check_passive(ended.sent)
        is_as_it_was = bus.lost_power or any(isinstance(unit, Changing) for unit in bus.units) or banks_of(bus) == banks
        assert is_as_it_was, "a unit's memory has changed"
        return ended

    def text(self):
        """Give what HEXFILE has, or None where there is none."""
        return self.bank.read_text() if self.bank.exists() else None

    def wanted(self, carry):
        """Give how the command has to end over a link."""
        if self.command == "read":
            return wanted_read(carry, self.unit)
        if self.command == "scan":
            return wanted_scan(carry, self.units, self.with_gtin)
        return wanted_verify(carry, self.given_orders)

    def run(self, bus):
        """Run the command over a bus, in a folder without HEXFILE; it has to end as it ends by the plan. Give that."""
        self.bank.unlink(missing_ok=True)
        wanted = self.wanted(copy.deepcopy(bus).carry)
        ended = self.over(bus)
        want((*ended, self.text(), self.new().exists()), (wanted.status, wanted.sent, wanted.told, wanted.text, False))
        return wanted


def banks_of(bus):
    """Give the memory of each unit."""
    return [{number: bytes(bank) for number, bank in unit.banks.items()} for unit in bus.units]


def bus_of(*units, **losses):
    """Make a bus with its units."""
    return simulated_link.Bus(units, **losses)


def unit_of(length, short_address=5):
    """Make a unit with a varied bank of this many locations."""
    return simulated_link.Unit(short_address, varied_bank(length))


def full_orders():
    """Give the order of all fields of examples/full.json, for unit 5."""
    return json.loads((driven.ROOT / "examples" / "full.json").read_text())


def desk_for(folder, command, orders=None):
    """Make a desk for a command, with the order of a GTIN for unit 5, and with no HEXFILE."""
    desk = Reading(folder, command, orders=PRESENT if orders is None else orders)
    desk.bank.unlink(missing_ok=True)
    return desk


def as_lines(text):
    """Give the lines of answers that are spelled with spaces between them."""
    return "".join(answer + "\n" for answer in text.split()).encode()
