#!/usr/bin/env python3
"""Play units on a DALI bus for a command that speaks over its standard input and output.

    simulated_link.py [options] -- COMMAND WORDS..

It starts the command, answers its frames until it closes its output, and ends with its status. docs/LINK.md has the
lines, docs/FRAMES.md the frames, docs/GEAR.md what a simulated unit and a simulated bus do.
Status 1: the command sent a line that is no frame. Status 2: a wrong option, a file or the command's start failed.
"""

import argparse
import functools
import os
import pathlib
import random
import re
import signal
import subprocess
import sys
import time

import adapter
import addressing
import frames
from adapter import FRAME_LINE, NO_ANSWER, handed_on
from collisions import DAMAGED, Collisions

LONGEST_LINE = 64

# Address bytes of special commands, which every unit hears, with the number of the register that they set.
SET_REGISTER = {0xA3: 0, 0xC3: 1, 0xC5: 2}
WRITE = 0xC7
WRITE_NO_REPLY = 0xC9
# Second bytes of commands to one unit, with the number of the register that they ask for.
ASK_REGISTER = {0x98: 0, 0x9C: 1, 0x9D: 2}
ENABLE = 0x81
READ = 0xC5

LOCK_BYTE = 0x02
OPEN = 0x55
SHUT = 0xFF
BLANK_BANK_1 = bytes([0x77] + 16 * [0xFF] + [0x00, 0x03] + 101 * [0xFF])
BANK_2 = bytes([0x0F] + 15 * [0xFF])
# The file of a folder that has the addresses of the units that can be given one.
ADDRESSES = "addresses.txt"


class BadLine(Exception):
    """The command sent a line that is no frame."""


class Unit:
    """A unit at a short address, with bank 1, a bank 2 of 16 locations and three registers (DTR0, DTR1, DTR2)."""

    def __init__(self, short_address, bank_1=BLANK_BANK_1, fixed=()):
        """Make a unit with its power just on. The fixed locations of bank 1 can't be written."""
        if short_address is not None and not 0 <= short_address <= 63:
            raise ValueError(f"the short address {short_address} isn't 0 to 63")
        if not 17 <= len(bank_1) <= 255 or bank_1[0] != len(bank_1) - 1:
            raise ValueError("bank 1 hasn't 17 to 255 bytes, or the one at 00h isn't the last location")
        if not all(LOCK_BYTE < location < len(bank_1) for location in fixed):
            raise ValueError("a fixed location is below 03h or past the last location of bank 1")
        self.short_address, self.name = short_address, f"unit_{short_address}"
        self.banks = {1: bytearray(bank_1), 2: bytearray(BANK_2)}
        self.fixed = {(1, location) for location in fixed}
        self.power_up()

    def power_up(self):
        """Put what is volatile as it stands after power-up."""
        for bank in self.banks.values():
            bank[LOCK_BYTE] = SHUT
        self.registers = [0, 0, 0]
        self.is_enabled = False
        self.has_half_pair = False

    def hear(self, word, refusing=False):
        """Do what a unit does with a forward frame; return its answer, or None. A refusing unit stores no write."""
        address_byte, operand = divmod(word, 0x100)
        is_to_it = self.short_address is not None and address_byte == 2 * self.short_address + 1
        if is_to_it and operand == ENABLE:
            self.is_enabled = self.is_enabled or self.has_half_pair
            self.has_half_pair = not self.has_half_pair
            return None
        self.has_half_pair = False
        if address_byte in SET_REGISTER:
            self.registers[SET_REGISTER[address_byte]] = operand
        elif address_byte in (WRITE, WRITE_NO_REPLY):
            is_stored = self._write(operand, refusing)
            return operand if is_stored and address_byte == WRITE else None
        elif address_byte >= 0x80 or address_byte % 2 == 0 or operand not in (ENABLE, READ, *ASK_REGISTER):
            self.is_enabled = False
        elif is_to_it:
            return self._read() if operand == READ else self.registers[ASK_REGISTER[operand]]
        return None

    def _read(self):
        self.is_enabled = False
        location, number, _ = self.registers
        if number not in self.banks:
            return None
        self.registers[0] = min(location + 1, 0xFF)
        bank = self.banks[number]
        return bank[location] if location < len(bank) else None

    def _write(self, byte, refusing):
        location, number, _ = self.registers
        if not self.is_enabled or number not in self.banks:
            return False
        self.registers[0] = min(location + 1, 0xFF)
        bank = self.banks[number]
        is_lockable = LOCK_BYTE < location < len(bank) and (number, location) not in self.fixed
        if refusing or not (location == LOCK_BYTE or is_lockable and bank[LOCK_BYTE] == OPEN):
            return False
        bank[location] = byte
        return True


class AddressableUnit(Unit):
    """A unit that can be given a short address, and may have none; `addresses` has both of its addresses."""

    def __init__(self, name, addresses, bank_1=BLANK_BANK_1, fixed=()):
        """Make a unit with its power just on."""
        self.addresses = addresses
        super().__init__(addresses.short, bank_1, fixed)
        self.name = name

    def power_up(self):
        """Put what is volatile as it stands after power-up, and the addresses as they are stored."""
        super().power_up()
        self.addresses.power_up()
        self.short_address = self.addresses.short

    def hear(self, word, refusing=False):
        """Do what a unit does with a forward frame; return its answer, or None."""
        if self.addresses.is_deaf():
            return None
        answer, told = super().hear(word, refusing), self.addresses.hear(word)
        self.short_address = self.addresses.short
        return told if answer is None else answer


class Altering:
    """The alterations of a bus by chance: a bit of a frame, its answer to another byte. A seed says which and how."""

    def __init__(self, frames=0, answers=0, seed=1):
        self.frames, self.answers = frames, answers
        # A chance of its own: what is lost by this seed is the same, whatever is altered.
        self.chance = random.Random(f"altered {seed}")

    def masks(self):
        """Give the bits that are turned in the next frame, and those in its answer."""
        # The same draws for each frame, so that what is altered hangs on the seed and on its number alone.
        is_frame, is_answer = (self.chance.random() < chance for chance in (self.frames, self.answers))
        bit, byte = self.chance.randrange(16), self.chance.randrange(1, 0x100)
        return 1 << bit if is_frame else 0, byte if is_answer else 0


class Bus:
    """A bus with its units. Its losses and refusals are given by the numbers of frames, counted from 1."""

    def __init__(self, units, lost_frames=(), lost_answers=(), refused=(), lost_power=(), loss=0, seed=1,
                 altering=None, collisions=None, clock=None):
        """Make a bus. At a lost frame no unit hears, at a refused one no unit stores a write.

        Lost power is pairs of a short address and a frame: that unit loses its power and gets it back just before it.
        The loss is the chance by which each frame is lost besides, and each answer: which ones, says the seed.
        Without `altering` nothing is altered, and without `collisions` several answers at once are damaged. The clock
        is that of the units' addresses.
        """
        self.units = list(units)
        self.lost_frames = set(lost_frames)
        self.lost_answers = set(lost_answers)
        self.refused = set(refused)
        self.lost_power = set(lost_power)
        self.loss, self.chance = loss, random.Random(seed)
        self.altering = altering or Altering()
        self.collisions = collisions or Collisions()
        self.clock = clock or addressing.Clock()
        self.frames = 0

    def carry(self, word):
        """Carry a forward frame to the units; return the answer that the interface tells, or None.

        It may be altered on its way, and so may an answer, where exactly one came back.
        """
        self.frames += 1
        # Two draws for each frame, so that which ones are lost hangs on the seed and on their number alone.
        is_unheard, is_unanswered = (self.chance.random() < self.loss for _ in range(2))
        frame_mask, answer_mask = self.altering.masks()
        for unit in self.units:
            if (unit.short_address, self.frames) in self.lost_power:
                unit.power_up()
        is_unheard = is_unheard or self.frames in self.lost_frames
        answers = [] if is_unheard else self._answers(word ^ frame_mask)
        is_unanswered = is_unanswered or self.frames in self.lost_answers
        back = self.collisions.back([] if is_unanswered else answers)
        self.clock.pass_frame(back is not None)
        return self.collisions.told(word, back if back in (None, DAMAGED) else back ^ answer_mask)

    def _answers(self, word):
        """Give the answers of the units that a frame reaches."""
        refusing = self.frames in self.refused
        answers = [unit.hear(word, refusing) for unit in self.units if self.collisions.reaches()]
        return [answer for answer in answers if answer is not None]


class FiledBus(Bus):
    """A bus on which a frame takes its time, in milliseconds.

    Its units have each byte in their files once it is written, so that a kill takes but their power.
    """

    def __init__(self, folder, *arguments, frame_time=0, **more):
        super().__init__(*arguments, **more)
        self.folder, self.frame_time, self.filed = folder, frame_time, None
        save_units(folder, self.units)
        self._save_addresses()

    def carry(self, word):
        """Carry a forward frame; save the units that it changed before its answer is known."""
        time.sleep(self.frame_time / 1000)
        before = [bytes(unit.banks[1]) for unit in self.units]
        answer = super().carry(word)
        save_units(self.folder, [unit for unit, bank in zip(self.units, before) if unit.banks[1] != bank])
        self._save_addresses()
        return answer

    def _save_addresses(self):
        """Put the addresses that units keep without power in their file, where they aren't those that it has."""
        kept = {unit.name: unit.addresses.kept() for unit in self.units if isinstance(unit, AddressableUnit)}
        if kept and kept != self.filed:
            every = {**load_addresses(self.folder), **kept}
            lines = [addressing.line_of(name, *addresses) for name, addresses in every.items()]
            replace(pathlib.Path(self.folder, ADDRESSES), lines)
            self.filed = kept


def answer_to(bus, frame):
    """Carry a frame over a bus; return the answer as the command reads it."""
    answer = bus.carry(int(frame, 16))
    return NO_ANSWER if answer is None else b"%02X" % answer


def answer_lines(bus, read_line, write_line, show_frames=False):
    """Answer the frames of one command until its output ends or it reads no more.

    `read_line()` returns a line with its line feed, or what is left at the end; `write_line(line)` writes one.
    """
    carry = functools.partial(answer_to, bus)
    carry = frames.shown(carry) if show_frames else carry
    while (line := read_line()).endswith(b"\n") or len(line) >= LONGEST_LINE:
        if not (known := FRAME_LINE.fullmatch(line)):
            raise BadLine(f"the command's line {line!r} isn't four upper-case hexadecimal digits")
        answer = carry(known[1])
        try:
            write_line(answer + b"\n")
        except BrokenPipeError:
            return


def serve(bus, words, show_frames=False):
    """Start a command, answer its frames, and return its status (128 and the signal's number where one ended it)."""
    command = subprocess.Popen(words, stdin=subprocess.PIPE, stdout=subprocess.PIPE, bufsize=0,
                               pass_fds=handed_on(words))
    try:
        answer_lines(bus, functools.partial(command.stdout.readline, LONGEST_LINE), command.stdin.write, show_frames)
    except BaseException:
        command.kill()
        raise
    finally:
        command.stdin.close()
        command.stdout.close()
        status = command.wait()
    return status if status >= 0 else 128 - status


def load_unit(folder, short_address, fixed=()):
    """Power up a unit with bank 1 as its file has it, or a blank one where there is no file."""
    return load_bank(folder, f"unit_{short_address}", lambda bank_1: Unit(short_address, bank_1, fixed))


def load_bank(folder, name, unit_with):
    """Give what `unit_with` makes of bank 1 as the file of a unit has it, or of a blank one where there is no file."""
    path = pathlib.Path(folder, f"{name}.hex")
    digits = "".join(path.read_text("latin-1").split()) if path.exists() else BLANK_BANK_1.hex()
    if not re.fullmatch("(?:[0-9A-Fa-f]{2})*", digits):
        raise ValueError(f"{path}: it holds no bytes in hexadecimal: without this file the unit is a blank one")
    try:
        return unit_with(bytes.fromhex(digits))
    except ValueError as fault:
        raise ValueError(f"{path}: {fault}") from fault


def load_addresses(folder):
    """Give by name the addresses of the units that the file has, which may be absent."""
    path = pathlib.Path(folder, ADDRESSES)
    try:
        return addressing.lines_in(path.read_text("latin-1")) if path.exists() else {}
    except ValueError as fault:
        raise ValueError(f"{path}: {fault}") from fault


def load_addressable(folder, names, clock, rules, seed, fixed):
    """Power up units of these names, each with the short address that it has where the file has none."""
    known, units = load_addresses(folder), []
    for name, short in names.items():
        chance = random.Random(f"{name} {seed}")
        # A unit that has a short address was found by a random one before.
        drawn = addressing.UNDRAWN if short is None else chance.randrange(addressing.UNDRAWN)
        short, drawn = known.get(name, (short, drawn))
        addresses = addressing.Addresses(clock, chance, short, drawn, rules)
        unit_with = functools.partial(AddressableUnit, name, addresses, fixed=fixed.get(name, ()))
        units.append(load_bank(folder, name, unit_with))
    return units


def save_units(folder, units):
    """Put bank 1 of each unit, as it keeps it without power, in its file."""
    for unit in units:
        bank_1 = bytearray(unit.banks[1])
        bank_1[LOCK_BYTE] = SHUT
        replace(pathlib.Path(folder, f"{unit.name}.hex"),
                (f"{bank_1[at:at + 16].hex(' ').upper()}\n" for at in range(0, len(bank_1), 16)))


def replace(path, lines):
    """Replace a file as a whole.

    The lines first go to a file that is always new: a kill may have left one, and in a folder that others may write it
    may be a link, which is never followed.
    """
    new = path.with_suffix(".new")
    new.unlink(missing_ok=True)
    with open(os.open(new, os.O_WRONLY | os.O_CREAT | os.O_EXCL | os.O_NOFOLLOW, 0o666), "w") as file:
        file.writelines(lines)
    os.replace(new, path)


def frame_numbers(text):
    """Read the numbers of frames, with commas between them."""
    numbers = re.fullmatch("[1-9][0-9]*(,[1-9][0-9]*)*", text)
    if not numbers:
        raise argparse.ArgumentTypeError(f"{text!r}, and frames count from 1, as 3,40")
    return [int(number) for number in text.split(",")]


def fixed_location(text):
    """Read a short address and a location, as 5:03."""
    if not re.fullmatch("[0-9]{1,2}:[0-9A-Fa-f]{1,2}", text):
        raise argparse.ArgumentTypeError(f"{text!r} is no unit with a hexadecimal location, as 5:03")
    short_address, location = text.split(":")
    return int(short_address), int(location, 16)


def power_losses(text):
    """Read a short address and the numbers of frames, as 5:17,40."""
    short_address, mark, numbers = text.partition(":")
    if not mark or not re.fullmatch("[0-9]{1,2}", short_address):
        raise argparse.ArgumentTypeError(f"{text!r} is no unit with the numbers of frames, as 5:17,40")
    return [(int(short_address), number) for number in frame_numbers(numbers)]


def number_up_to(most, what):
    """Give what reads a number from 0 on."""
    def read(text):
        try:
            number = float(text)
        except ValueError:
            number = -1
        if not 0 <= number <= most:
            raise argparse.ArgumentTypeError(f"{text!r} is no {what}, 0 to {most}")
        return number

    return read


def parser_of_options():
    """Make the reader of the options."""
    parser = argparse.ArgumentParser(usage="%(prog)s [options] -- COMMAND WORDS..", allow_abbrev=False,
                                     description="Play units on a DALI bus for a command, over a pair of pipes.")
    parser.add_argument("--unit", metavar="A", type=int, action="append",
                        help="a unit at this short address, 0 to 63; may be repeated (default: 5)")
    parser.add_argument("--folder", metavar="F", default=".",
                        help="where bank 1 of unit A stands as unit_A.hex; made blank where absent (default: .)")
    for option, effect in [("--lose-frame", "no unit hears the frame of this number, counted from 1"),
                           ("--lose-answer", "the answer to this frame doesn't come back"),
                           ("--refuse", "a write at this frame is refused")]:
        parser.add_argument(option, metavar="N[,N..]", type=frame_numbers, action="extend", default=[], help=effect)
    parser.add_argument("--lose-power", metavar="A:N[,N..]", type=power_losses, action="extend", default=[],
                        help="unit A loses its power, and gets it back, just before the frame of this number")
    parser.add_argument("--fixed", metavar="A:LL", type=fixed_location, action="append", default=[],
                        help="location LL (hexadecimal) of unit A can't be written; may be repeated")
    parser.add_argument("--loss", metavar="P", type=number_up_to(1, "chance"), default=0,
                        help="each frame is lost by this chance, 0 to 1, and each answer too (default: %(default)s)")
    for option, effect in [("--alter-answers", "each answer that comes is another byte by this chance"),
                           ("--alter-frames", "of each frame one bit is turned by this chance")]:
        parser.add_argument(option, metavar="P", type=number_up_to(1, "chance"), default=0,
                            help=f"{effect}, 0 to 1 (default: %(default)s)")
    add_options_of_addressing(parser)
    parser.add_argument("--seed", metavar="S", type=int, default=1,
                        help="a whole number, which says what --loss takes, the others alter and units draw (default:"
                             " %(default)s)")
    parser.add_argument("--frame-time", metavar="MS", type=number_up_to(10000, "time"), default=0,
                        help="milliseconds that each frame takes with its answer, as 29 (default: %(default)s)")
    frames.add_option(parser)
    return parser


def add_options_of_addressing(parser):
    """Add the options of units that can be given a short address, and of several answers at once."""
    chance = number_up_to(1, "chance")
    parser.add_argument("--new", metavar="N", type=number_of_units,
                        help="N units without a short address, with bank 1 in new_1.hex and so on; all units can then"
                             " be given one, which addresses.txt keeps")
    parser.add_argument("--twin", metavar="A", type=int, action="append", default=[],
                        help="another unit at the short address of a --unit; may be repeated; else as --new")
    parser.add_argument("--edition", metavar="N", type=int, choices=sorted(addressing.EDITIONS),
                        help="how IEC 62386-102 is read where its editions differ (docs/GEAR.md); else as --new"
                             " (default: 2)")
    parser.add_argument("--each-loss", metavar="P", type=chance, default=0,
                        help="each frame is lost to each unit by itself by this chance, 0 to 1 (default: %(default)s)")
    parser.add_argument("--alike", metavar="P", type=chance, nargs="?", default=0, const=1,
                        help="equal answers at once look like one, by this chance or always (default: %(default)s)")
    parser.add_argument("--noise", metavar="P", type=chance, default=0,
                        help="something damaged comes back by this chance, 0 to 1 (default: %(default)s)")
    parser.add_argument("--deaf", action="store_true",
                        help="the interface tells a damaged answer as none (docs/LINK.md)")


def number_of_units(text):
    """Read how many units are new."""
    if not re.fullmatch("[0-9]{1,3}", text):
        raise argparse.ArgumentTypeError(f"{text!r} is no number of units, 0 to 999")
    return int(text)


def options_and_words(arguments):
    """Read the command line: the options, and after -- the words of the command."""
    parser = parser_of_options()
    options, words = adapter.options_and_words(parser, arguments)
    options.is_addressing = options.new is not None or bool(options.twin) or options.edition is not None
    options.unit = options.unit or ([5] if options.new is None else [])
    if len(set(options.unit)) < len(options.unit):
        parser.error("two units are at one short address")
    if not {short_address for short_address, _ in options.fixed} <= set(options.unit):
        parser.error("a fixed location is of a unit that isn't there")
    if not set(options.twin) <= set(options.unit):
        parser.error("a twin is of a unit that isn't there")
    # A unit may be given the address later.
    lose_power = {short_address for short_address, _ in options.lose_power}
    if not (options.is_addressing or lose_power <= set(options.unit)):
        parser.error("power is lost by a unit that isn't there")
    if not os.path.isdir(options.folder):
        parser.error(f"the folder {options.folder} isn't there: make it first")
    return options, words


def units_of(options, clock):
    """Power up the units that the options ask for."""
    fixed = {}
    for short_address, location in options.fixed:
        fixed.setdefault(f"unit_{short_address}", []).append(location)
    if not options.is_addressing:
        return [load_unit(options.folder, unit, fixed.get(f"unit_{unit}", ())) for unit in options.unit]
    names = {f"unit_{unit}": unit for unit in options.unit}
    names |= {f"twin_{number}": unit for number, unit in enumerate(options.twin, 1)}
    names |= {f"new_{number}": None for number in range(1, (options.new or 0) + 1)}
    rules = addressing.EDITIONS[options.edition or 2]
    return load_addressable(options.folder, names, clock, rules, options.seed, fixed)


def main(arguments):
    """Play the units for the command, and return the status to end with."""
    options, words = options_and_words(arguments)
    signal.signal(signal.SIGTERM, signal.default_int_handler)
    try:
        clock = addressing.Clock()
        bus = FiledBus(options.folder, units_of(options, clock), options.lose_frame, options.lose_answer,
                       options.refuse, options.lose_power, options.loss, options.seed,
                       Altering(options.alter_frames, options.alter_answers, options.seed),
                       Collisions(options.each_loss, options.alike, options.noise, options.deaf, options.seed), clock,
                       frame_time=options.frame_time)
        return serve(bus, words, options.frames)
    except (BadLine, OSError, ValueError) as fault:
        words = f"{fault.filename}: {fault.strerror}" if isinstance(fault, OSError) and fault.filename else fault
        print("simulated_link:", words, file=sys.stderr)
        return 1 if isinstance(fault, BadLine) else 2
    except KeyboardInterrupt:
        return 130


if __name__ == "__main__":
    sys.exit(main(sys.argv[1:]))
