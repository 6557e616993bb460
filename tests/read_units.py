"""Tests of `read` and `scan` over simulated units: their frames and what they tell, with losses, and killed."""

import copy
import signal
import subprocess

import driven
from adapter_fixtures import SerialInterface
from base import BenchTest, in_cases, want
from driven import Ended, simulated_link
from read_desk import (
    ANSWERS_17,
    BANK_17,
    FRAMES_17,
    SENT_17,
    SILENT,
    TEXT_17,
    TOLD_17,
    Changing,
    Reading,
    WithBank0,
    bus_of,
    unit_of,
    varied_bank,
)
from read_plan import block_frames, text_of

# The frames that the reading of a bank of this many locations takes with nothing lost.
FRAMES = {17: 29, 18: 36, 33: 51, 34: 58, 120: 174, 254: 356, 255: 357}
ADAPTER = driven.ROOT / "adapters" / "simulated_link.py"
SHARES = 4  # of a long test, each a case


def told_of(length):
    """Give the line of unit 5, of which this many bytes were read."""
    return f"unit 5 bytes {length}\n"


def lose_each(folder, length, part, count):
    """Lose each frame, and each answer, of a bank's reading in turn."""
    for frame in range(1 + part, FRAMES[length] + 1, count):
        for losses in ({"lost_frames": [frame]}, {"lost_answers": [frame]}):
            desk, bus = Reading(folder), bus_of(unit_of(length), **losses)
            wanted = desk.run(bus)
            want((losses, wanted.status, wanted.told), (losses, 0, told_of(length)))
            want((losses, desk.text()), (losses, text_of(varied_bank(length))))
            assert bus.frames <= FRAMES[length] + 22, (losses, bus.frames)


class Noting(simulated_link.Bus):
    """A bus that notes what comes back."""

    def __init__(self, units, **losses):
        super().__init__(units, **losses)
        self.answers = []

    def carry(self, word):
        """Carry a forward frame."""
        self.answers.append(super().carry(word))
        return self.answers[-1]


class ReadTest(BenchTest):
    """Banks that are read."""

    def test_the_frames_of_a_bank_of_17(self):
        desk = Reading(self.folder)
        ended = desk.over(bus_of(simulated_link.Unit(5, BANK_17)))
        self.assertEqual((ended, desk.text()), (Ended(0, SENT_17, TOLD_17), TEXT_17))

    def test_banks_of_each_kind_of_length(self):
        for length, frames in FRAMES.items():
            for unit in (5, 0, 63):
                desk, bus = Reading(self.folder, unit=unit), bus_of(unit_of(length, unit), unit_of(60, 6))
                wanted = desk.run(bus)
                self.assertEqual((length, bus.frames, wanted.status, wanted.told),
                                 (length, frames, 0, f"unit {unit} bytes {length}\n"))
                self.assertEqual(bytes.fromhex(desk.text()), varied_bank(length))
                lines = desk.text().split("\n")
                self.assertEqual((lines.pop(), [len(line) for line in lines]),
                                 ("", [47] * (length // 16) + [3 * (length % 16) - 1] * (length % 16 > 0)))

    def test_an_absent_unit(self):
        desk = Reading(self.folder)
        for before in (None, "AC DC 05"):
            for bus in (bus_of(), bus_of(unit_of(17, 6))):
                if before:
                    desk.bank.write_text(before)
                self.assertEqual((desk.over(bus), desk.text()), (Ended(1, b"C301\n0B9C\n" * 8, SILENT), before))

    def test_two_units_at_one_address(self):
        self.assertEqual(Reading(self.folder).run(bus_of(unit_of(17), unit_of(18))).told, SILENT)

    def test_each_loss_in_a_bank_of_17(self):
        lose_each(self.folder, 17, 0, 1)

    @in_cases(SHARES)
    def test_each_loss_in_a_bank_of_120(self, case):
        lose_each(self.folder, 120, case, SHARES)

    def test_frames_beyond_a_loss_by_hand(self):
        for losses, frames in [({"lost_answers": [2]}, 31), ({"lost_frames": [1]}, 31), ({"lost_answers": [5]}, 34),
                               ({"lost_answers": [7]}, 36), ({"lost_answers": [1, 3, 8, 10]}, 29),
                               ({"lost_answers": [28]}, 50), ({"lost_answers": [29]}, 51), ({"lost_frames": [12]}, 34)]:
            bus = bus_of(unit_of(17), **losses)
            self.assertEqual((losses, Reading(self.folder).run(bus).status, bus.frames), (losses, 0, frames))

    def test_seven_and_eight_misses_of_a_block(self):
        wanted_at = [(1, number) for number in (2, 4, 5, 6, 7)] + [(8, number) for number in (2, 4, 5, 12, 20, 21, 22)]
        for first, number in wanted_at:
            for misses in (7, 8):
                lost = [first - 1 + number * turn for turn in range(1, misses + 1)]
                desk, bus = Reading(self.folder), bus_of(unit_of(17), lost_answers=lost)
                wanted = desk.run(bus)
                is_silent = misses == 8
                frames = first - 1 + 8 * number if is_silent else 29 + 7 * number
                self.assertEqual((first, number, misses, bus.frames), (first, number, misses, frames))
                self.assertEqual((wanted.told, desk.text()),
                                 (SILENT, None) if is_silent else (TOLD_17, text_of(varied_bank(17))))

    def test_seven_misses_of_each_block(self):
        # The first block is read in the frames 15 to 21.
        lost = [before + 2 * turn for before in (0, 21) for turn in range(1, 8)]
        bus = bus_of(unit_of(17), lost_answers=lost)
        self.assertEqual((Reading(self.folder).run(bus).told, bus.frames), (TOLD_17, 29 + 28))

    def test_power_lost_before_each_frame(self):
        for length in (17, 120):
            for frame in range(1, FRAMES[length] + 1):
                unit = WithBank0(5, varied_bank(length))
                desk, bus = Reading(self.folder), bus_of(unit, lost_power=[(5, frame)])
                wanted = desk.run(bus)
                self.assertEqual((frame, wanted.status, wanted.told), (frame, 0, told_of(length)))
                self.assertEqual((frame, desk.text()), (frame, text_of(varied_bank(length))))
                assert bus.frames <= FRAMES[length] + 22, (frame, bus.frames)

    def test_six_frames_that_a_bank_0_answers(self):
        # From the loss on DTR1 is 00h: the block is read in bank 0, and of all its frames only the last one shows that.
        for lost, block, frames in [(3, (0x00, 1), 36), (4, (0x00, 1), 36), (5, (0x00, 1), 36), (10, (0x01, 16), 51)]:
            bus = Noting([WithBank0(5, BANK_17)], lost_power=[(5, lost)])
            desk = Reading(self.folder)
            ended = desk.over(bus)
            self.assertEqual((lost, ended.status, ended.told, desk.text()), (lost, 0, TOLD_17, TEXT_17))
            self.assertEqual((lost, bus.frames), (lost, frames))
            wished = [wish for _, wish in block_frames(5, *block)]
            found = bus.answers[7 * block[0]:][:len(wished)]
            is_met = [wish is None or answer in wish for answer, wish in zip(found, wished)]
            self.assertEqual((lost, is_met, found[-1]), (lost, [True] * (len(wished) - 1) + [False], 0))
            self.assertEqual(bytes(found[4:-2]), bytes(byte ^ 0x55 for byte in BANK_17[block[0]:block[0] + block[1]]))

    def test_a_last_location_that_changes(self):
        # The first answer at 00h holds. If it is greater than the last location, those beyond that stay silent.
        bank = varied_bank(120)
        for changes, status, told, data, frames in [
                ({8: (0x00, 0x10)}, 0, told_of(120), bank, 174),
                ({8: (0x00, 0xFF)}, 0, told_of(120), bank, 174),
                ({1: (0x00, 0x10)}, 0, TOLD_17, b"\x10" + bank[1:17], 29),
                ({1: (0x00, 0x00)}, 0, told_of(1), b"\x00", 7),
                ({1: (0x00, 0x01)}, 0, told_of(2), b"\x01" + bank[1:2], 14),
                ({1: (0x00, 0x78)}, 1, SILENT, None, 7 + 7 * 22 + 8 * 12),
                ({1: (0x00, 0xFF)}, 1, SILENT, None, 7 + 7 * 22 + 8 * 12),
                ({6: (0x00, 0x00), 40: (0x55, 0x99)}, 0, told_of(120), bank[:0x55] + b"\x99" + bank[0x56:], 174)]:
            desk, bus = Reading(self.folder), bus_of(Changing(5, bank, changes))
            wanted = desk.run(bus)
            self.assertEqual((changes, wanted.status, wanted.told, bus.frames), (changes, status, told, frames))
            self.assertEqual((changes, desk.text()), (changes, None if data is None else text_of(data)))

    def test_a_bank_whose_00h_is_ff(self):
        for length, changes in [(255, {1: (0x00, 0xFF)}), (255, {1: (0x00, 0xFE)})]:
            bus, desk = bus_of(Changing(5, varied_bank(length), changes)), Reading(self.folder)
            self.assertEqual((desk.run(bus).told, bus.frames), (told_of(255), 357))
            self.assertEqual(bytes.fromhex(desk.text()), bytes([changes[1][1]]) + varied_bank(length)[1:])

    def test_a_unit_that_has_no_bank_1(self):
        unit = unit_of(17)
        del unit.banks[1]
        for command, told, frames in [("read", SILENT, 40), ("scan", "units 0\n", 1024 - 16 + 40)]:
            bus = bus_of(unit)
            self.assertEqual((command, Reading(self.folder, command).run(bus).told, bus.frames),
                             (command, told, frames))

    def test_read_again_takes_the_place(self):
        desk = Reading(self.folder)
        for length in (120, 17, 255):
            desk.over(bus_of(unit_of(length)))
            self.assertEqual(desk.text(), text_of(varied_bank(length)))

    def test_kills_at_each_frame(self):
        for before in (None, "AC DC 05"):
            for frame in range(1, 30):
                for moment in ("sent", "carried"):
                    desk, bus = Reading(self.folder), bus_of(unit_of(17))
                    desk.bank.unlink(missing_ok=True)
                    if before:
                        desk.bank.write_text(before)
                    ended = desk.over(bus, (frame, moment))
                    self.assertEqual((frame, ended.status, ended.told), (frame, -signal.SIGKILL, ""))
                    self.assertEqual((desk.text(), desk.new().exists()), (before, False))
                    self.assertEqual((desk.over(bus).told, desk.text()), (TOLD_17, text_of(varied_bank(17))))


def scan(folder, bus, frames):
    """Scan a bus, and give the lines of the output; it has to take this many frames."""
    desk = Reading(folder, "scan")
    wanted = desk.run(bus)
    want((wanted.status, bus.frames), (0, frames))
    return wanted.told.splitlines()


def scan_some(folder, bus, frames, units, with_gtin=False):
    """Scan some units of a bus, or all if none is named, and give the lines; it has to take this many frames."""
    desk = Reading(folder, "scan")
    desk.units, desk.with_gtin = units, with_gtin
    wanted = desk.run(bus)
    want((wanted.status, bus.frames), (0, frames))
    return wanted.told.splitlines()


def known_unit(address, length, known):
    """Make a unit whose bank 1 has these bytes from 03h on."""
    bank = bytearray(varied_bank(length))
    bank[0x03:0x03 + len(known)] = known
    return simulated_link.Unit(address, bytes(bank))


# The bytes from 03h to 10h: a GTIN with its check digit, one with another, one that is blank, and one of fifteen
# digits.
IDENTITIES = {
    "03A4CEEFADAB 0102030405060708": "gtin 04006381333931 identification 0102030405060708",
    "03A4CEEFADAC FFFFFFFFFFFFFF00": "gtin raw 03A4CEEFADAC identification FFFFFFFFFFFFFF00",
    "FFFFFFFFFFFF FFFFFFFFFFFFFFFF": "gtin unknown identification unknown",
    "000000000000 0000000000000000": "gtin 00000000000000 identification 0000000000000000",
    "FFFFFFFFFFFE FFFFFFFFFFFFFFFF": "gtin raw FFFFFFFFFFFE identification unknown",
}


class ScanTest(BenchTest):
    """Units that are looked for."""

    def test_scans(self):
        for addresses in ([], [5], [0], [63], [0, 31, 63], range(64)):
            units = [unit_of(17 + 3 * address, address) for address in addresses]
            lines = [f"unit {address} last {16 + 3 * address:02X}" for address in addresses]
            frames = 7 * len(units) + 16 * (64 - len(units))
            self.assertEqual(scan(self.folder, bus_of(*units), frames), [*lines, f"units {len(units)}"])

    def test_scans_of_some_addresses(self):
        here = [unit_of(17, 5), unit_of(120, 9), unit_of(255, 63)]
        for units, frames, lines in [((9, 5), 14, ["unit 9 last 77", "unit 5 last 10"]), ((6,), 16, []),
                                     ((63, 0, 5), 30, ["unit 63 last FE", "unit 5 last 10"]),
                                     (tuple(range(63, -1, -1)), 21 + 61 * 16,
                                      ["unit 63 last FE", "unit 9 last 77", "unit 5 last 10"])]:
            self.assertEqual((units, scan_some(self.folder, bus_of(*here), frames, units)),
                             (units, [*lines, f"units {len(lines)}"]))

    def test_what_each_unit_is(self):
        for known, told in IDENTITIES.items():
            for length in (17, 120):
                bus = bus_of(known_unit(5, length, bytes.fromhex(known)), unit_of(60, 7))
                lines = scan_some(self.folder, bus, 27, (5,), True)
                self.assertEqual((known, lines), (known, [f"unit 5 last {length - 1:02X} {told}", "units 1"]))

    def test_a_bank_that_ends_before_the_identification(self):
        # A simulated bank reaches 10h: of unit 5 location 00h changes.
        bus = bus_of(Changing(5, varied_bank(120), {1: (0x00, 0x0F)}), known_unit(7, 120, b"\xFF" * 14))
        self.assertEqual(scan_some(self.folder, bus, 7 + 27 + 16, (5, 6, 7), True),
                         ["unit 5 last 0F", "unit 7 last 77 gtin unknown identification unknown", "units 2"])

    def test_what_all_units_are(self):
        units = [known_unit(at, 120, bytes.fromhex("03A4CEEFADAB") + bytes([at] * 8)) for at in (0, 31, 63)]
        lines = [f"unit {at} last 77 gtin 04006381333931 identification {at:02X}" + f"{at:02X}" * 7
                 for at in (0, 31, 63)]
        self.assertEqual(scan_some(self.folder, bus_of(*units), 3 * 27 + 61 * 16, (), True), [*lines, "units 3"])

    def test_what_a_unit_is_with_losses(self):
        # The block from 03h on takes the frames 8 to 27: one miss of it, seven and eight.
        for misses, frames, lines in [(1, 47, 1), (7, 167, 1), (8, 167, 0)]:
            lost = [7 + 20 * turn for turn in range(1, misses + 1)]
            bus = bus_of(known_unit(5, 120, b"\xFF" * 14), lost_answers=lost)
            told = ["unit 5 last 77 gtin unknown identification unknown"] * lines + [f"units {lines}"]
            self.assertEqual((misses, scan_some(self.folder, bus, frames, (5,), True)), (misses, told))

    def test_units_that_are_no_addresses(self):
        desk = Reading(self.folder, "scan")
        for units, told in [((64,), "64 is not in 0..=63"), (("a",), "invalid digit found in string"),
                            ((5, 6, 5), "error: unit 5 is named twice: name each unit once\n")]:
            desk.units = units
            ended = subprocess.run(desk.words(), stdin=subprocess.DEVNULL, capture_output=True, text=True)
            self.assertEqual((units, ended.returncode, ended.stdout), (units, 1, ""))
            assert told in ended.stderr, ended

    def test_scans_with_losses(self):
        all_of_them = ["unit 0 last 10", "unit 2 last 77", "units 2"]
        for lost, frames, lines in [([7, 14], 1024 - 18 + 14, all_of_them), (range(2, 16, 2), 1006 + 14, all_of_them),
                                    (range(2, 18, 2), 1006 + 9, all_of_them[1:2] + ["units 1"]),
                                    ([7 * turn for turn in range(1, 9)], 1006 + 49, all_of_them[1:2] + ["units 1"])]:
            bus = bus_of(unit_of(17, 0), unit_of(120, 2), lost_answers=lost)
            self.assertEqual((lost, scan(self.folder, bus, frames)), (lost, lines))

    def test_a_scan_of_a_unit_that_changes(self):
        changing, powerless = Changing(5, varied_bank(120), {1: (0x00, 0xFF)}), WithBank0(5, varied_bank(120))
        self.assertEqual(scan(self.folder, bus_of(changing), 1024 - 9), ["unit 5 last FF", "units 1"])
        self.assertEqual(scan(self.folder, bus_of(powerless, lost_power=[(5, 83)]), 1024 - 2),
                         ["unit 5 last 77", "units 1"])


class AdaptersTest(BenchTest):
    """Reads and scans over the adapters."""

    def test_over_the_simulated_adapter(self):
        desk, more = Reading(self.folder), Reading(self.folder, "scan")
        bank = self.folder / "unit_5.hex"
        bank.write_text(text_of(varied_bank(120)))
        options = ["--folder", self.folder, "--unit", "5", "--unit", "9", "--lose-answer", "50", "--lose-frame", "90"]
        for words, told in [(desk.words(), "unit 5 bytes 120\n"),
                            (more.words(), "unit 5 last 77\nunit 9 last 77\nunits 2\n")]:
            ended = subprocess.run([ADAPTER, *options, "--", *words], capture_output=True, text=True, timeout=60)
            self.assertEqual((ended.returncode, ended.stdout, ended.stderr), (0, "", told))
        self.assertEqual(desk.text(), bank.read_text())
        shown = [subprocess.run([desk.program, "show", it], capture_output=True) for it in (desk.bank, bank)]
        self.assertEqual((shown[0].returncode, shown[0].stdout), (0, shown[1].stdout))
        assert shown[0].stdout.startswith(b"last 77\n"), shown[0]

    def test_over_the_serial_adapter(self):
        replies = [[b"N\r" if answer == "--" else f"J{answer}\r".encode()] for answer in ANSWERS_17]
        interface, desk = SerialInterface(replies), Reading(self.folder)
        adapter = [driven.ROOT / "adapters" / "serial_link.py", interface.device, "--"]
        ended = subprocess.run([*adapter, *desk.words()], capture_output=True, text=True, timeout=driven.PATIENCE)
        interface.close()
        self.assertEqual((ended.returncode, ended.stdout, ended.stderr, desk.text()), (0, "", TOLD_17, TEXT_17))
        self.assertEqual(interface.heard, [f"S{word}\r" for word in FRAMES_17])

    def test_the_desk_forgets_nothing_of_a_read(self):
        # A unit that a stopped drive left open and enabled keeps its bytes, and is shut off by the reads alone.
        unit = simulated_link.Unit(5)
        unit.banks[1][2], unit.registers, unit.is_enabled = simulated_link.OPEN, [3, 1, 0], True
        desk, before = Reading(self.folder), copy.deepcopy(unit.banks)
        self.assertEqual(desk.over(bus_of(unit)).status, 0)
        self.assertEqual((unit.banks, unit.is_enabled), (before, False))
        self.assertEqual(bytes.fromhex(desk.text()), bytes(before[1]))
