"""Tests of `verify` over simulated units: each finding, its frames, with losses, and after `drive` with its kills."""

import copy
import json
import subprocess

import driven
from base import BenchTest, in_cases, want
from drive_desk import GTIN, desk_of
from drive_fixtures import BLANK, CHANGED_BY_KILLS, SCENES, bank_of, finish, whole_run
from driven import FIELDS, groups_of, simulated_link
from read_desk import Changing, Reading, WithBank0, bus_of, full_orders, unit_of
from read_plan import bytes_of, compared

# The bytes of the longest text, and its last location.
LENGTH, LAST = next((it["bytes"], it["first"] + it["bytes"] - 1) for it in FIELDS if it["key"] == "luminaire")


def frames_of_row(count):
    """Give the frames of this many neighbours: six for each block of at most sixteen, and one for each location."""
    return 6 * ((count + 15) // 16) + count


# Orders for unit 5, and how many frames their locations take, each row of neighbours its own blocks, besides those of
# the last location and of the format.
ROWS = [
    ({"gtin": GTIN}, 12),
    ({"identification": "0011223344556677"}, 14),
    ({"gtin": GTIN, "identification": "0011223344556677"}, 20),
    ({"year": 24}, 7),
    ({"year": 24, "week": 53}, 8),
    ({"gtin": GTIN, "week": 53}, 12 + 7),
    ({"year": 24, "input_power": 40, "cri": 80}, 7 + 8 + 7),
    ({"distribution": 1, "colour": "RAL 9016"}, 22 + 15),
    ({"cct": 4000, "distribution": 1}, 9),
    ({"luminaire": "Panel"}, frames_of_row(LENGTH)),
    ({"colour": "RAL 9016", "luminaire": "Panel"}, frames_of_row(24 + LENGTH)),
    ({"min_voltage": None, "gtin": None}, 12 + 8),
]
FULL = full_orders()
FULL_FRAMES = 7 + 8 + 20 + 6 * 22 + 11
BYTE_SHARES, KILL_SHARES = 2, 4  # of a long test, each a case


def order_of(number=1, unit=5, **fields):
    """Give an order."""
    return {"order": number, "unit": unit, **fields}


def held_by(bank, *orders):
    """Give a bank that holds what these orders write."""
    held = bytearray(bank)
    for order in orders:
        for location, byte in bytes_of(order).items():
            held[location] = byte
    return bytes(held)


def line_by_bank(order, units):
    """Give the line of an order by what stands in the banks, of units that answer."""
    bank = {unit.short_address: unit.banks[1] for unit in units}.get(order["unit"])
    updates = bytes_of(order)
    if bank is None:
        word = "silent"
    elif bank[0] < max(updates):
        word = "short"
    elif max(updates) >= 0x13 and bank[0x11:0x13] != b"\x00\x03":
        word = "format"
    else:
        word = compared(updates, bank)
    return f"order {order['order']} unit {order['unit']} {word}"


# An order of many fields, and each of them with what the order wants of it, as `show` prints it.
SEVERAL = {"gtin": GTIN, "identification": "0011223344556677", "year": 4, "week": None, "input_power": 40, "cri": 80,
           "colour": "RAL 9016", "luminaire": 'Panel "A\\B"'}
WANTED = {"gtin": "04006381333931", "identification": "0011223344556677", "year": "4", "week": "unknown",
          "input_power": "40", "cri": "80", "colour": "text RAL 9016", "luminaire": 'text Panel "A\\B"'}


def differing(folder, orders, bus):
    """Give what the report tells of each order: its word, and each field that differs, as its key and two texts."""
    desk = Reading(folder, "verify", orders=orders)
    report = desk.folder / "report"
    report.unlink(missing_ok=True)
    desk.options = ["--report", report]
    desk.over(bus)
    values = [json.loads(line) for line in report.read_text().splitlines()]
    assert all(list(one) == ["field", "has", "wants"] for value in values for one in value["differs"]), values
    return [(value["found"], [tuple(one.values()) for one in value["differs"]]) for value in values]


def with_bytes(bank, changes):
    """Give a bank with these bytes from each location on: {location: bytes}."""
    held = bytearray(bank)
    for location, changed in changes.items():
        held[location:location + len(changed)] = changed
    return bytes(held)


def verify(folder, orders, bus, lines=None, frames=None):
    """Compare the units of a bus with orders; the lines have to be as the banks are, and as the plan has it."""
    before = bus.frames
    wanted = Reading(folder, "verify", orders=orders).run(bus)
    by_bank = [line_by_bank(order, bus.units) for order in orders]
    want(wanted.told.splitlines(), by_bank if lines is None else lines)
    want(wanted.status, 0 if all(line.endswith(" same") for line in wanted.told.splitlines()) else 1)
    if frames is not None:
        want(bus.frames - before, frames)


class VerifyTest(BenchTest):
    """Orders that are compared with units."""

    def test_rows(self):
        for fields, frames in ROWS:
            order = order_of(**fields)
            frames += 7 + 8 * (max(bytes_of(order)) >= 0x13)
            unit = simulated_link.Unit(5, held_by(BLANK, order))
            verify(self.folder, [order], bus_of(unit), ["order 1 unit 5 same"], frames)
        verify(self.folder, FULL, bus_of(simulated_link.Unit(5, held_by(BLANK, *FULL))), ["order 1 unit 5 same"],
               FULL_FRAMES)
        verify(self.folder, [], bus_of(), ["error: nothing was done: ORDERS has no orders"], 0)

    @in_cases(BYTE_SHARES)
    def test_each_other_byte(self, case):
        held, updates = held_by(BLANK, *FULL), bytes_of(FULL[0])
        for location in range(case, len(held), BYTE_SHARES):
            bank = bytearray(held)
            if location not in (0x00, 0x02, 0x11, 0x12):
                bank[location] ^= 0x40
            line = f"other {location:02X} {bank[location]:02X}" if location in updates else "same"
            if location in updates:
                # A later one that is another too isn't told.
                bank[0x77] ^= 0x01
            bus = bus_of(simulated_link.Unit(5, bytes(bank)))
            line = f"order 1 unit 5 {line if location != 0x77 else f'other 77 {bank[0x77]:02X}'}"
            verify(self.folder, FULL, bus, [line], FULL_FRAMES)

    def test_short_banks(self):
        for fields, greatest in [({"year": 24}, 0x13), ({"week": 5}, 0x14), ({"cct": 4000}, 0x22),
                                 ({"luminaire": "A"}, LAST)]:
            order = order_of(**fields)
            verify(self.folder, [order], bus_of(simulated_link.Unit(5, bank_of(greatest))), ["order 1 unit 5 short"], 7)
            for length in (greatest + 1, min(greatest + 2, 0x78)):
                unit = simulated_link.Unit(5, held_by(bank_of(length), order))
                verify(self.folder, [order], bus_of(unit), ["order 1 unit 5 same"])
        for last, word in [(0x07, "short"), (0x08, "other 03 FF"), (0x00, "short"), (0xFF, "other 03 FF")]:
            bus = bus_of(Changing(5, BLANK, {1: (0x00, last)}))
            verify(self.folder, [order_of(gtin=GTIN)], bus, [f"order 1 unit 5 {word}"], 7 if word == "short" else 19)

    def test_formats(self):
        for first, second in [(0, 4), (1, 3), (0xFF, 0xFF), (3, 0), (0, 0)]:
            bus = bus_of(simulated_link.Unit(5, bank_of(0x78, x11=first, x12=second)))
            verify(self.folder, [order_of(gtin=GTIN, year=24)], bus, ["order 1 unit 5 format"], 15)
            verify(self.folder, [order_of(year=24)], bus, ["order 1 unit 5 format"], 15)
            verify(self.folder, [order_of(gtin=GTIN)], bus, ["order 1 unit 5 other 03 FF"], 19)
        # A bank that is too short and of another format is reported as short.
        bus = bus_of(simulated_link.Unit(5, bank_of(0x13, x11=1)))
        verify(self.folder, [order_of(year=24)], bus, ["order 1 unit 5 short"], 7)

    def test_several_orders(self):
        gtin, other = order_of(1, gtin=GTIN), order_of(2, gtin="96385074")
        year, absent = order_of(2 ** 64 - 1, 6, year=24), order_of(0, 63, week=1)
        units = [simulated_link.Unit(5, held_by(BLANK, gtin, other)), simulated_link.Unit(6, held_by(BLANK, year))]
        lines = [f"order 1 unit 5 {compared(bytes_of(gtin), units[0].banks[1])}", "order 2 unit 5 same",
                 "order 18446744073709551615 unit 6 same", "order 0 unit 63 silent", "order 2 unit 5 same"]
        assert " other 0" in lines[0], lines
        verify(self.folder, [gtin, other, year, absent, other], bus_of(*units), lines, 19 + 19 + 22 + 16 + 19)

    def test_each_loss(self):
        orders = [order_of(gtin=GTIN, week=53)]
        for frame in range(1, 35):
            for losses in ({"lost_frames": [frame]}, {"lost_answers": [frame]}, {"lost_power": [(5, frame)]}):
                bus = bus_of(WithBank0(5, held_by(BLANK, *orders)), **losses)
                verify(self.folder, orders, bus, ["order 1 unit 5 same"])
                assert bus.frames <= 34 + 12, (losses, bus.frames)

    def test_a_block_that_stays_silent(self):
        orders = [order_of(gtin=GTIN, week=53), order_of(2, gtin=GTIN)]
        for first in (1, 8, 16, 28):
            bus = bus_of(simulated_link.Unit(5, held_by(BLANK, *orders)),
                         lost_answers=[first - 1 + 2 * turn for turn in range(1, 9)])
            verify(self.folder, orders, bus, ["order 1 unit 5 silent", "order 2 unit 5 same"], first - 1 + 16 + 19)
            bus = bus_of(simulated_link.Unit(5, held_by(BLANK, *orders)),
                         lost_answers=[first - 1 + 2 * turn for turn in range(1, 8)])
            verify(self.folder, orders, bus, ["order 1 unit 5 same", "order 2 unit 5 same"], 34 + 14 + 19)

    def test_over_the_simulated_adapter(self):
        orders = [order_of(gtin=GTIN), order_of(2, 9, year=24)]
        drive, desk = desk_of(self.folder, orders), Reading(self.folder, "verify", orders=orders)
        adapter = [driven.ROOT / "adapters" / "simulated_link.py", "--folder", self.folder, "--lose-answer", "5,50",
                   "--unit", "5", "--"]
        for words, status, told in [
                (desk.words(), 1, "order 1 unit 5 other 03 FF\norder 2 unit 9 silent\n"),
                (drive.words(), 0, "reply 1 taken\nreply 1 kept 0 Done\nreply 2 taken\nreply 2 kept 3 Silent\n"),
                (desk.words(), 1, "order 1 unit 5 same\norder 2 unit 9 silent\n")]:
            ended = subprocess.run([*adapter, *words], capture_output=True, text=True, timeout=driven.PATIENCE)
            self.assertEqual((ended.returncode, ended.stdout, ended.stderr), (status, "", told))


class FieldsTest(BenchTest):
    """The fields that a report names."""

    def test_fields_that_differ(self):
        order = order_of(**SEVERAL)
        same = held_by(BLANK, order)
        cases = [
            # A number that is no GTIN, FFh in every byte, and numbers and bytes of no number.
            ({0x03: bytes(5) + b"\x01"}, [("gtin", "raw 000000000001")]),
            ({0x03: bytes(6)}, [("gtin", "00000000000000")]),
            ({0x03: b"\xFF" * 6, 0x09: b"\xFF" * 8}, [("gtin", "unknown"), ("identification", "unknown")]),
            ({0x10: b"\x78"}, [("identification", "0011223344556678")]),
            ({0x13: b"\x63\x36"}, [("year", "99"), ("week", "raw 36")]),
            ({0x14: b"\x05", 0x15: b"\xFF\xFF", 0x20: b"\x65"},
             [("week", "5"), ("input_power", "unknown"), ("cri", "raw 65")]),
            # A text with another character, one that goes on, one with nothing in it, and bytes of no text.
            ({0x2B: b"7"}, [("colour", "text RAL 9017")]),
            ({0x2C: b"\\"}, [("colour", "text RAL 9016\\")]),
            ({0x24: bytes(24)}, [("colour", "raw " + "00" * 24)]),
            ({0x3C: b"p"}, [("luminaire", 'text panel "A\\B"')]),
            ({LAST: b"\x01"}, [("luminaire", "raw " + b'Panel "A\\B"'.hex().upper() + "00" * (LENGTH - 12) + "01")]),
            # Bytes that the order doesn't write don't matter.
            ({0x17: bytes(9), 0x21: bytes(3)}, []),
        ]
        for changes, wanted in cases:
            found = differing(self.folder, [order], bus_of(simulated_link.Unit(5, with_bytes(same, changes))))
            wanted = [(field, text, WANTED[field]) for field, text in wanted]
            self.assertEqual((changes, found), (changes, [("other" if wanted else "same", wanted)]))
        unknown = [(field, "unknown", text) for field, text in WANTED.items() if field != "week"]
        self.assertEqual(differing(self.folder, [order], bus_of(simulated_link.Unit(5))), [("other", unknown)])

    def test_no_field_differs_where_none_was_read(self):
        year, gtin = order_of(year=24), order_of(2, gtin=GTIN)
        bus = bus_of(simulated_link.Unit(5, bank_of(0x13)))
        self.assertEqual(differing(self.folder, [year, gtin], bus),
                         [("short", []), ("other", [("gtin", "unknown", "04006381333931")])])
        bus = bus_of(simulated_link.Unit(5, bank_of(0x78, x12=0x04)))
        self.assertEqual(differing(self.folder, [year, gtin], bus),
                         [("format", []), ("other", [("gtin", "unknown", "04006381333931")])])
        # Silent from the start, and at the block of its last field, after other bytes of the first.
        self.assertEqual(differing(self.folder, [order_of(unit=6, gtin=GTIN)], bus_of(simulated_link.Unit(5))),
                         [("silent", [])])
        bus = bus_of(simulated_link.Unit(5), lost_answers=[27 + 2 * turn for turn in range(1, 9)])
        self.assertEqual(differing(self.folder, [order_of(gtin=GTIN, week=53)], bus), [("silent", [])])

    def test_each_field_alone(self):
        # Each byte of a unit that holds the order is changed in turn, and then its field alone differs.
        held = held_by(BLANK, *FULL)
        for location in sorted(bytes_of(FULL[0])):
            field = [it["key"] for it in FIELDS if it["first"] <= location][-1]
            bus = bus_of(simulated_link.Unit(5, with_bytes(held, {location: bytes([held[location] ^ 0x40])})))
            [(word, differs)] = differing(self.folder, FULL, bus)
            self.assertEqual((location, word, [one[0] for one in differs]), (location, "other", [field]))


def done_lines(orders, data):
    """Give the lines that the journal's bytes promise: of orders that are done, and not written over by a later one."""
    groups, lines = groups_of(data), {}
    for at, group in enumerate(groups):
        later = {location for more in groups[at + 1:] if more.unit == group.unit and more.is_opened
                 for location, _ in more.updates}
        if group.is_done() and not later & {location for location, _ in group.updates}:
            lines[group.number] = f"order {group.number} unit {group.unit} same"
    return [lines.get(order["order"]) for order in orders]


def verify_after(folder, scene, bus, data):
    """Verify a scene's orders over its bus, with more losses, where the journal holds these bytes."""
    losses = bus.lost_frames, bus.lost_answers, bus.lost_power
    bus.lost_frames, bus.lost_power = {bus.frames + at for at in (3, 20, 61)}, set()
    bus.lost_answers = {bus.frames + at for at in (9, 40, 41)}
    promised = done_lines(scene.orders, data)
    lines = [line_by_bank(order, bus.units) for order in scene.orders]
    assert all(line in (None, found) for line, found in zip(promised, lines)), (promised, lines)
    frames = bus.frames
    verify(folder, scene.orders, bus, lines)
    bus.lost_frames, bus.lost_answers, bus.lost_power = losses
    # As though nobody had asked, so that the scene's losses come where they were to come.
    bus.frames = frames
    return promised, lines


class BehindDriveTest(BenchTest):
    """Comparisons after drives."""

    def test_behind_whole_runs(self):
        same = {"lossy": ["same", "short", "silent", "same"], "doubtful": ["other 05 FF", "format", "same"],
                "all fields": ["same"]}
        for name, scene in SCENES.items():
            room = self.folder / name
            room.mkdir()
            desk, bus, ended = whole_run(room, scene)
            promised, lines = verify_after(room, scene, bus, desk.held())
            is_done = [f"reply {order['order']} kept 0 Done" in ended.told.splitlines() for order in scene.orders]
            self.assertEqual((name, [line is not None for line in promised]), (name, is_done))
            if name in same:
                self.assertEqual((name, [line.split(" ", 4)[4] for line in lines]), (name, same[name]))

    @in_cases(KILL_SHARES)
    def test_behind_killed_runs(self, case):
        for name, scene in SCENES.items():
            room = self.folder / name
            room.mkdir()
            desk, _, ended = whole_run(room, scene)
            total, codes = len(ended.sent) // 5, None if name in CHANGED_BY_KILLS else scene.codes
            step = max(7, total // 30)
            for frame in range(1 + case * step, total + 1, KILL_SHARES * step):
                try:
                    desk.journal.write_bytes(b"")
                    bus = scene.bus()
                    desk.over(bus, (frame, "carried"))
                    verify_after(room, scene, bus, desk.held())
                    # Reading between a kill and the next run changes nothing of what that does.
                    finish(desk, scene, bus, codes)
                    verify_after(room, scene, bus, desk.held())
                except Exception as fault:
                    raise AssertionError(f"{name}, killed once frame {frame} was carried") from fault

    def test_a_unit_that_drive_left_open(self):
        order = order_of(gtin=GTIN)
        unit = simulated_link.Unit(5)
        desk, bus = desk_of(self.folder, [order]), bus_of(unit)
        desk.over(bus, (40, "carried"))
        self.assertEqual((unit.banks[1][2], 0x03 in unit.banks[1][3:9]), (simulated_link.OPEN, True))
        before = copy.deepcopy(unit.banks)
        verify(self.folder, [order], bus)
        Reading(self.folder, "read").run(bus)
        self.assertEqual((unit.banks, unit.is_enabled), (before, False))
        self.assertEqual((desk.over(bus).told, unit.banks[1][2]), ("reply 1 kept 0 Done\n" * 2, simulated_link.SHUT))
        verify(self.folder, [order], bus, ["order 1 unit 5 same"])

    def test_read_shows_what_drive_wrote(self):
        desk, bus = desk_of(self.folder, FULL), bus_of(unit_of(255))
        desk.over(bus)
        reading = Reading(self.folder)
        reading.over(bus)
        held = bytes.fromhex(reading.text())
        self.assertEqual(held, bytes(bus.units[0].banks[1]))
        self.assertEqual({location: held[location] for location in bytes_of(FULL[0])}, bytes_of(FULL[0]))
        shown = subprocess.run([reading.program, "show", reading.bank], capture_output=True,
                               text=True).stdout.splitlines()
        for line in ("gtin 04006381333931", "year 24", "week 53", "input_power 40", f"luminaire text {FULL[0]['luminaire']}"):
            assert line in shown, shown
