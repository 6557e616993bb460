"""Tests of `--report`, `--require-done` and `--require-now`: the record of orders for the printing of labels."""


from base import BenchTest, settings
from drive_desk import (
    ABSENT,
    ABSENT_BEGAN,
    ABSENT_JOURNAL,
    DONE_JOURNAL,
    PRESENT,
    absent_records,
    desk_of,
    last_line,
    put_journal,
)
from drive_fixtures import (
    BLANK,
    LEFT,
    NOTHING,
    SCENES,
    UNTOLD,
    Verifying,
    blank_bus,
    cause,
    kept,
    lines_of,
    reporting,
    unkept,
)
from driven import HEADER, Desk, Ended, Following, simulated_link


class Wrong(simulated_link.Unit):
    """A unit that tells another byte of one location of bank 1: each bit is turned."""

    def __init__(self, location):
        super().__init__(5, BLANK)
        self.location = location

    def _read(self):
        here = self.registers[:2] == [self.location, 1]
        byte = super()._read()
        return byte ^ 0xFF if here and byte is not None else byte


class Lying(simulated_link.Unit):
    """A unit that tells another byte for one that it answers to a frame."""

    def __init__(self, word, told):
        super().__init__(5, BLANK)
        self.word, self.told = word, told

    def hear(self, word, refusing=False):
        answer = super().hear(word, refusing)
        return self.told if (word, answer) == (self.word, 0x03) else answer


def gone(first, count=5000):
    """Give a bus with a blank unit that hears nothing from a frame on, for `count` frames."""
    return blank_bus(5, lost_frames=range(first, first + count))


def one(unit):
    """Give a bus with one unit."""
    return simulated_link.Bus([unit])


class ReportTest(BenchTest):
    """The report of orders, and the status that goes with it."""

    def test_reports_of_whole_runs(self):
        for name, scene in SCENES.items():
            (self.folder / name).mkdir()
            desk, bus = desk_of(self.folder / name, scene.orders), scene.bus()
            path = reporting(desk, "--moment", "7")
            ended = desk.over(bus)
            units = [order["unit"] for order in scene.orders]
            wanted = [(number, unit, code, "now", 7) for (number, code), unit in zip(scene.codes.items(), units)]
            found = lines_of(path)
            self.assertEqual([(it["order"], it["unit"], it["code"], it["ended"], it["moment"]) for it in found], wanted)
            self.assertEqual([f"reply {it['order']} {it['reply']}" for it in found], ended.told.splitlines()[1::2])
            self.assertEqual(sum(it["frames"] for it in found), len(ended.sent) // 5)
            reporting(desk, "--moment", "9")
            self.assertEqual(desk.over(bus).sent, b"")
            self.assertEqual(lines_of(path, 2),
                             [kept(number, unit, code, "before", 0, 0, 7) for number, unit, code, *_ in wanted])

    def test_frames_and_misses(self):
        desk = desk_of(self.folder, PRESENT)
        path = reporting(desk)
        # A try of the first read begins with two frames, of which the second asks DTR1 back.
        for run, (lost, frames, misses) in enumerate([(set(), 112, 0), ({2}, 114, 1), ({2, 4}, 116, 2)], 1):
            desk.journal.unlink(missing_ok=True)
            self.assertEqual(desk.over(blank_bus(5, lost_answers=lost)).status, 0)
            self.assertEqual((lost, lines_of(path, run)), (lost, [kept(1, 5, 0, "now", frames, misses)]))

    def test_orders_that_have_to_be_done(self):
        other = [{"order": 1, "unit": 5, "year": 24}]
        full = HEADER + b"".join(absent_records(number) for number in range(100000))
        cases = [
            (PRESENT, None, blank_bus(5), 0, [kept(1, 5, 0, "now", 112, 0)]),
            (PRESENT, DONE_JOURNAL, blank_bus(5), 0, [kept(1, 5, 0, "before", 0, 0)]),
            (PRESENT, None, blank_bus(), 1, [kept(1, 5, 3, "now", 16, 8)]),
            (ABSENT, ABSENT_JOURNAL, blank_bus(9), 1, [kept(1, 9, 3, "before", 0, 0)]),
            (other, DONE_JOURNAL, blank_bus(5), 1, [unkept(1, 5, "reused", moment=0)]),
            ([{"order": 100001, "unit": 5, "year": 24}], full, blank_bus(5), 1, [unkept(100001, 5, "full")]),
            (PRESENT + [{"order": 2, "unit": 9, "year": 24}], None, blank_bus(5), 1,
             [kept(1, 5, 0, "now", 112, 0), kept(2, 9, 3, "now", 16, 8)]),
            ([], ABSENT_BEGAN, blank_bus(), 1, [kept(1, 9, 3, "now", 16, 8)]),
            ([], None, blank_bus(), 1, []),
        ]
        for orders, journal, bus, status, wanted in cases:
            desk = desk_of(self.folder, orders)
            desk.journal.unlink(missing_ok=True)
            if journal is not None:
                desk.journal.write_bytes(journal)
            path = reporting(desk, "--require-done")
            path.unlink(missing_ok=True)
            self.assertEqual((orders, desk.over(bus).status, lines_of(path)), (orders, status, wanted))

    def test_orders_that_the_drive_has_to_do(self):
        other = [{"order": 1, "unit": 5, "year": 24}]
        second = [{"order": 2, "unit": 5, "year": 24}]
        begun = DONE_JOURNAL[:-4]
        # Whether each is done, and whether each was by this drive.
        cases = [
            ("done now", PRESENT, None, (5,), 0, 0),
            ("done before", PRESENT, DONE_JOURNAL, (5,), 0, 1),
            ("one before and one now", PRESENT + second, DONE_JOURNAL, (5,), 0, 1),
            ("twice in ORDERS", PRESENT + PRESENT, None, (5,), 0, 1),
            ("resumed", [], begun, (5,), 0, 0),
            # Its end is reported once, so when the order comes it is known.
            ("resumed and come again", PRESENT, begun, (5,), 0, 1),
            ("resumed and another", second, begun, (5,), 0, 0),
            ("silent", PRESENT, None, (), 1, 1),
            ("reused", other, DONE_JOURNAL, (5,), 1, 1),
            ("nothing", [], None, (), 1, 1),
            ("nothing behind an order of before", [], DONE_JOURNAL, (), 1, 1),
        ]
        for name, orders, journal, addresses, done, now in cases:
            for options, status in [([], 0), (["--require-done"], done), (["--require-now"], now),
                                    (["--require-now", "--require-done"], now)]:
                desk = desk_of(self.folder, orders)
                desk.journal.unlink(missing_ok=True)
                if journal is not None:
                    desk.journal.write_bytes(journal)
                desk.options = options
                ended = desk.over(blank_bus(*addresses))
                told = NOTHING if options and name.startswith("nothing") else ""
                self.assertEqual((name, options, ended.status, NOTHING in ended.told),
                                 (name, options, status, told != ""))
                if not orders and journal != begun:
                    self.assertEqual((name, options, ended), (name, options, Ended(status, b"", told)))

    def test_an_end_is_told_once(self):
        lines = [*PRESENT, {"order": 2, "unit": 5, "year": 24}, *PRESENT]
        for journal, wanted in [
            (DONE_JOURNAL[:-4], [(1, "now"), (1, "before"), (2, "now"), (1, "before")]),
            (DONE_JOURNAL, [(1, "before"), (2, "now"), (1, "before")]),
            (None, [(1, "now"), (2, "now"), (1, "before")]),
        ]:
            for form in (Desk, Following):
                desk = form(settings["program"], self.folder, lines)
                put_journal(desk, journal)
                path = reporting(desk, "--require-now")
                path.unlink(missing_ok=True)
                status = desk.over(blank_bus(5)).status
                told = [(line["order"], line["ended"]) for line in lines_of(path)]
                self.assertEqual((form, journal, status, told), (form, journal, 1, wanted))

    def test_nothing_done_where_that_can_not_be_told(self):
        desk = desk_of(self.folder, [])
        for desk in (desk, Verifying(desk.program, self.folder, [])):
            desk.options = ["--require-now"] if type(desk) is Desk else []
            with open("/dev/full", "wb") as full:
                self.assertEqual(desk.give(b"", stderr=full), Ended(2, b"", ""))
            self.assertEqual(desk.give(b""), Ended(1, b"", NOTHING))

    def test_causes(self):
        gtin, year = PRESENT, [{"order": 1, "unit": 5, "year": 24}]
        short_bank = bytes([0x10]) + b"\xff" * 16
        # Orders, what makes a bus, and the line to report: by the checked plan and by the short one, or by both.
        cases = [
            # A location that can't be written, and locations that are read otherwise, the lock byte among them.
            (gtin, lambda: one(simulated_link.Unit(5, BLANK, (0x05,))), [(4, cause("unwritten", 0x05))]),
            (gtin, lambda: one(Wrong(0x05)), [(4, cause("other", 0x05, 0xCE ^ 0xFF))]),
            (gtin, lambda: one(Wrong(0x08)), [(4, cause("other", 0x08, 0xAB ^ 0xFF))]),
            (gtin, lambda: one(Wrong(0x02)), [(4, cause("other", 0x02, 0x00))]),
            # The first access that failed is reported, and none of those that close the unit: it is gone for all of
            # them, or is back for them. The checked plan writes 06h by the frames 36 to 42 and reads 02h by 64 to 70,
            # the short one reads the row from 02h on by the frames 37 to 49.
            (gtin, lambda: gone(8), [(5, cause("unwritten", 0x02))]),
            (gtin, lambda: gone(8, 32), [(4, cause("unwritten", 0x02))]),
            (gtin, lambda: gone(37), [(5, cause("unwritten", 0x06)), (5, cause("unread", 0x02))]),
            (gtin, lambda: gone(64), [(5, cause("unread", 0x02)), (0, None)]),
            # A row that fails is no cause. By the short plan 02h is then read again, by seven frames, and 03h with 04h.
            # A try that misses has two frames there, and four of a checked write.
            (gtin, lambda: gone(37, 16), [(0, None)]),
            (gtin, lambda: gone(37, 32), [(4, cause("unwritten", 0x06)), (4, cause("unread", 0x02))]),
            (gtin, lambda: blank_bus(5, lost_frames={*range(37, 53), *range(60, 76)}),
             [(0, None), (4, cause("unread", 0x03))]),
            # The first look at the unit, and ends that have no cause.
            (year, lambda: gone(1), [(3, cause("unread", 0x00))]),
            (year, lambda: gone(8), [(3, cause("unread", 0x11))]),
            (year, lambda: one(Wrong(0x12)), [(2, None)]),
            (year, lambda: one(simulated_link.Unit(5, short_bank)), [(1, None)]),
            (year, lambda: blank_bus(5, lost_answers={2, 30}), [(0, None)]),
        ]
        for number, (orders, bus, wanted) in enumerate(cases):
            for plan, told in [([], wanted[0]), (["--short-plan"], wanted[-1])]:
                place = self.folder / f"{number}{len(plan)}"
                place.mkdir()
                desk = desk_of(place, orders)
                path = reporting(desk, *plan)
                desk.over(bus())
                (line,) = lines_of(path)
                self.assertEqual((number, plan, line["code"], line["cause"]), (number, plan, *told))
                # An end that is known from before has no cause.
                desk.over(blank_bus(5))
                self.assertEqual((number, lines_of(path, 2)[0]["cause"]), (number, None))

    def test_bytes_that_are_told_otherwise(self):
        # Worked by hand: of the GTIN's first byte, 03h, its write is answered by 04h, or its read by 00h.
        for word, told, frames in [(0xC703, 0x04, 84), (0x0BC5, 0x00, 91)]:
            place = self.folder / f"{word:04X}"
            place.mkdir()
            desk, bus = desk_of(place, PRESENT), one(Lying(word, told))
            ended = desk.over(bus)
            self.assertEqual((ended.status, bus.frames, ended.told.split("\n")[1:]),
                             (0, frames, ["reply 1 kept 4 Doubt", ""]))

    def test_a_left_unit_and_the_order_that_it_blocks(self):
        desk, bus = desk_of(self.folder, LEFT.orders[:1]), LEFT.bus()
        path = reporting(desk, "--require-done")
        self.assertEqual((desk.over(bus).status, lines_of(path)[0]["reply"]), (1, "kept 5 DoubtOpen"))
        desk.write_orders(LEFT.orders[1:])
        # The left unit is closed by accesses that miss in each of their eight tries.
        ended = desk.over(blank_bus(6))
        (line,) = lines_of(path, 2)
        self.assertEqual((ended.status, line), (1, unkept(22, 6, "blocked 5", len(ended.sent) // 5, line["misses"])))
        assert line["misses"] in (8, 16), line
        self.assertEqual(desk.over(blank_bus(5, 6)).status, 0)
        (line,) = lines_of(path, 3)
        self.assertEqual((line["order"], line["code"], line["ended"], line["misses"]), (22, 0, "now", 0))

    def test_a_kill_and_a_restart(self):
        for run, frame in enumerate((1, 17, 50, 112), 1):
            desk, bus = desk_of(self.folder, PRESENT), blank_bus(5)
            desk.journal.unlink(missing_ok=True)
            path = reporting(desk, "--moment", "7")
            desk.over(bus, (frame, "carried"))
            self.assertEqual((frame, lines_of(path, run)), (frame, []))
            reporting(desk, "--moment", "8", "--require-done")
            ended = desk.over(bus)
            first, second = lines_of(path, run)
            self.assertEqual((frame, ended.status, second), (frame, 0, kept(1, 5, 0, "before", 0, 0, 7)))
            self.assertEqual((frame, first), (frame, kept(1, 5, 0, "now", len(ended.sent) // 5, first["misses"], 7)))

    def test_answers_that_break_a_drive_off(self):
        for run, (answers, fault, frame, answer) in enumerate([
                (b"zz\n", "3 Line", "C301", "zz"), (b"--\n\x00\\\xff\r\n", "3 Line", "139C", r"\x00\x5C\xFF\x0D"),
                (b"", "4 End", "C301", ""), (b"--\n0", "4 End", "139C", "0"),
                (b"1234567890\n", "6 TooLong", "C301", "123456789")], 1):
            desk = desk_of(self.folder, ABSENT, b"")
            path = reporting(desk)
            self.assertEqual(desk.give(answers).told, f"reply 1 taken\ndrive fault {fault}\n")
            number, name = fault.split()
            self.assertEqual(lines_of(path, run),
                             [{"answer": answer, "fault": int(number), "frame": frame, "name": name}])

    def test_refused_orders_have_no_report(self):
        desk = desk_of(self.folder, [{"order": 1, "unit": 64, "year": 24}])
        path = reporting(desk, "--require-done")
        self.assertEqual(desk.give(b""), Ended(1, b"", "item 1 fault 1 Unit\n"))
        self.assertEqual(lines_of(path), [])

    def test_reports_of_verify(self):
        orders = PRESENT + [{"order": 2, "unit": 6, "year": 24}, {"order": 3, "unit": 7, "year": 24}]
        desk, bus = desk_of(self.folder, PRESENT), blank_bus(5, 6)
        self.assertEqual(desk.over(bus).status, 0)
        desk = Verifying(desk.program, self.folder, orders)
        path = reporting(desk)
        ended = desk.over(bus)
        self.assertEqual((ended.status, ended.told),
                         (1, "order 1 unit 5 same\norder 2 unit 6 other 13 FF\norder 3 unit 7 silent\n"))
        blank = {"byte": None, "differs": [], "location": None}
        year = {"field": "year", "has": "unknown", "wants": "24"}
        self.assertEqual(lines_of(path), [
            {**blank, "found": "same", "order": 1, "unit": 5},
            {"byte": 255, "differs": [year], "found": "other", "location": 0x13, "order": 2, "unit": 6},
            {**blank, "found": "silent", "order": 3, "unit": 7}])
        desk.options = ["--report", "/dev/full"]
        self.assertEqual(last_line(desk.over(bus))[2], UNTOLD.format("/dev/full", "no storage space").rstrip("\n"))
