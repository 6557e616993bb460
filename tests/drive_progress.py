"""Tests of `--progress`: what a person at a terminal sees of a command over a link, and what a pipe gets."""

import re
import time

from base import BenchTest
from drive_desk import ABSENT, DONE_TOLD, GTIN, LEFT_JOURNAL, PRESENT, absent_records, desk_of
from drive_fixtures import FULL_ORDER, YEAR_ORDER, Verifying, following, lines_of, reporting, short_desk
from driven import HEADER, PATIENCE, simulated_link
from read_desk import Reading, unit_of
from terminal_fixtures import Screen, at_terminal, seen

# The line of an order: the words before a frame's number, and those after it.
DRAWN = re.compile(r"(.*), frame (\d+)(?: of (\d+))?(?:, misses (\d+))?(?:, left (\d+:\d\d))?")
TIME = r", time \d+:\d\d"
BETWEEN = 16


def bus_of(*units, **losses):
    """Make a bus with these units, or the one that the orders are for."""
    return simulated_link.Bus(units or [simulated_link.Unit(5)], **losses)


def frames_in(drawn):
    """Give of each line that was drawn its frame and those that are expected."""
    found = [DRAWN.fullmatch(line) for line in drawn]
    assert all(found), drawn
    return [(int(one[2]), int(one[3])) for one in found]


def check_totals(line, wanted):
    """Want the line of totals, whatever time it tells, or without that where 80 columns cut it."""
    assert re.fullmatch(re.escape(wanted) + TIME, line) or line == (wanted + ", time ")[:79], (line, wanted)


def desk_told(desk, answers):
    """Give the lines on a terminal after a run with all its answers given at once."""
    command = desk.start()
    command.stdin.write(answers)
    command.stdin.close()
    command.stdout.read()
    command.stdout.close()
    command.wait(PATIENCE)
    screen = Screen(command.stderr.columns)
    screen.show(command.stderr.read().decode())
    command.stderr.close()
    return screen.lines()


class Slow(simulated_link.Bus):
    """A bus on which a frame takes two milliseconds, and that knows when each came."""

    def __init__(self, *units):
        super().__init__(units)
        self.times = [time.monotonic()]

    def carry(self, word):
        """Carry a forward frame to the units."""
        self.times.append(time.monotonic())
        time.sleep(0.002)
        return super().carry(word)


class ProgressTest(BenchTest):
    """The progress of a command at a terminal, and the output to a pipe."""

    def test_a_full_order(self):
        desk = desk_of(self.folder, [FULL_ORDER], b"")
        status, drawn, lines = seen(desk, bus_of())
        self.assertEqual((status, lines[:-1]), (0, DONE_TOLD.splitlines()))
        check_totals(lines[-1], "new journal, not done 0, written now 1, known before 0, frames 1652, misses 0")
        self.assertEqual(drawn[0], "1 of 1: order 1 unit 5, frame 1 of 1652, misses 0")
        self.assertEqual(frames_in(drawn), [(frame, 1652) for frame in range(1, 1653, BETWEEN)])
        assert all(", left 0:0" in line for line in drawn[2:]), drawn[2]

    def test_what_orders_should_take(self):
        orders = [FULL_ORDER, YEAR_ORDER | {"order": 2}, PRESENT[0] | {"order": 3}]
        orders += [{"order": 4, "unit": 5, "gtin": GTIN, "identification": "0011223344556677"}]
        for make, wanted in (desk_of, {1652, 56, 112, 224}), (short_desk, {536, 44, 49, 81}):
            desk = make(self.folder, orders, b"")
            status, drawn, _ = seen(desk, bus_of())
            self.assertEqual((status, {expected for _, expected in frames_in(drawn)}), (0, wanted))
            self.assertEqual([line.split(":")[0] for line in drawn][0::len(drawn) - 1], ["1 of 4", "4 of 4"])

    def test_a_left_unit_is_closed_first(self):
        desk = desk_of(self.folder, [{**PRESENT[0], "order": 2}], LEFT_JOURNAL)
        _, drawn, _ = seen(desk, bus_of())
        self.assertEqual(frames_in(drawn)[-1][1], 112 + 14)

    def test_each_miss_makes_more(self):
        for make in desk_of, short_desk:
            whole, exact = 112 if make is desk_of else 49, 0
            for lost in range(1, whole + 1, 3):
                desk = make(self.folder, PRESENT, b"")
                report = reporting(desk, *desk.options)
                report.unlink(missing_ok=True)
                status, drawn, _ = seen(desk, bus_of(lost_frames=[lost]))
                line = lines_of(report)[0]
                # If the last line was drawn after the miss, and DTR0 was set since then, it is exact.
                last = [DRAWN.fullmatch(one) for one in drawn][-1]
                if int(last[4]) == line["misses"] == 1 and int(last[2]) > lost + 5:
                    self.assertEqual((status, int(last[3])), (0, line["frames"]))
                    exact += 1
            assert exact > whole // 6, exact

    def test_narrow_and_wide(self):
        wide = "1 of 2: order 18446744073709551615 unit 5, frame 1 of 112, misses 0"
        orders = [{**PRESENT[0], "order": 2**64 - 1}, {**PRESENT[0], "order": 7}]
        for columns, told in (40, True), (200, True), (80, False), (200, False), (12, True):
            desk = desk_of(self.folder, orders, b"")
            status, drawn, lines = seen(desk, bus_of(), columns, told)
            self.assertEqual((status, drawn[0]), (0, wide[:columns - 1]))
            assert max(map(len, drawn)) < columns, drawn
            totals = "new journal, not done 0, written now 2, known before 0, frames 224, misses 0, time 0:00"
            self.assertEqual(lines[-1], totals[:columns - 1] if columns < 80 else lines[-1])

    def test_known_before_and_not_done(self):
        orders = [{**PRESENT[0], "order": 1}, *({**ABSENT[0], "order": number} for number in range(2, 12))]
        desk = desk_of(self.folder, orders, b"")
        first = seen(desk, bus_of())
        second = seen(desk, bus_of(), 200)
        totals = "not done 10: 2 3 4 5 6 7 8 9 .., "
        self.assertEqual(first[2][-1], ("new journal, " + totals + "written now 1, known before 0, frames 272")[:79])
        check_totals(second[2][-1], totals + "written now 0, known before 1, frames 0, misses 0")
        self.assertEqual(second[1], [])

    def test_an_order_that_was_left_unfinished(self):
        began = HEADER + absent_records(1)[:-2]
        desk = desk_of(self.folder, PRESENT[:0], began)
        _, drawn, lines = seen(desk, bus_of())
        self.assertEqual(drawn[0], "left unfinished: order 1 unit 9, frame 1, misses 0")
        check_totals(lines[-1], "not done 1: 1, written now 0, known before 0, frames 16, misses 8")

    def test_a_link_that_breaks(self):
        desk = desk_of(self.folder, [{**PRESENT[0], "order": number} for number in (4, 5, 6)], b"")
        at_terminal(desk, 200)
        told = desk_told(desk, b"--\n01\n")
        self.assertEqual(told[:-1], ["reply 4 taken", "drive fault 4 End"])
        totals = "not done 1: 4, not reached 2, written now 0, known before 0, frames 2, misses 0"
        check_totals(told[-1], "new journal, " + totals)

    def test_no_terminal(self):
        for options in [], ["--short-plan"]:
            desk = desk_of(self.folder, PRESENT, b"")
            desk.options = ["--progress", *options]
            told = desk.over(bus_of()).told
            frames = 49 if options else 112
            assert told.startswith(DONE_TOLD) and "\x1b" not in told and "\r" not in told, told
            totals = f"new journal, not done 0, written now 1, known before 0, frames {frames}, misses 0"
            check_totals(told.removeprefix(DONE_TOLD).removesuffix("\n"), totals)

    def test_refused_orders_have_no_totals(self):
        for orders in "[{}]", "{":
            desk = desk_of(self.folder, orders, b"")
            plain = desk.give(b"")
            desk.options = ["--progress"]
            ended = desk.give(b"")
            self.assertEqual((ended.status, ended.sent), (plain.status, plain.sent))
            # Behind its lines stands what `check` tells of ORDERS.
            assert ended.told.startswith(f"{plain.told}ORDERS {desk.orders} is refused:\n"), ended.told
            assert "not done" not in ended.told, ended.told

    def test_time_left(self):
        desk, bus = desk_of(self.folder, [FULL_ORDER], b""), Slow(simulated_link.Unit(5))
        _, drawn, _ = seen(desk, bus)
        for line in drawn[2:]:
            found = DRAWN.fullmatch(line)
            minutes, seconds = map(int, found[5].split(":"))
            frame, all_frames = int(found[2]), int(found[3])
            left = (bus.times[frame] - bus.times[1]) / frame * (all_frames - frame)
            assert abs(60 * minutes + seconds - left) <= 1 + left / 4, (left, line)

    def test_a_stream(self):
        desk = following(self.folder, [*PRESENT, {**PRESENT[0], "order": 7}], b"")
        status, drawn, lines = seen(desk, bus_of())
        self.assertEqual((status, lines[:3]), (0, ["ready", *DONE_TOLD.splitlines()]))
        self.assertEqual([drawn[0], drawn[-1][:30]],
                         ["1: order 1 unit 5, frame 1 of 112, misses 0", "2: order 7 unit 5, frame 97 of"])
        check_totals(lines[-1], "new journal, not done 0, written now 2, known before 0, frames 224, misses 0")

    def test_a_comparison(self):
        orders = [FULL_ORDER, {**YEAR_ORDER, "order": 2, "year": 25}]
        desk, bus = desk_of(self.folder, orders, b""), bus_of()
        desk.over(bus)
        verifying = Verifying(desk.program, self.folder, orders)
        status, drawn, lines = seen(verifying, bus)
        self.assertEqual((status, lines[:-1]), (1, ["order 1 unit 5 other 13 19", "order 2 unit 5 same"]))
        self.assertEqual((drawn[0], frames_in(drawn[1:])[-1]), ("1 of 2: frame 1 of 200", (193, 200)))
        check_totals(lines[-1], "not the same 1: 1, the same 1, frames 200")

    def test_a_bank_is_read(self):
        desk = Reading(self.folder)
        status, drawn, lines = seen(desk, bus_of(unit_of(17)))
        self.assertEqual((status, drawn, lines[0]), (0, ["frame 1", "unit 5, frame 17"], "unit 5 bytes 17"))
        check_totals(lines[1], "frames 29")

    def test_a_look_for_units(self):
        desk = Reading(self.folder, "scan")
        status, drawn, lines = seen(desk, bus_of(unit_of(17), unit_of(17, 63)))
        frames = 62 * 16 + 2 * 7
        self.assertEqual((status, lines[:-1]), (0, ["unit 5 last 10", "unit 63 last 10", "units 2"]))
        check_totals(lines[-1], f"frames {frames}")
        self.assertEqual((drawn[0], drawn[1][:25]), ("1 of 64: frame 1", "1 of 64: unit 0, frame 17"))
