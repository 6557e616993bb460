"""Tests of the short plan: its frames, what is lost or altered, units that don't do as asked, kills between plans."""

import json
import signal
import subprocess

from base import BenchTest, in_cases, settings
from drive_desk import DONE_JOURNAL, DONE_TOLD, GTIN, GTIN_BYTES, PRESENT, desk_of
from drive_fixtures import (
    ALL_FIELDS,
    BLANK,
    DOUBTFUL,
    FULL_ORDER,
    LEFT,
    LOSSY,
    SCENES,
    YEAR_ORDER,
    At,
    bank_of,
    finish,
    short_desk,
)
from driven import Desk, Following, judge, simulated_link

# An order, its frames by each plan, and the rows that it is read back in.
COUNTS = [
    ({"order": 1, "unit": 5, "gtin": GTIN}, 112, 49),  # 02h to 08h
    (YEAR_ORDER, 56, 44),  # 02h; 13h
    ({"order": 1, "unit": 5, "year": 24, "week": 53}, 70, 48),  # 02h; 13h and 14h
    ({"order": 1, "unit": 5, "gtin": GTIN, "identification": "0011223344556677"}, 224, 81),  # 02h to 10h
    (FULL_ORDER, 1652, 536),
]
# The frames of a year by the short plan, by hand: the length, the format, 02h unlocked, 13h, 02h locked, both read back.
YEAR_FRAMES = """
    C301 0B9C A300 0B98 0BC5 0B98 0B9C
    C301 0B9C A311 0B98 0BC5 0BC5 0B98 0B9C
    0B81 0B81 C301 0B9C A302 0B98 C755
    A313 0B9C 0B98 C718
    A302 0B9C 0B98 C7FF
    C301 0B9C A302 0B98 0BC5 0B98 0B9C
    C301 0B9C A313 0B98 0BC5 0B98 0B9C
""".split()
# The most that one miss costs: all frames of a block read of sixteen locations.
MOST_OF_A_MISS = 22
# Answers that are lost of a GTIN order, by their frames, the frames that it then takes, and its code. Its row of 02h to
# 08h has 13 frames, of which the last one is frame 49. Where it fails it is read again: 02h, and three times two.
LAST_OF_A_TRY = [49, 62, 75, 88, 101, 114, 127, 140]
LOST_OF_A_ROW = [
    (LAST_OF_A_TRY[:7], 140, "0 Done"),
    (LAST_OF_A_TRY, 140 + 7 + 3 * 8, "0 Done"),
    ([*LAST_OF_A_TRY, 147], 140 + 2 * 7 + 3 * 8, "0 Done"),
    ([*LAST_OF_A_TRY, *range(147, 197, 7)], 140 + 8 * 7 + 14, "4 Doubt"),
]
DONE = "reply 1 kept 0 Done"
SHARES = 4  # of a long test, each a case


class Turned(Desk):
    """A desk whose runs use the short plan and the checked one in turn."""

    is_short = False

    def words(self):
        """Give the command line."""
        self.is_short = not self.is_short
        return [self.program, "drive", *(["--short-plan"] if self.is_short else []), self.orders, self.journal]


def played(order, plan="short", bank=None, fixed=(), fates=(), events=None):
    """Run an order in a scenario; give the lines of its output."""
    unit = {"address": 5, "fixed": list(fixed)} | ({"bank": bank.hex()} if bank else {})
    scenario = {"limit": 1, "plan": plan, "units": [unit], "fates": list(fates),
                "events": events or [{"submit": order}, {"steps": 14000}]}
    told = subprocess.run([settings["program"], "run", "/dev/stdin"], input=json.dumps(scenario), capture_output=True,
                          text=True, check=True).stdout
    return told.splitlines()


def frames_of(lines):
    """Give how many frames a run sent."""
    return next(int(line[6:]) for line in lines if line.startswith("total "))


# An order, its unit's bank and fixed locations, what befalls, and the code that it ends with by either plan.
UNSUITED = [
    (PRESENT[0], BLANK, [5], [], "4 Doubt"),
    (FULL_ORDER, bank_of(0x3C), [], [], "1 Short"),
    (YEAR_ORDER, bank_of(0x78, x12=0x04), [], [], "2 Format"),
    (PRESENT[0], BLANK, [], [{"times": 30}, {"times": 8, "refuse": True}], "0 Done"),
]


class Forgetful(simulated_link.Unit):
    """A unit that is write-enabled for one write alone."""

    def _write(self, byte, refusing):
        """Do what a unit does, and be enabled no longer."""
        is_stored = super()._write(byte, refusing)
        self.is_enabled = False
        return is_stored


class Staying(simulated_link.Unit):
    """A unit that doesn't move DTR0 on at a write."""

    def _write(self, byte, refusing):
        """Do what a unit does, and stay."""
        location = self.registers[0]
        is_stored = super()._write(byte, refusing)
        self.registers[0] = location
        return is_stored


def altering(number):
    """Make a bus with unit 5 that alters the answer to one frame, counted from 1: one bit is turned."""
    return simulated_link.Bus([simulated_link.Unit(5)], altering=At(number, answer=0x40))


def turned_run(folder, scene, stops):
    """Kill drives by the one plan and the other at each of the stops; judge each moment, and then go on."""
    desk, bus = Turned(settings["program"], folder, scene.orders), scene.bus()
    desk.journal.write_bytes(b"")
    for stop in stops:
        ended = desk.over(bus, stop)
        assert ended.status in (-signal.SIGKILL, 0), ended
        judge(bus, scene.banks(), desk.held())
    finish(desk, scene, bus)


class PlansTest(BenchTest):
    """The frames and writes of the short plan, beside those of the checked one."""

    def test_frames_of_both_plans(self):
        for order, checked, short in COUNTS:
            desk = desk_of(self.folder, [order], b"")
            for options, frames in ([], checked), (["--short-plan"], short):
                desk.options, bus = options, simulated_link.Bus([simulated_link.Unit(5)])
                desk.journal.write_bytes(b"")
                self.assertEqual((desk.over(bus).told, bus.frames), (DONE_TOLD, frames))
                judge(bus, {5: BLANK}, desk.held())
            self.assertEqual([frames_of(played(order, plan)) for plan in ("checked", "short")], [checked, short])

    def test_frames_of_a_year_one_by_one(self):
        desk = short_desk(self.folder, [YEAR_ORDER], b"")
        sent = desk.over(simulated_link.Bus([simulated_link.Unit(5)])).sent
        self.assertEqual(sent.decode().split(), YEAR_FRAMES)

    def test_a_stream_by_the_short_plan(self):
        desk, bus = Following(settings["program"], self.folder, PRESENT), simulated_link.Bus([simulated_link.Unit(5)])
        desk.options = ["--short-plan"]
        self.assertEqual((desk.over(bus).told, bus.frames), (f"{desk.ready}{DONE_TOLD}", 49))
        judge(bus, {5: BLANK}, desk.held())

    def test_what_the_short_plan_writes(self):
        desk, bus = short_desk(self.folder, PRESENT), simulated_link.Bus([simulated_link.Unit(5)])
        desk.over(bus)
        self.assertEqual((bytes(bus.units[0].banks[1]), desk.held()),
                         (BLANK[:3] + GTIN_BYTES + BLANK[9:], DONE_JOURNAL))

    @in_cases(SHARES)
    def test_each_frame_and_answer_lost(self, case):
        for order, _, short in COUNTS[::4]:
            done = [line for line in played(order) if line.startswith("bank ")]
            for frame in range(case, short, SHARES):
                for loss in {"lost": [5]}, {"answer_lost": True}:
                    lines = played(order, fates=[{"times": frame}] * (frame > 0) + [loss])
                    assert DONE in lines and done == [line for line in lines if line.startswith("bank ")], (frame, loss)
                    assert short <= frames_of(lines) <= short + MOST_OF_A_MISS, (frame, loss, frames_of(lines))

    def test_a_row_that_fails_is_read_again(self):
        for lost, frames, code in LOST_OF_A_ROW:
            fates, before = [], 0
            for frame in lost:
                fates += [{"times": frame - before - 1}, {"answer_lost": True}]
                before = frame
            lines = played(PRESENT[0], fates=fates)
            self.assertEqual((lost, frames_of(lines), f"reply 1 kept {code}" in lines), (lost, frames, True))

    def test_each_answer_altered(self):
        # The reads of the row of 02h to 10h are the frames 65 to 79. It is read again by 02h and seven times two.
        order, _, short = COUNTS[3]
        for frame in range(1, short + 1):
            desk, bus = short_desk(self.folder, [order], b""), altering(frame)
            told = desk.over(bus).told
            frames = {short + 7 + 7 * 8} if 65 <= frame <= 79 else range(short, short + MOST_OF_A_MISS + 1)
            assert told == DONE_TOLD and bus.frames in frames, (frame, told, bus.frames)
            judge(bus, {5: BLANK}, desk.held())

    def test_an_altered_byte_of_a_short_row(self):
        # 02h is read by frame 35, 13h by frame 42: rows of one location aren't read again.
        for frame, code in (34, "0 Done"), (35, "4 Doubt"), (42, "4 Doubt"):
            desk, bus = short_desk(self.folder, [YEAR_ORDER], b""), altering(frame)
            self.assertIn(f"reply 1 kept {code}\n", desk.over(bus).told)
            judge(bus, {5: BLANK}, desk.held())

    def test_power_lost_behind_each_step(self):
        codes = set()
        for steps in range(1, 54):
            lines = played(PRESENT[0], events=[{"submit": PRESENT[0]}, {"steps": steps}, {"power": 5}, {"steps": 2000}])
            code = next(line for line in lines if line.startswith("reply 1 kept"))
            bank = next(line for line in lines if line.startswith("bank 5 00"))
            assert any(line.startswith("unit 5 ") and line.endswith("enabled no") for line in lines), (steps, lines)
            assert code != DONE or bank.startswith("bank 5 00 77FFFF03A4CEEFADAB"), (steps, bank)
            codes.add(code)
        self.assertEqual(codes, {DONE, "reply 1 kept 4 Doubt"})

    def test_units_that_do_not_suit(self):
        for order, bank, fixed, fates, code in UNSUITED:
            for plan in "checked", "short":
                lines = played(order, plan, bank, fixed, fates)
                self.assertEqual((plan, [line for line in lines if " kept " in line]), (plan, [f"reply 1 kept {code}"]))

    def test_a_unit_that_drops_write_enable(self):
        # Each write but the first takes seven frames more, after a try that misses.
        for name, orders, frames, writes in [("gtin", PRESENT, 49, 8), ("year", [YEAR_ORDER], 44, 3),
                                             ("full", [FULL_ORDER], 536, 117)]:
            (self.folder / name).mkdir()
            desk, bus = short_desk(self.folder / name, orders), simulated_link.Bus([Forgetful(5)])
            self.assertEqual((name, desk.over(bus).told, bus.frames), (name, DONE_TOLD, frames + 7 * (writes - 1)))
            judge(bus, {5: BLANK}, desk.held())

    def test_a_unit_that_does_not_move_on(self):
        # Each of the six writes just after another one misses at its second question, and takes seven frames then.
        desk, bus = short_desk(self.folder, PRESENT), simulated_link.Bus([Staying(5)])
        self.assertEqual((desk.over(bus).told, bus.frames), (DONE_TOLD, 49 + 6 * (2 + 7 - 3)))
        judge(bus, {5: BLANK}, desk.held())

    def test_scenes_by_the_short_plan(self):
        for name, scene in SCENES.items():
            (self.folder / name).mkdir()
            finish(short_desk(self.folder / name, scene.orders), scene, scene.bus(),
                   scene.codes if scene in (LOSSY, DOUBTFUL, ALL_FIELDS) else None)

    @in_cases(SHARES)
    def test_kills_with_the_plan_turned(self, case):
        for scene in LOSSY, LEFT:
            total = len(desk_of(self.folder, scene.orders, b"").over(scene.bus()).sent) // 5
            for frame in range(1 + case, total + 1, SHARES):
                moment = ("sent", "carried")[frame % 2]
                turned_run(self.folder, scene, [(frame, moment), (1 + frame % 23, "sent"), (1 + frame % 7, "carried")])
