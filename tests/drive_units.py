"""Tests of `drive` over simulated units, and of it killed at each frame."""

import signal
import subprocess
import tempfile

import driven
from adapter_fixtures import SerialInterface
from base import BenchTest, in_cases
from drive_desk import (
    ABSENT,
    ABSENT_BEGAN,
    ABSENT_FRAMES,
    ABSENT_RECORDS,
    DONE_JOURNAL,
    DONE_TOLD,
    GTIN,
    GTIN_BYTES,
    KEPT_SILENT,
    PRESENT,
    SILENCE,
    desk_of,
    goes_on,
    last_line,
)
from drive_fixtures import BLANK, CHANGED_BY_KILLS, LEFT, SCENES, finish, many_orders, whole_run
from driven import HEADER, Ended, judge, records_of, simulated_link

SHARES = 4  # of a long test, each a case


class UnitsTest(BenchTest):
    """Drives over simulated units."""

    def test_whole_runs(self):
        for name, scene in SCENES.items():
            (self.folder / name).mkdir()
            desk, _, ended = whole_run(self.folder / name, scene)
            self.assertEqual(ended.told,
                             "".join(f"reply {number} taken\nreply {number} kept {code} {driven.NAMES[code]}\n"
                                     for number, code in scene.codes.items()))
            kinds = "".join(kind for kind, _ in records_of(desk.held())[0])
            self.assertEqual(kinds,
                             {"lossy": "BOEBEBEBOE", "doubtful": "BOEBEBOE", "left": "BOECBOE",
                              "powerless": "BOEBOEBOE", "all fields": "BOE"}[name])

    def test_gtin_on_disk(self):
        with tempfile.TemporaryDirectory() as on_disk:
            desk, bus = desk_of(on_disk, PRESENT), simulated_link.Bus([simulated_link.Unit(5)])
            ended = desk.over(bus)
            self.assertEqual((ended.status, bus.frames, ended.told), (0, 112, DONE_TOLD))
            self.assertEqual(bytes(bus.units[0].banks[1]), BLANK[:3] + GTIN_BYTES + BLANK[9:])
            self.assertEqual(desk.held(), DONE_JOURNAL)
            self.assertEqual(desk.over(bus), Ended(0, b"", "reply 1 kept 0 Done\n"))

    def test_the_journal_command_reads_what_drive_wrote(self):
        for name, scene in SCENES.items():
            desk = desk_of(self.folder, scene.orders, b"")
            desk.over(scene.bus())
            told = subprocess.run([desk.program, "journal", desk.journal], capture_output=True, text=True).stdout
            size, count = len(desk.held()), len(scene.orders)
            lines = told.splitlines()
            self.assertEqual((name, lines[0]), (name, "version 2"))
            self.assertEqual((name, lines[-1]), (name, f"counts {size} of {size} orders {count} standing idle"))

    def test_a_full_journal(self):
        again, more = {"order": 7, "unit": 9, "year": 24}, {"order": 100000, "unit": 9, "year": 24}
        desk = desk_of(self.folder, [again, more, again], HEADER + many_orders(*range(100000)))
        ended = desk.give(SILENCE)
        self.assertEqual(ended, Ended(0, b"", "reply 7 kept 3 Silent\nreply 100000 full\nreply 7 kept 3 Silent\n"))
        self.assertEqual(len(desk.held()), 2300004)
        desk.journal.write_bytes(HEADER + many_orders(*range(100001)))
        self.assertEqual(last_line(desk.give(SILENCE)), (1, b"", "journal fault 6 Full at 2300004"))

    def test_the_last_order_of_a_journal(self):
        desk = desk_of(self.folder, ABSENT, HEADER + many_orders(0, *range(2, 100000)))
        self.assertEqual(desk.give(SILENCE), Ended(0, ABSENT_FRAMES, "reply 1 taken\n" + KEPT_SILENT))
        self.assertEqual(desk.held()[-len(ABSENT_RECORDS):], ABSENT_RECORDS)

    def test_the_same_number_for_another_order(self):
        desk, bus = desk_of(self.folder, PRESENT), simulated_link.Bus([simulated_link.Unit(5)])
        desk.over(bus)
        desk.write_orders([{"order": 1, "unit": 5, "gtin": "96385074"}, {"order": 1, "unit": 9, "gtin": GTIN},
                           *PRESENT])
        ended = desk.over(bus)
        self.assertEqual(ended, Ended(0, b"", "reply 1 reused\n" * 2 + "reply 1 kept 0 Done\n"))
        self.assertEqual(desk.held(), DONE_JOURNAL)

    def test_a_unit_that_stays_left(self):
        bus = LEFT.bus()
        desk = desk_of(self.folder, LEFT.orders)
        bus.lost_frames = set(range(40, 400))
        ended = desk.over(bus)
        lines = ["reply 21 taken", "reply 21 kept 5 DoubtOpen", "reply 22 taken", "reply 22 blocked 5"]
        self.assertEqual((ended.status, ended.told.splitlines()), (0, lines))
        judge(bus, LEFT.banks(), desk.held())
        bus.lost_frames = set()
        finish(desk, LEFT, bus, LEFT.codes)

    def test_over_the_simulated_adapter(self):
        desk = desk_of(self.folder, PRESENT)
        adapter = [driven.ROOT / "adapters" / "simulated_link.py", "--folder", self.folder, "--lose-answer", "50"]
        for told in (DONE_TOLD, "reply 1 kept 0 Done\n"):
            words = [*adapter, "--", *desk.words()]
            ended = subprocess.run(words, capture_output=True, text=True, timeout=driven.PATIENCE)
            self.assertEqual((ended.returncode, ended.stdout, ended.stderr), (0, "", told))
        self.assertEqual(bytes.fromhex((self.folder / "unit_5.hex").read_text()), BLANK[:3] + GTIN_BYTES + BLANK[9:])

    def test_over_the_serial_adapter(self):
        desk = desk_of(self.folder, ABSENT)
        interface = SerialInterface([[b"N\r"]] * 10)
        adapter = [driven.ROOT / "adapters" / "serial_link.py", interface.device, "--"]
        ended = subprocess.run([*adapter, *desk.words()], capture_output=True, text=True, timeout=driven.PATIENCE)
        interface.close()
        self.assertEqual((ended.returncode, interface.heard), (1, ["SC301\r", "S139C\r"] * 5 + ["SC301\r"]))
        assert {"reply 1 taken", "drive fault 4 End"} < set(ended.stderr.splitlines()), ended.stderr
        self.assertEqual(desk.held(), ABSENT_BEGAN)
        goes_on(desk)


def killed_run(folder, scene, stops, codes):
    """Kill the program at each of the stops in turn, over one bus and journal; judge each moment, and then go on."""
    desk, bus = desk_of(folder, scene.orders, b""), scene.bus()
    for stop in stops:
        ended = desk.over(bus, stop)
        assert ended.status in (-signal.SIGKILL, 0), ended
        judge(bus, scene.banks(), desk.held())
    finish(desk, scene, bus, codes)


def kill_at_each_frame(folder, name, moment, part, count):
    """Kill a scene's run at each frame of its run with no kill, those of one part."""
    scene = SCENES[name]
    (folder / "whole").mkdir()
    total = len(whole_run(folder / "whole", scene)[2].sent) // 5
    codes = None if name in CHANGED_BY_KILLS else scene.codes
    for frame in range(1 + part * scene.step, total + 1, count * scene.step):
        try:
            killed_run(folder, scene, [(frame, moment)], codes)
            more = [(1 + frame % 23, "sent"), (1 + frame % 7, "carried")]
            killed_run(folder, scene, [(frame, moment), *more], codes)
        except Exception as fault:
            raise AssertionError(f"{name}, killed once frame {frame} was {moment}") from fault


class KillsTest(BenchTest):
    """Drives that are killed at each frame."""

    @in_cases(SHARES)
    def test_kills_before_the_link_carries(self, case):
        for name in SCENES:
            (self.folder / name).mkdir()
            kill_at_each_frame(self.folder / name, name, "sent", case, SHARES)

    @in_cases(SHARES)
    def test_kills_before_the_answer(self, case):
        for name in SCENES:
            (self.folder / name).mkdir()
            kill_at_each_frame(self.folder / name, name, "carried", case, SHARES)
