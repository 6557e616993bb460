"""Tests of several drives: two on one journal, and one on each of two buses, with kills and a report each."""

import concurrent.futures
import json
import random
import resource
import signal

import driven
from base import BenchTest, settings, want
from drive_desk import desk_of
from drive_fixtures import BLANK, UNTOLD, blank_bus, reporting
from driven import Desk, groups_of, judge, kept_lines

UNITS = (5, 6, 60)
COUNT = 40
SEEDS = (20261128, 20261129)
# In bytes: a report of a few lines is that long, and the journal of all orders isn't.
MOST_IN_A_FILE = 900
FULL = "file too large"


def orders_of(chance):
    """Make orders of two bytes each for some units, of which one never answers."""
    return [{"order": number, "unit": chance.choice((*UNITS, 9)), "year": chance.randrange(100),
             "week": chance.randint(1, 53)} for number in range(1, COUNT + 1)]


def bus_of(chance):
    """Make a bus that loses a frame or an answer now and then."""
    frames = [chance.sample(range(1, 3000), 25) for _ in range(2)]
    return blank_bus(*UNITS, lost_frames=frames[0], lost_answers=frames[1])


def whole_lines(path):
    """Give the values of a report's whole lines, which have to be JSON, and raise if a line isn't."""
    text = path.read_text() if path.exists() else ""
    lines = text.splitlines(keepends=True)
    assert all(line.endswith("\n") for line in lines[:-1]), text
    return [json.loads(line) for line in lines if line.endswith("\n")]


def judge_report(desk, path):
    """Raise unless each line of a report that tells how an order ended goes with the journal."""
    ends = {group.number: (group.code, group.unit) for group in groups_of(desk.held())}
    for line in whole_lines(path):
        if "order" in line:
            want((line["order"], (line["code"], line["unit"])), (line["order"], ends[line["order"]]))


def judge_all(desk, bus, orders):
    """Raise unless each order has ended once, with its own bytes, and each unit stands as the journal says."""
    judge(bus, {unit.short_address: BLANK for unit in bus.units}, desk.held())
    wanted = [(it["order"], it["unit"], [(0x13, it["year"]), (0x14, it["week"])]) for it in orders]
    want([(group.number, group.unit, group.updates) for group in groups_of(desk.held())], wanted)
    for group in groups_of(desk.held()):
        want((group.number, group.code), (group.number, 3 if group.unit == 9 else 0))


def drive_and_kill(desk, bus, chance, path):
    """Run a desk again and again, killed at frames by chance, until it ends by itself; tell how often it was killed."""
    for kills in range(200):
        stop = (chance.randint(1, 300), chance.choice(("sent", "carried")))
        ended = desk.over(bus, stop)
        judge(bus, {unit.short_address: BLANK for unit in bus.units}, desk.held())
        judge_report(desk, path)
        if ended.status != -signal.SIGKILL:
            return kills, ended
    raise AssertionError("it never came to its end")


def small_files():
    """Limit the length of files, as a full disk does, in the child that is to be the program."""
    signal.signal(signal.SIGXFSZ, signal.SIG_IGN)
    resource.setrlimit(resource.RLIMIT_FSIZE, (MOST_IN_A_FILE, MOST_IN_A_FILE))


class Small(Desk):
    """A desk whose runs may write only short files."""

    def start(self, environment=None, **options):
        """Start the program with that limit."""
        return super().start(environment, preexec_fn=small_files, **options)


class BusesTest(BenchTest):
    """Several drives, each with its report."""

    def test_two_buses_that_are_killed_with_a_report_each(self):
        def drive(seed):
            chance = random.Random(seed)
            room = self.folder / str(seed)
            room.mkdir()
            orders, bus = orders_of(chance), bus_of(chance)
            desk = Desk(settings["program"], room, orders)
            path = reporting(desk)
            kills, ended = drive_and_kill(desk, bus, chance, path)
            assert kills > 3, kills
            self.assertEqual((ended.status, set(kept_lines(desk.held())) <= set(ended.told.splitlines())), (0, True))
            judge_all(desk, bus, orders)
            last = [line for line in whole_lines(path) if line.get("reply")][-COUNT:]
            self.assertEqual([line["order"] for line in last], [it["order"] for it in orders])
            return desk.held()

        with concurrent.futures.ThreadPoolExecutor(2) as pool:
            first, second = pool.map(drive, SEEDS)
        assert first != second

    def test_a_second_drive_on_a_journal_changes_nothing(self):
        chance = random.Random(SEEDS[0])
        orders, bus = orders_of(chance)[:6], blank_bus(*UNITS)
        desk, other = desk_of(self.folder, orders), desk_of(self.folder, orders)
        path, others = reporting(desk), self.folder / "another_report"
        other.options = ["--report", others]
        refused = f"error: the journal is in use by another drive: {other.journal}\nfault 21 File\n"
        tries = 0

        class Disturbed(driven.simulated_link.Bus):
            """A bus beside which a second drive starts, at every 40th frame."""

            def carry(self, word):
                nonlocal tries
                if self.frames % 40 == 7:
                    held = desk.held()
                    ended = other.give(b"--\n" * 20)
                    want(ended, (2, b"", refused))
                    want((desk.held(), whole_lines(others)), (held, []))
                    tries += 1
                return super().carry(word)

        disturbed = Disturbed(bus.units)
        ended = desk.over(disturbed)
        self.assertEqual(ended.status, 0)
        judge_all(desk, disturbed, orders)
        self.assertEqual([line["order"] for line in whole_lines(path)], [it["order"] for it in orders])
        assert tries > 3, tries

    def test_a_report_for_which_the_disk_is_full(self):
        """The report has no room for all its lines; the journal has, or the drive breaks off."""
        for count in (20, COUNT):
            chance = random.Random(SEEDS[1])
            room = self.folder / str(count)
            room.mkdir()
            orders, bus = orders_of(chance)[:count], bus_of(chance)
            desk = Small(settings["program"], room, orders)
            path = reporting(desk)
            ended = drive_and_kill(desk, bus, chance, path)[1]
            has_room = count == 20
            last = UNTOLD.format(path, FULL)
            self.assertEqual((count, ended.status, ended.told.endswith(last)), (count, 2, True))
            self.assertEqual("drive fault 1 Journal" in ended.told, not has_room)
            assert 0 < path.stat().st_size <= MOST_IN_A_FILE, path.stat()
            if not has_room:
                desk = Desk(settings["program"], room, orders)
                self.assertEqual(desk.over(bus).status, 0)
            judge_all(desk, bus, orders)

    def test_a_report_on_a_device_that_is_full(self):
        chance = random.Random(SEEDS[0])
        orders, bus = orders_of(chance), bus_of(chance)
        desk = desk_of(self.folder, orders)
        desk.options = ["--report", "/dev/full"]
        ended = drive_and_kill(desk, bus, chance, self.folder / "none")[1]
        self.assertEqual((ended.status, ended.told.endswith(UNTOLD.format("/dev/full", "no storage space"))), (2, True))
        judge_all(desk, bus, orders)
