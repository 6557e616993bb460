"""Tests of the process of a bus: what it does with orders, with troubles of its link, and with journals."""

import contextlib
import json
import os
import pathlib
import random
import shutil
import signal
import sqlite3
import subprocess
import threading
import time

from base import BenchTest, in_cases
from driven import HEADER, PATIENCE, ROOT, groups_of
from line_bench import (ABSENT, ADAPTER, FIXED, SHORT, Bench, Server, judge, processes_of, stop, wait_for)

PLUGGED = ROOT / "tests" / "line_adapter.py"
ABSENT_RECORD = bytes.fromhex("09 01 1318 4503")
MOST_ORDERS = 100000
SEED = 20261129


def state_of(bench, bus="bus1"):
    """Give what a bus says of itself: its state, the order at work, and its trouble."""
    return bench.rows(f"select state, number, trouble from bench_states where bus = '{bus}'")[0]


def has_ended(process):
    """Tell whether a process isn't there any more."""
    try:
        with open(f"/proc/{process}/stat", encoding="ascii", errors="replace") as file:
            return file.read().rpartition(")")[2].split()[0] in "ZX"
    except OSError:
        return True


class OrdersTest(BenchTest):
    """The ends of orders."""

    def test_each_end(self):
        bench = Bench(self.folder)
        bench.add([(5, 24, 1), (FIXED, 24, 2), (SHORT, 24, 3), (ABSENT, 24, 4), (60, 99, 53), (5, 0, 9)])
        self.assertEqual(bench.run(), 0)
        judge(bench)
        self.assertEqual(bench.does("orders"),
                         ["order 1 bus bus1 unit 5 ended: kept 0 Done", "order 2 bus bus1 unit 6 ended: kept 4 Doubt",
                          "order 3 bus bus1 unit 7 ended: kept 1 Short", "order 4 bus bus1 unit 9 ended: kept 3 Silent",
                          "order 5 bus bus1 unit 60 ended: kept 0 Done", "order 6 bus bus1 unit 5 ended: kept 0 Done"])
        labels = [json.loads(line) for line in bench.does("labels", "--take")]
        self.assertEqual([{key: label[key] for key in ("order", "bus", "unit", "year", "week")} for label in labels],
                         [{"order": 1, "bus": "bus1", "unit": 5, "year": 24, "week": 1},
                          {"order": 5, "bus": "bus1", "unit": 60, "year": 99, "week": 53},
                          {"order": 6, "bus": "bus1", "unit": 5, "year": 0, "week": 9}])
        self.assertEqual(bench.does("labels"), [])
        self.assertEqual(bench.rows("select number, frames, expected, misses from bench_orders where number in (4, 5)"),
                         [(4, 16, 48, 8), (5, 48, 48, 0)])

    def test_orders_come_while_it_runs(self):
        bench = Bench(self.folder)
        process = bench.start()
        for year in range(8):
            number, = bench.add([(5, year, 1)])
            wait_for(lambda: bench.states()[number] == "ended")
            self.assertEqual(bench.bank("bus1", 5)[0x13], year)
        self.assertEqual(stop(process), 0)
        self.assertEqual(state_of(bench), ("stopped", None, None))
        judge(bench)

    def test_how_far_an_order_is(self):
        bench = Bench(self.folder)
        order = b'[{"unit":5,"gtin":"96385074","identification":"0011223344556677","colour":"RAL 9016"}]'
        bench.does("add", "-", given=order)
        process = bench.start(adapter=[ADAPTER, "--frame-time", "15", "--folder", "bus1"])
        said = []
        wait_for(lambda: said.append(bench.rows("select frames from bench_states")[0][0])
                 or bench.states()[1] == "ended")
        self.assertEqual(stop(process), 0)
        said = [it for it in said if it is not None]
        assert said and said == sorted(said) and 0 < said[0] < 198 and len(set(said)) > 1, said
        self.assertEqual(bench.rows("select frames, expected from bench_orders"), [(198, 198)])

    def test_an_order_that_was_sent_is_not_cancelled(self):
        bench = Bench(self.folder)
        bench.add([(5, 24, 1), (5, 25, 1)])
        (self.folder / "bus1" / "unplugged").touch()
        process = bench.start(adapter=[PLUGGED, "bus1", "5"])
        wait_for(lambda: bench.states()[1] in ("sent", "taken"))
        ended = bench.give("cancel", "1")
        self.assertEqual((ended.status, ended.output, ended.told),
                         (1, "", "error: order 1 is at work: it was sent, and is carried out or told as ended\n"))
        self.assertEqual(bench.does("cancel", "2"), ["order 2 cancelled"])
        self.assertEqual(bench.does("cancel", "2"), ["order 2 cancelled"])
        (self.folder / "bus1" / "unplugged").unlink()
        wait_for(lambda: bench.states()[1] == "ended")
        self.assertEqual(stop(process), 0)
        self.assertEqual(bench.give("cancel", "1").told, "error: order 1 has ended: kept 0 Done\n")
        bench.wanted[2] = ("bus1", 5, 25, 1)
        self.assertEqual(judge(bench)[2][4], "cancelled")
        self.assertEqual(bench.bank("bus1", 5)[0x13], 24)

    def test_cancelling_races_with_sending(self):
        bench = Bench(self.folder)
        bench.pace = 2
        process = bench.start()
        counts = {0: 0, 1: 0}
        for year in range(12):
            number = bench.add([(5, year, 1), (5, year, 2), (5, year, 3)])[-1]
            time.sleep(0.05 * (year % 6))
            status = bench.give("cancel", str(number)).status
            counts[status] += 1
            wait_for(lambda: set(bench.states().values()) <= {"ended", "cancelled"})
            self.assertEqual((number, bench.states()[number]), (number, "ended" if status else "cancelled"))
            self.assertEqual((number, number in [group.number for group in bench.groups("bus1")]),
                             (number, bool(status)))
        self.assertEqual(stop(process), 0)
        judge(bench)
        print(f"cancelled {counts[0]}, too late {counts[1]}", flush=True)

    def test_an_order_that_check_refuses_is_not_sent(self):
        """One that stands in the store without `add`, as of another program."""
        bench = Bench(self.folder)
        bench.add([(5, 24, 1), (5, 25, 2)])
        with sqlite3.connect(bench.store) as connection:
            connection.execute("update bench_orders set fields = '{\"year\":100}' where number = 1")
        connection.close()
        self.assertEqual(bench.run(), 0)
        self.assertEqual(bench.does("orders"),
                         ["order 1 bus bus1 unit 5 refused: item 1 order 1: year: the number 100, and it is a"
                          " whole number from 0 to 99, or null", "order 2 bus bus1 unit 5 ended: kept 0 Done"])
        self.assertEqual([group.number for group in bench.groups("bus1")], [2])

    def test_an_order_that_the_journal_knew_has_no_label(self):
        bench = Bench(self.folder)
        bench.add([(5, 24, 1)])
        shutil.copy(bench.store, self.folder / "before.db")
        self.assertEqual(bench.run(), 0)
        self.assertEqual(len(bench.does("labels", "--take")), 1)
        time.sleep(1.1)
        # The older store comes back: of order 1 it knows nothing, and the unit at its address may be another one.
        os.replace(self.folder / "before.db", bench.store)
        self.assertEqual(bench.run(), 0)
        self.assertEqual(bench.does("orders"), ["order 1 bus bus1 unit 5 ended: kept 0 Done, known before"])
        self.assertEqual(bench.does("labels"), [])
        self.assertEqual(len(bench.groups("bus1")), 1)

    def bench_with_an_older_store(self):
        """Give a bench that has carried out two orders, and then has the store of before them."""
        bench = Bench(self.folder)
        shutil.copy(bench.store, self.folder / "before.db")
        bench.add([(5, 24, 1), (5, 25, 1)])
        self.assertEqual(bench.run(), 0)
        os.replace(self.folder / "before.db", bench.store)
        bench.wanted.clear()
        return bench

    def test_a_store_that_is_older_than_the_journal_is_refused(self):
        bench = self.bench_with_an_older_store()
        self.assertEqual(bench.run(), 1)
        assert ("error: the journal has orders up to 2, and this store has given numbers up to 0: put the newer store"
                " back, or begin behind them with `init --first 3`") in bench.log(), bench.log()
        assert state_of(bench)[2].startswith("the journal has orders up to 2")
        bench.does("init", "--first", "3")
        self.assertEqual(bench.add([(5, 26, 1)]), [3])
        self.assertEqual(bench.run(), 0)
        self.assertEqual((bench.states(), len(bench.groups("bus1"))), ({3: "ended"}, 3))

    def test_what_waits_in_an_older_store_is_added_again(self):
        bench = self.bench_with_an_older_store()
        self.assertEqual(bench.add([(60, 26, 1)]), [1])
        self.assertEqual(bench.run(), 1)
        words = "`init --first 3`; of the 1 that wait, add those again that then end as reused"
        assert words in bench.log(), bench.log()
        bench.does("init", "--first", "3")
        self.assertEqual(bench.run(), 0)
        why = "the journal has its number for another order, and nothing was done: add it again"
        self.assertEqual(bench.does("orders"), [f"order 1 bus bus1 unit 60 reused: {why}"])
        assert f"order 1 reused: {why}" in bench.log(), bench.log()


def processes_in(folder):
    """Give the processes that work in a folder."""
    found = []
    for path in pathlib.Path("/proc").glob("[0-9]*/cwd"):
        with contextlib.suppress(OSError):
            if os.readlink(path) == str(folder) and not has_ended(int(path.parent.name)):
                found.append(path.parent.name)
    return found


class ProcessesTest(BenchTest):
    """One process a bus, and all end together."""

    def test_two_processes_of_one_bus(self):
        bench = Bench(self.folder, buses=("bus1", "bus2"))
        process = bench.start()
        wait_for(lambda: state_of(bench)[0] == "ready")
        second = subprocess.run(bench.run_words("bus1"), cwd=self.folder, capture_output=True, text=True, check=False)
        self.assertEqual((second.returncode, second.stderr),
                         (1, "error: the bus bus1 has another process: only one `run` of a bus may be at work\n"))
        other = bench.start("bus2")
        wait_for(lambda: state_of(bench, "bus2")[0] == "ready")
        # The lock goes with a process that is killed.
        process.kill()
        process.wait()
        bench.add([(5, 24, 1)])
        self.assertEqual(bench.run(), 0)
        self.assertEqual(stop(other), 0)
        judge(bench, ("bus1", "bus2"))

    def test_all_processes_end_together(self):
        bench = Bench(self.folder)
        for number, is_own in ((signal.SIGTERM, True), (signal.SIGINT, True), (signal.SIGKILL, True),
                               (signal.SIGKILL, False)):
            process = bench.start()
            chain = wait_for(lambda: state_of(bench)[0] == "ready" and len(processes_of(process)) == 3 and
                             processes_of(process))
            if is_own:
                process.send_signal(number)
                self.assertEqual((number, process.wait(PATIENCE)),
                                 (number, 0 if number != signal.SIGKILL else -signal.SIGKILL))
                wait_for(lambda: all(map(has_ended, chain)))
            else:
                # Adapter and drive start again without a process of the old ones, whichever was killed.
                for place in (1, 2):
                    chain = wait_for(lambda: len(processes_of(process)) == 3 and processes_of(process))
                    os.kill(chain[place], signal.SIGKILL)
                    wait_for(lambda: all(map(has_ended, chain[1:])) and len(processes_of(process)) == 3)
                self.assertEqual(stop(process), 0)
            with sqlite3.connect(bench.store) as connection:
                connection.execute("update bench_states set state = 'starting'")
            connection.close()

    @in_cases(2)
    def test_no_adapter_outlives_the_process_of_its_bus(self, case):
        """Killed at any moment of its start; in the second case without setpriv, which has adapters end with it."""
        bench, chance = Bench(self.folder), random.Random(SEED)
        environment = dict(os.environ)
        if case:
            environment["PATH"] = str(self.folder / "programs")
            (self.folder / "programs").mkdir()
            for name in ("python3", "sh", "env"):
                (self.folder / "programs" / name).symlink_to(f"/usr/bin/{name}")
        for _ in range(20):
            process = subprocess.Popen(bench.run_words("bus1"), cwd=self.folder, env=environment,
                                       stderr=subprocess.DEVNULL)
            time.sleep(chance.uniform(0.1, 0.45))
            process.kill()
            process.wait()
        bench.add([(5, 24, 1)])
        self.assertEqual(bench.run(), 0)
        judge(bench)
        wait_for(lambda: not processes_in(self.folder))

    def test_a_folder_is_of_one_bus(self):
        bench = Bench(self.folder, buses=("bus1", "bus2"))
        bench.add([(5, 24, 1)])
        self.assertEqual(bench.run(), 0)
        for other in ("bus2", "new"):
            ended = subprocess.run(bench.run_words("bus1", "--folder", other), cwd=self.folder, capture_output=True,
                                   text=True, check=False)
            why = f"the bus bus1 has its journal in another folder, or its disk isn't there: {other}"
            self.assertEqual((ended.returncode, ended.stderr), (1, f"error: {why}\n"))
        ended = subprocess.run(bench.run_words("bus2", "--folder", "bus1"), cwd=self.folder, capture_output=True,
                               text=True, check=False)
        self.assertEqual((ended.returncode, ended.stderr),
                         (1, "error: the folder is that of another bus, or of another store: bus1\n"))
        (self.folder / "bus1" / "bench.journal").rename(self.folder / "bus1" / "away")
        self.assertEqual(bench.run(), 1)
        assert "the journal isn't there, and its orders would be carried out again: bus1/bench.journal" in bench.log()
        (self.folder / "bus1" / "away").rename(self.folder / "bus1" / "bench.journal")
        bench.add([(5, 25, 1)])
        self.assertEqual(bench.run(), 0)
        judge(bench)


class LinkTest(BenchTest):
    """Troubles of the link."""

    def test_what_ends_is_started_again_and_says_why(self):
        bench = Bench(self.folder)
        bench.add([(5, 24, 1)])
        for adapter, why in ((["false"], "the adapter ended with status 1"),
                             (["sh", "-c", "echo 'error: the plug is out' >&2; exit 2"], "error: the plug is out"),
                             ([PLUGGED, "bus1", "5"], "error: the interface is gone; drive fault 4 End")):
            (self.folder / "bus1" / "unplugged").touch()
            process = bench.start(adapter=adapter)
            wait_for(lambda: why in (state_of(bench)[2] or ""))
            wait_for(lambda: bench.log().count(why) >= 3)
            self.assertEqual((why, state_of(bench)[0] in ("waiting", "starting", "ready"), process.poll()),
                             (why, True, None))
            self.assertEqual(stop(process), 0)
        (self.folder / "bus1" / "unplugged").unlink()
        self.assertEqual(bench.run(), 0)
        judge(bench)

    def test_an_adapter_that_says_too_much(self):
        """Without end, and without a line's end: the process goes on, and ends when it is asked to."""
        bench = Bench(self.folder)
        for words in ("yes 'error: the same' >&2", "yes | tr -d '\\n' >&2"):
            process = bench.start(adapter=["sh", "-c", words])
            wait_for(lambda: state_of(bench)[0] == "starting")
            time.sleep(1)
            with open(f"/proc/{process.pid}/statm", encoding="ascii") as file:
                resident = int(file.read().split()[1]) * os.sysconf("SC_PAGE_SIZE")
            self.assertEqual((words, stop(process), resident < 2**26), (words, 0, True))
        self.assertEqual(bench.log().count("error: the same"), 1)

    def test_waiting_grows(self):
        bench = Bench(self.folder)
        words = [word for word in bench.run_words("bus1", adapter=["false"])]
        words[words.index("--longest-wait") + 1] = "0.8"
        process = subprocess.Popen(words, cwd=self.folder, stderr=subprocess.PIPE, text=True)
        told = [process.stderr.readline().rsplit(" ", 2)[1] for _ in range(6)]
        process.send_signal(signal.SIGTERM)
        process.communicate()
        self.assertEqual((told, process.returncode), (["0.1", "0.2", "0.4", "0.8", "0.8", "0.8"], 0))

    def test_a_unit_that_was_left_blocks_the_next_order(self):
        bench = Bench(self.folder)
        bench.add([(5, 24, 1), (60, 25, 2)])
        units = ["--unit", "5", "--unit", "60", "--lose-frame", ",".join(map(str, range(30, 560)))]
        process = bench.start(adapter=[ADAPTER, "--folder", "bus1", *units])
        blocked = wait_for(lambda: bench.states()[2] == "blocked" and state_of(bench))
        words = "order 2 waits: unit 5 was left open and is silent; put it back, or any unit at address 5"
        self.assertEqual(blocked, ("ready", None, words))
        wait_for(lambda: bench.states()[2] == "ended")
        self.assertEqual(stop(process), 0)
        self.assertEqual(bench.does("orders"), ["order 1 bus bus1 unit 5 ended: kept 5 DoubtOpen",
                                                "order 2 bus bus1 unit 60 ended: kept 0 Done"])
        self.assertEqual(len(bench.does("labels")), 1)


class JournalsTest(BenchTest):
    """Journals that are retired or given up."""

    def test_a_journal_is_retired_amid_orders(self):
        bench = Bench(self.folder)
        bench.add([(5, year, 1) for year in range(12)])
        process = bench.start()
        names = []
        for _ in range(3):
            number = max(bench.states())
            bench.add([(60, number % 100, 2)] * 4)
            names += bench.does("retire", "--bus", "bus1")
        wait_for(lambda: set(bench.states().values()) == {"ended"})
        self.assertEqual(stop(process), 0)
        bench.add([(5, 32, 3)])
        self.assertEqual(bench.run(), 0)
        names += bench.does("retire", "--bus", "bus1")
        assert "the bus has none now" in bench.give("retire", "--bus", "bus1").told
        self.assertEqual(names, [f"retired bench_{place}.journal" for place in (1, 2, 3, 4)])
        bench.add([(5, 33, 3)])
        self.assertEqual(bench.run(), 0)
        judge(bench)
        self.assertEqual(len(bench.groups("bus1")), 26)

    def test_a_journal_that_is_not_idle_is_not_retired(self):
        bench = Bench(self.folder)
        self.assertEqual(bench.give("retire", "--bus", "bus1")[::2],
                         (1, "error: the journal can't be retired: the bus has none now\n"))
        bench.add([(5, 24, 1)])
        (self.folder / "bus1" / "unplugged").touch()
        process = bench.start(adapter=[PLUGGED, "bus1", "5"])
        wait_for(lambda: bench.groups("bus1"))
        process.kill()
        process.wait()
        wait_for(lambda: bench.give("retire", "--bus", "bus1")[::2] ==
                 (1, "error: the journal can't be retired now: it stands began\n"))
        (self.folder / "bus1" / "unplugged").unlink()
        self.assertEqual(bench.run(), 0)
        self.assertEqual(bench.does("retire", "--bus", "bus1"), ["retired bench_1.journal"])
        (self.folder / "bus1" / "bench_2.journal").write_text("")
        bench.add([(5, 25, 1)])
        self.assertEqual(bench.run(), 0)
        told = bench.give("retire", "--bus", "bus1").told
        assert told.startswith("error: the journal can't be retired: this file is in its way: "), told
        (self.folder / "bus1" / "bench_2.journal").unlink()
        self.assertEqual(bench.does("retire", "--bus", "bus1"), ["retired bench_2.journal"])
        judge(bench)

    def test_a_journal_that_can_not_be_read_is_given_up(self):
        """As where a disk has failed: the power of all units was taken, and the order at work counts as in doubt."""
        bench = Bench(self.folder)
        bench.add([(5, 24, 1), (60, 25, 1)])
        (self.folder / "bus1" / "unplugged").touch()
        process = bench.start(adapter=[PLUGGED, "bus1", "5"])
        wait_for(lambda: bench.states()[1] == "taken")
        ended = bench.give("retire", "--bus", "bus1", "--power-was-taken")
        self.assertEqual((ended.status, ended.told), (1, "error: the bus bus1 has a process: end its `run` first\n"))
        self.assertEqual(stop(process), 0)
        (self.folder / "bus1" / "bench.journal").write_bytes(b"DAMAGED")
        told = bench.give("retire", "--bus", "bus1").told
        assert told.startswith("error: the journal can't be read: "), told
        told = bench.give("retire", "--bus", "bus1", "--power-was-taken").told
        assert told.startswith("error: order 1 for unit 5 was begun, as far as is known, and hasn't ended: "), told
        self.assertEqual(bench.does("retire", "--bus", "bus1", "--power-was-taken", "--cancel-sent"),
                         ["retired bench_1.journal"])
        self.assertEqual(bench.run(), 0)
        self.assertEqual(bench.does("orders"), ["order 1 bus bus1 unit 5 ended: kept 4 Doubt, by hand",
                                                "order 2 bus bus1 unit 60 ended: kept 0 Done"])
        self.assertEqual([group.number for group in groups_of((self.folder / "bus1" / "bench.journal").read_bytes())],
                         [2])
        self.assertEqual(len(bench.does("labels")), 1)
        self.assertEqual(bench.does("retire", "--bus", "bus1"), ["retired bench_2.journal"])
        bench.add([(60, 26, 1)])
        self.assertEqual(bench.run(), 0)

    def test_a_full_journal_is_retired_by_itself(self):
        bench = Bench(self.folder)
        records = (b"B" + number.to_bytes(8, "big") + bytes(8) + ABSENT_RECORD for number in range(MOST_ORDERS))
        (self.folder / "bus1" / "bench.journal").write_bytes(HEADER + b"".join(records))
        bench.does("init", "--first", str(MOST_ORDERS))
        number, = bench.add([(5, 24, 1)])
        self.assertEqual(number, MOST_ORDERS)
        self.assertEqual(bench.run(), 0)
        self.assertEqual((bench.states(), len(bench.does("labels"))), ({number: "ended"}, 1))
        self.assertEqual(bench.rows("select name from bench_journals"), [("bench_1.journal",)])
        assert f"order {number} full" in bench.log() and "retired bench_1.journal" in bench.log(), bench.log()
        self.assertEqual(len(bench.groups("bus1")), MOST_ORDERS + 1)


class DiskTest(BenchTest):
    """A disk that is full."""

    def test_a_full_disk(self):
        """Store and journal stand on a small disk that is filled up and emptied again, amid orders."""
        disk = self.folder / "disk"
        disk.mkdir()
        if subprocess.run(["mount", "-t", "tmpfs", "-o", "size=2m", "none", disk], capture_output=True,
                          check=False).returncode:
            self.skipTest("no file system may be mounted here")
        try:
            (disk / "bus1").mkdir()
            (self.folder / "bus1").symlink_to(disk / "bus1")
            bench = Bench(self.folder, str(disk / "orders.db"))
            process = bench.start()
            wait_for(lambda: state_of(bench)[0] == "ready")
            counts = {0: 0, 2: 0}
            for turn in range(6):
                bench.add([(5, turn, 1), (60, turn, 2), (5, 50 + turn, 3)])
                time.sleep(0.1 * turn)
                with kept_full(disk / "filling"):
                    ended = bench.give("add", "--bus", "bus1", "-", given=b'[{"unit":5,"year":1,"week":1}]')
                    assert ended.status == 0 or ended.told.startswith("error: the store can't be used: "), ended
                    counts[ended.status] += 1
                    time.sleep(0.4)
                wait_for(lambda: set(bench.states().values()) <= {"ended"})
            told = bench.log().count("tried again"), bench.log().count("drive fault 1 Journal")
            print(f"a full disk: adding refused {counts[2]}, the store lost {told[0]}, the journal unwritten {told[1]}",
                  flush=True)
            assert counts[2] > 0 and sum(told) > 0, (counts, told)
            # Each connection that was lost is closed.
            files = [it.resolve().name for it in pathlib.Path(f"/proc/{process.pid}/fd").iterdir()]
            self.assertEqual(files.count("orders.db"), 1)
            self.assertEqual((stop(process), len(bench.states())), (0, 18 + counts[0]))
            judge(bench)
        finally:
            subprocess.run(["umount", "-l", disk], check=False)


@contextlib.contextmanager
def kept_full(path):
    """Keep the disk of a file full by it, whatever becomes free there, and take the file away at the end."""
    is_over = threading.Event()

    def fill():
        with open(path, "wb", buffering=0) as file:
            while not is_over.wait(0.002):
                for size in (4096, 512, 1):
                    with contextlib.suppress(OSError):
                        while file.write(bytes(size)):
                            pass

    filler = threading.Thread(target=fill)
    filler.start()
    try:
        yield
    finally:
        is_over.set()
        filler.join()
        path.unlink()


class PostgresqlTest(BenchTest):
    """A server that is killed and started."""

    def test_a_process_over_postgresql_that_is_killed_and_started(self):
        """Adapter and drive go on with their order while the server is away, and no second process takes the bus."""
        with Server(self.folder) as server:
            bench = Bench(self.folder, server.url)
            bench.add([(5, 24, 1)])
            process = bench.start()
            wait_for(lambda: bench.states()[1] == "ended")
            second = subprocess.run(bench.run_words("bus1"), cwd=self.folder, capture_output=True, text=True,
                                    check=False)
            self.assertEqual((second.returncode, second.stderr),
                             (1, "error: the bus bus1 has another process: only one `run` of a bus may be at work\n"))
            chain = processes_of(process)
            server.kill()
            server.start()
            # The lock went with the connection: the folder's keeps another one away until the first has it again.
            second = subprocess.run(bench.run_words("bus1"), cwd=self.folder, capture_output=True, text=True,
                                    check=False)
            self.assertEqual((second.returncode, second.stderr.startswith("error: ")), (1, True))
            bench.add([(60, 24, 1)])
            wait_for(lambda: bench.states()[2] == "ended")
            self.assertEqual(processes_of(process), chain)
            self.assertEqual(stop(process), 0)
            judge(bench)
