"""A bench with a line computer, for tests/test_line_computer.py: its store, its buses over simulated units, its judge.

The judge reads the store's tables, the journals' bytes and the units' files alone.
"""

import csv
import importlib.util
import io
import json
import os
import pathlib
import re
import shutil
import signal
import sqlite3
import subprocess
import sys
import unittest
import weakref
from typing import NamedTuple

from base import settings, want
from driven import DONE, DOUBT_OPEN, NAMES, PATIENCE, ROOT, groups_of, possible_bytes, simulated_link, wait_for

PROGRAM = ROOT / "line_computer"
ADAPTER = ROOT / "adapters" / "simulated_link.py"
CRASHING = ROOT / "tests" / "line_crash.py"
YEAR, WEEK = 0x13, 0x14
# The units of a bus: two as they should be, one whose year is fixed, one whose bank 1 ends before it; 9 isn't there.
GOOD, FIXED, SHORT, ABSENT = (5, 60), 6, 7, 9
CODE_OF = {5: 0, 60: 0, FIXED: 4, SHORT: 1, ABSENT: 3}
SILENT, DOUBT = 3, 4
# How an order may end whose frames are lost, and the reply of one that was given up with its journal.
LOST = (SILENT, DOUBT, DOUBT_OPEN)
BY_HAND = "kept 4 Doubt, by hand"
SHORT_BANK = bytes([0x12] + 16 * [0xFF] + [0x00, 0x03])
LOSSES = "3,40,41,90,150,151,152,300,420,421,555,700,901,1100,1300,1301"
# The statements that take back the third version of a store.
TO_VERSION_2 = (
    *(f"drop table bench_{name}" for name in ("scans", "stations")),
    *(f"drop index bench_orders_{name}" for name in ("repeats", "repeated_reference")),
    *(f"alter table bench_orders drop column {name}" for name in ("plan", "repeats", "repeated_reference")),
    *(f"drop index bench_orders_{name}" for name in ("identification", "reference", "quarter", "not_done")),
    "alter table bench_orders drop column identification", "alter table bench_states drop column spoke",
    "create index bench_orders_hour on bench_orders ((ended / 3600), state, code)",
    "update bench_store set version = 2")
LIVE = ("added", "sent", "taken", "blocked", "full")
COLUMNS = "number, bus, unit, fields, state, code, sent, told, report"


def put_as_archive(folder):
    """Put into a folder what an archive has of the line computer, which finds the rest by where its own files are."""
    (folder / "dali_bench").symlink_to(settings["program"])
    (folder / "adapters").symlink_to(ROOT / "adapters")
    shutil.copytree(ROOT / "tools", folder / "tools")
    shutil.copy(PROGRAM, folder)


class Ended(NamedTuple):
    """How a command ended."""

    status: int
    output: str
    told: str

    def lines(self):
        """Give the lines of its output."""
        return self.output.splitlines()


def python():
    """Give an interpreter that has psycopg2, or this one where none has."""
    if importlib.util.find_spec("psycopg2") is None and shutil.which("/usr/bin/python3"):
        words = ["/usr/bin/python3", "-c", "import psycopg2"]
        if subprocess.run(words, capture_output=True, check=False).returncode == 0:
            return "/usr/bin/python3"
    return sys.executable


def orders_file(orders):
    """Give the text of a file of orders, each a unit, a year and a week."""
    return json.dumps([{"unit": unit, "year": year, "week": week} for unit, year, week in orders]).encode()


class Bench:
    """A store, the folders of its buses, and commands on them."""

    def __init__(self, folder, store=None, buses=("bus1",)):
        self.folder, self.store, self.python = folder, store or str(folder / "orders.db"), python()
        self.pace = 0  # milliseconds that a frame takes
        self.losses, self.is_lossy = LOSSES, False  # which frames are lost; whether orders may fail by that
        self.wanted = {}  # by the number that was answered: bus, unit, year, week
        self.processes = []
        weakref.finalize(self, end_all, self.processes)
        for bus in buses:
            (folder / bus).mkdir(exist_ok=True)
            self.spoil_units(bus)
        self.does("init", *(word for bus in buses for word in ("--bus", bus)))

    def spoil_units(self, bus):
        """Put the short unit on a bus."""
        (self.folder / bus / f"unit_{SHORT}.hex").write_text(SHORT_BANK.hex())

    def words(self, command, *words, crash=()):
        """Give the words of a command; with `crash` it is killed there, as tests/line_crash.py says."""
        starter = [CRASHING, *crash] if crash else [PROGRAM]
        is_asking = command in ("add", "again", "cancel", "run", "retire", "station")
        program = ["--program", settings["program"]] if is_asking else []
        return [self.python, *starter, command, "--store", self.store, *program, *words]

    def give(self, command, *words, given=b"", crash=(), **options):
        """Run a command to its end."""
        ended = subprocess.run(self.words(command, *words, crash=crash), cwd=self.folder, input=given, check=False,
                               stdout=subprocess.PIPE, stderr=subprocess.PIPE, timeout=6 * PATIENCE, **options)
        return Ended(ended.returncode, ended.stdout.decode(), ended.stderr.decode())

    def does(self, command, *words, **options):
        """Run a command that has to end with status 0; give the lines of its output."""
        ended = self.give(command, *words, **options)
        want((command, ended.status, ended.told), (command, 0, ""))
        return ended.lines()

    def add(self, orders, bus="bus1", crash=()):
        """Add orders; give their numbers, where that was answered."""
        ended = self.give("add", "--bus", bus, "-", given=orders_file(orders), crash=crash)
        numbers = [int(line.split()[3]) for line in ended.lines() if line.startswith("item ")]
        self.wanted.update(zip(numbers, [(bus, *order) for order in orders]))
        if not crash:
            want((ended.status, ended.told, len(numbers)), (0, "", len(orders)))
        return numbers

    def run_words(self, bus, *options, adapter=None, crash=()):
        """Give the words of a bus's process, over simulated units that lose frames."""
        units = [word for unit in (*GOOD, FIXED, SHORT) for word in ("--unit", str(unit))]
        fates = ["--fixed", f"{FIXED}:{YEAR:02X}", "--lose-frame", self.losses, "--frame-time", str(self.pace)]
        adapter = adapter or [ADAPTER, "--folder", bus, *units, *fates]
        return self.words("run", "--bus", bus, "--longest-wait", "0.2", *options, "--", *adapter, crash=crash)

    def start(self, bus="bus1", *options, adapter=None, crash=()):
        """Start the process of a bus."""
        log = open(self.folder / f"{bus}.log", "ab")
        with log:
            self.processes.append(subprocess.Popen(
                self.run_words(bus, *options, adapter=adapter, crash=crash), cwd=self.folder, stdin=subprocess.DEVNULL,
                stdout=subprocess.DEVNULL, stderr=log))
        return self.processes[-1]

    def run(self, bus="bus1", adapter=None, crash=()):
        """Run the process of a bus until no order is left, or until it crashes; give its status."""
        process = self.start(bus, "--until-empty", adapter=adapter, crash=crash)
        try:
            return process.wait(6 * PATIENCE)
        finally:
            process.kill()

    def log(self, bus="bus1"):
        """Give what the process of a bus told."""
        path = self.folder / f"{bus}.log"
        return path.read_text() if path.exists() else ""

    def rows(self, statement):
        """Give the rows of the store that a statement asks for."""
        if "://" not in self.store:
            connection = sqlite3.connect(self.store, timeout=PATIENCE)
            try:
                return connection.execute(statement).fetchall()
            finally:
                connection.close()
        words = ["psql", "-X", "-q", "--csv", "-t", "-c", statement, self.store]
        # A server that was killed comes up again: status 2 says that there is no connection.
        asked = wait_for(lambda: (it := subprocess.run(words, capture_output=True, text=True)).returncode != 2 and it)
        asked.check_returncode()
        text = asked.stdout
        return [tuple(int(it) if re.fullmatch("-?[0-9]+", it) else it or None for it in row)
                for row in csv.reader(io.StringIO(text))]

    def states(self):
        """Give the state of each order."""
        return dict(self.rows("select number, state from bench_orders"))

    def bank(self, bus, unit):
        """Give bank 1 of a unit."""
        path = self.folder / bus / f"unit_{unit}.hex"
        return bytes.fromhex(path.read_text()) if path.exists() else simulated_link.BLANK_BANK_1

    def groups(self, bus):
        """Give the orders of a bus's journals, the oldest first."""
        paths = [self.folder / bus / name for name, in self.rows(
            f"select name from bench_journals where bus = '{bus}' order by place")]
        paths.append(self.folder / bus / "bench.journal")
        return [group for path in paths if path.exists() for group in groups_of(path.read_bytes())]


def end_all(processes):
    """End processes that a test has left."""
    for process in processes:
        process.kill()
        process.wait()


def processes_of(process):
    """Give the processes of a bus: its own, its adapter, its drive."""
    found = {}
    for path in pathlib.Path("/proc").glob("[0-9]*/stat"):
        try:
            state, parent = path.read_text().rpartition(")")[2].split()[:2]
        except OSError:
            continue
        if state not in "ZX":
            found[int(path.parent.name)] = int(parent)
    chain = [process.pid]
    while children := [it for it, parent in found.items() if parent == chain[-1]]:
        chain.append(children[0])
    return chain


def stop(process):
    """Have a bus's process end, and give its status."""
    process.send_signal(signal.SIGTERM)
    try:
        return process.wait(PATIENCE)
    finally:
        process.kill()


def judge(bench, buses=("bus1",)):
    """Raise unless each order that was answered as added has its one right end, and each done one its label."""
    stored = {row[0]: row for row in bench.rows(f"select {COLUMNS} from bench_orders")}
    want(sorted(set(bench.wanted) - set(stored)), [])
    labels = [number for number, in bench.rows("select number from bench_labels order by number")]
    done = []
    for bus in buses:
        begun = {group.number: group for group in bench.groups(bus)}
        want(len(begun), len(bench.groups(bus)))
        its_own = {number: row for number, row in stored.items() if row[1] == bus}
        want(sorted(set(begun) - set(its_own)), [])
        for number, (_, _, unit, fields, state, code, sent, told, report) in its_own.items():
            assert state not in LIVE, (number, state)
            group = begun.get(number)
            if told == BY_HAND:
                want((number, state, code), (number, "ended", DOUBT))
                continue
            want((number, group and group.code), (number, code if state == "ended" else None))
            if group:
                judge_order(bench, group, unit, json.loads(fields), sent, (told, report))
                done += [number] if group.code == DONE else []
        judge_units(bench, bus, list(begun.values()))
    want(labels, sorted(done))
    for number, (bus, unit, year, week) in bench.wanted.items():
        want((number, stored[number][1:4]),
             (number, (bus, unit, json.dumps({"week": week, "year": year}, separators=(",", ":")))))
    return stored


def judge_order(bench, group, unit, fields, sent, told):
    """Raise unless the journal has the order that was wanted, with an end that its unit calls for."""
    number, code = group.number, group.code
    want((number, group.unit, group.updates, group.moment),
         (number, unit, [(YEAR, fields["year"]), (WEEK, fields["week"])], sent))
    assert code == CODE_OF[unit] or bench.is_lossy and code in LOST, (number, unit, code)
    want((number, told[0], json.loads(told[1])["order"]), (number, f"kept {code} {NAMES[code]}", number))


def judge_units(bench, bus, groups):
    """Raise unless each unit holds what the journal's orders leave there."""
    for unit in (*GOOD, FIXED, SHORT):
        first = SHORT_BANK if unit == SHORT else simulated_link.BLANK_BANK_1
        possible = possible_bytes(first, [group for group in groups if group.unit == unit])
        found = bench.bank(bus, unit)
        for location, byte in enumerate(found):
            assert byte in possible[location] or location == 2, f"{bus}: unit {unit} has {byte:02X} at {location:02X}"


# PostgreSQL


class Server:
    """A server of PostgreSQL of its own, in a folder; it listens at a socket there and nowhere else."""

    def __init__(self, folder):
        """Make its files. Where PostgreSQL isn't installed the test is skipped."""
        found = sorted(pathlib.Path("/usr/lib/postgresql").glob("*/bin/postgres"))
        if not found or not shutil.which("psql"):
            raise unittest.SkipTest("PostgreSQL isn't installed (Debian: postgresql)")
        if subprocess.run([python(), "-c", "import psycopg2"], capture_output=True, check=False).returncode:
            raise unittest.SkipTest("psycopg2 isn't installed (Debian: python3-psycopg2)")
        self.programs, self.folder, self.user = found[-1].parent, folder / "postgres", {}
        self.folder.mkdir()
        if os.geteuid() == 0:
            self.user = {"user": "postgres", "group": "postgres", "extra_groups": []}
            shutil.chown(self.folder, "postgres")
            folder.chmod(0o711)
            if not all(path.stat().st_mode & 0o001 for path in folder.parents):
                raise unittest.SkipTest(f"the user postgres can't come to {folder}")
        self.call("initdb", "-D", self.folder / "data", "-A", "trust", "-U", "bench", "-E", "UTF8")
        self.url = f"postgresql://bench@/postgres?host={self.folder}"
        self.process = None

    def call(self, name, *words):
        """Run one of the server's programs."""
        subprocess.run([self.programs / name, *words], check=True, capture_output=True, cwd="/", **self.user)

    def start(self):
        """Start it, and wait until it answers."""
        (self.folder / "data" / "postmaster.pid").unlink(missing_ok=True)
        words = [self.programs / "postgres", "-D", self.folder / "data", "-k", self.folder, "-c", "listen_addresses=",
                 "-c", "max_connections=200", "-c", "dynamic_shared_memory_type=mmap"]
        self.process = subprocess.Popen(words, cwd="/", start_new_session=True, stdin=subprocess.DEVNULL,
                                        stdout=subprocess.DEVNULL, stderr=subprocess.DEVNULL, **self.user)
        ask = ["psql", "-X", "-c", "select 1", self.url]
        wait_for(lambda: subprocess.run(ask, capture_output=True, check=False).returncode == 0, 180)

    def kill(self, is_whole=True):
        """Kill it and all of its processes, or one that serves the line computer."""
        if is_whole:
            for pid in self.backends(""):
                with_no_fault(os.kill, pid, signal.SIGKILL)
            with_no_fault(os.killpg, self.process.pid, signal.SIGKILL)
            self.process.wait()
        else:
            for pid in self.backends("bench postgres")[:1]:
                with_no_fault(os.kill, pid, signal.SIGKILL)

    def backends(self, words):
        """Give the processes of the server whose title has these words."""
        found = []
        for path in pathlib.Path("/proc").glob("[0-9]*/cmdline"):
            try:
                title = path.read_text()
                parent = int((path.parent / "stat").read_text().rpartition(")")[2].split()[1])
            except OSError:
                continue
            if parent == self.process.pid and words in title:
                found.append(int(path.parent.name))
        return found

    def __enter__(self):
        self.start()
        return self

    def __exit__(self, *_):
        """End it in peace, which leaves nothing in the system's memory."""
        self.process.send_signal(signal.SIGINT)
        try:
            self.process.wait(PATIENCE)
        except subprocess.TimeoutExpired:
            self.kill()


def with_no_fault(call, *arguments):
    """Make a call on a process that may have gone."""
    try:
        call(*arguments)
    except ProcessLookupError:
        pass
