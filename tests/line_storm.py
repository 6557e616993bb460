"""Tests of the line computer: whatever is killed, and whenever, each order ends once, and its label is there."""

import itertools
import json
import os
import random
import signal
import subprocess
import time

from base import BenchTest, in_cases, want
from driven import ROOT
from line_bench import ABSENT, Bench, Server, judge
from line_fixtures import BUSES, SEED, VICTIMS, Storm

KILLS, SERVER_KILLS = 200, 60
SHARES = 3  # of the calls of SQLite, each a case


class StormTest(BenchTest):
    """Storms of kills."""

    def test_a_storm_over_sqlite(self):
        storm = Storm(Bench(self.folder, buses=BUSES), random.Random(SEED), KILLS)
        storm.go_on()
        storm.end()
        for name in (*VICTIMS, "ended by a later drive"):
            assert storm.counts[name] > 10, storm.counts

    def test_a_storm_over_postgresql(self):
        with Server(self.folder) as server:
            storm = Storm(Bench(self.folder, server.url, BUSES), random.Random(SEED), SERVER_KILLS, server)
            storm.go_on()
            storm.end()
        assert storm.counts["server"] > 2 and storm.counts["backend"] > 2, storm.counts


def crash_points(bench, kind, first, step):
    """Crash a bus's process at each call of a kind in turn, before and after it, each time over a new order."""
    number, crashes = first, 0
    while True:
        for when in ("before", "behind"):
            bench.add([(5, number % 100, 1 + number % 53), (60, number % 100, 7)])
            status = bench.run(crash=(kind, str(number), when))
            if status == 0:
                want(bench.run(), 0)
                judge(bench)
                return crashes
            want((kind, number, when, status), (kind, number, when, -signal.SIGKILL))
            crashes += 1
            want(bench.run(), 0)
            judge(bench)
        number += step


class CrashTest(BenchTest):
    """A crash at each call."""

    @in_cases(6)
    def test_a_crash_at_each_call_of_a_bus(self, case):
        """Of each kind of call, every other one from the first on, and from the second on."""
        kind, first = ("commit", "write", "read")[case % 3], 1 + case // 3
        crashes = crash_points(Bench(self.folder), kind, first, 2)
        print(f"crashes at a {kind}, from {first} on: {crashes}", flush=True)
        assert crashes >= {"commit": 4, "write": 1, "read": 4}[kind], (kind, crashes)

    def test_a_reply_that_a_crash_has_lost(self):
        """The order is done, and its end isn't in the store: answered from the journal, it has its label."""
        bench = Bench(self.folder)
        for turn, when in enumerate(("before", "behind")):
            number, = bench.add([(5, 24 + turn, 1)])
            self.assertEqual(bench.run(crash=("label", "1", when)), -signal.SIGKILL)
            assert bench.states()[number] in ("sent", "taken"), bench.states()
            self.assertEqual([group.code for group in bench.groups("bus1")], [0] * (turn + 1))
            self.assertEqual(len(bench.does("labels")), turn)
            time.sleep(1.1)  # its moment is a past one
            self.assertEqual(bench.run(), 0)
            report, sends = bench.rows(f"select report, sends from bench_orders where number = {number}")[0]
            self.assertEqual((json.loads(report)["ended"], sends, len(bench.does("labels"))), ("before", 2, turn + 1))
            judge(bench)

    @in_cases(SHARES)
    def test_a_crash_amid_the_calls_of_sqlite(self, case):
        """Before each call, of every third, with which SQLite changes its files: also amid what it commits."""
        shim, bench, crashes = self.folder / "shim.so", Bench(self.folder), 0
        subprocess.run(["cc", "-shared", "-fPIC", "-o", shim, ROOT / "tests" / "line_shim.c", "-ldl"], check=True)
        for number in itertools.count(1 + case, 3 * SHARES):
            bench.add([(5, number % 100, 1)])
            words = bench.run_words("bus1", "--until-empty")
            ended = subprocess.run(words, cwd=self.folder,
                                   env={**os.environ, "LD_PRELOAD": str(shim), "LINE_SHIM": str(number)},
                                   capture_output=True, check=False)
            crashes += ended.returncode == -signal.SIGKILL
            self.assertEqual(bench.run(), 0)
            judge(bench)
            if ended.returncode == 0:
                break
            self.assertEqual((number, ended.returncode), (number, -signal.SIGKILL))
        print(f"crashes amid the calls of SQLite, of which the last is number {number}: {crashes}", flush=True)
        assert crashes > 3, crashes

    def test_a_crash_at_each_call_of_a_bus_over_postgresql(self):
        with Server(self.folder) as server:
            crashes = crash_points(Bench(self.folder, server.url), "commit", 1, 1)
            assert crashes >= 8, crashes

    def test_a_crash_at_each_call_of_adding(self):
        bench = Bench(self.folder)
        for kind, number in (("commit", 1), ("write", 1)):
            for when in ("before", "behind"):
                before = len(bench.states())
                bench.add([(5, 24, 1), (60, 25, 2), (ABSENT, 26, 3)], crash=(kind, str(number), when))
                added = 0 if (kind, when) == ("commit", "before") else 3
                self.assertEqual((kind, when, len(bench.states()) - before), (kind, when, added))
        self.assertEqual(bench.run(), 0)
        stored = judge(bench)
        self.assertEqual((len(stored), sorted(set(stored))), (9, sorted(stored)))
        self.assertEqual(len(bench.wanted), 3)  # those that came out before the crash after the write

    def test_a_crash_at_each_call_of_taking_labels(self):
        bench = Bench(self.folder)
        bench.add([(5, 24, 1), (60, 25, 2)])
        self.assertEqual(bench.run(), 0)
        taken = []
        for kind, when in (("write", "before"), ("write", "behind"), ("commit", "before")):
            ended = bench.give("labels", "--take", crash=(kind, "1", when))
            self.assertEqual(ended.status, -signal.SIGKILL)
            taken += ended.lines()
            self.assertEqual(len(bench.does("labels")), 2)
        # The first one was written twice, and wasn't durable as taken: it comes again, with the same number.
        self.assertEqual([json.loads(line)["order"] for line in taken], [1, 1])
        ended = bench.give("labels", "--take", crash=("commit", "1", "behind"))
        self.assertEqual((ended.status, len(ended.lines())), (-signal.SIGKILL, 1))
        self.assertEqual([json.loads(line)["order"] for line in bench.does("labels", "--take")], [2])
        self.assertEqual(bench.does("labels"), [])

    @in_cases(3)
    def test_a_crash_at_each_call_of_retiring(self, case):
        kind = ("commit", "rename", "sync")[case]
        bench, number, crashes = Bench(self.folder), 1, 0
        while True:
            bench.add([(5, number, 1)])
            self.assertEqual(bench.run(), 0)
            for when in ("before", "behind"):
                bench.add([(60, number, 2)])
                ended = bench.give("retire", "--bus", "bus1", crash=(kind, str(number), when))
                if ended.status == 0:
                    self.assertEqual(bench.run(), 0)
                    judge(bench)
                    assert crashes >= 2, (kind, crashes)
                    return
                self.assertEqual((kind, number, when, ended.status), (kind, number, when, -signal.SIGKILL))
                crashes += 1
                self.assertEqual(bench.run(), 0)
                judge(bench)
            number += 1

    def test_two_who_take_labels_at_once(self):
        bench = Bench(self.folder)
        bench.add([(5, year, 1) for year in range(20)])
        self.assertEqual(bench.run(), 0)
        takers = [subprocess.Popen(bench.words("labels", "--take"), cwd=self.folder, stdout=subprocess.PIPE)
                  for _ in range(4)]
        lines = [line for taker in takers for line in taker.communicate()[0].splitlines()]
        self.assertEqual((len(lines), len(set(lines))), (20, 20))
