"""A storm of kills in which orders are cancelled and repeated, journals retired and given up, labels taken by a printer
that jams, and drives use either plan.

    line_day_storm.py [KILLS [SEED]]

runs it by itself, with KILLS kills (200 by default) over SQLite and as many over PostgreSQL, with the program of this
checkout. tests/test_line_computer.py has a short one.
"""

import json
import os
import pathlib
import random
import re
import signal
import subprocess
import sys
import tempfile
import time

sys.dont_write_bytecode = True

from base import BenchTest, want  # noqa: E402
from driven import PATIENCE  # noqa: E402
from line_bench import LIVE, LOSSES, Bench, Server, stop, wait_for  # noqa: E402
from line_fixtures import BUSES, SEED, Storm  # noqa: E402

KILLS, SHORT_KILLS = 200, 20
PACE = 22  # milliseconds that a frame takes, so that what is done hits orders
MOST_READ = 65536


class DayStorm(Storm):
    """A storm beside what a person does to the line computer."""

    def __init__(self, bench, chance, kills, server=None):
        super().__init__(bench, chance, kills, server)
        bench.is_lossy, bench.pace = True, PACE
        self.seen, self.cancelled, self.killed_takers = [], set(), 0
        self.template = bench.folder / "label.json"
        self.template.write_text('{"order": {order}}\n')

    def keep_alive(self):
        """Start what has ended, now and then over a bus that loses a row of frames, so that units are left."""
        first = self.chance.randrange(20, 400)
        lost = range(first, first + self.chance.choice((0, 0, 60, 120)))
        self.bench.losses = ",".join([LOSSES, *map(str, lost)])
        super().keep_alive()

    def options(self):
        """Have a drive use either plan."""
        return self.chance.choice(((), ("--checked-plan",)))

    def cancel_or_take(self):
        """Do nothing beside the kills, where a Storm does this with one turn in ten."""

    def kill(self):
        """Do what a person does, and then kill one of the victims."""
        self.chance.choice((self.cancel, self.cancel, self.repeat, self.repeat, self.retire, self.give_up, self.print,
                            self.print))()
        super().kill()

    def ended(self, command, *words, seconds=None):
        """Run a command, which is interrupted or killed after this many seconds; give its status and its output."""
        process = subprocess.Popen(self.bench.words(command, *words), cwd=self.bench.folder, stdout=subprocess.PIPE,
                                   stderr=subprocess.PIPE, text=True)
        last = time.monotonic() + 3 * PATIENCE
        until = last if seconds is None else time.monotonic() + seconds
        while process.poll() is None and time.monotonic() < until:
            time.sleep(0.01)
            self.revive()
        if process.poll() is None and seconds is not None:
            process.send_signal(self.chance.choice((signal.SIGINT, signal.SIGTERM, signal.SIGKILL)))
            self.counts[f"{command} broken off"] += 1
        output, told = process.communicate(timeout=PATIENCE)
        # Python tells an interrupt so that comes before the line computer has begun.
        assert "Traceback" not in told or told.endswith("KeyboardInterrupt\n"), told
        return process.returncode, output, told

    def revive(self):
        """Start what has ended, as its service does within a second."""
        if self.chance.random() < 0.02:
            self.keep_alive()

    def cancel(self):
        """Cancel some orders, whatever they stand at."""
        self.add()
        states = self.bench.states()
        live = [number for number, state in states.items() if state in LIVE]
        at_work = [number for number in live if states[number] != "added"]
        chosen = sorted(set(self.chance.sample(live, min(len(live), 2)) + at_work[:self.chance.randrange(2)]))
        if not chosen:
            return
        seconds = self.chance.choice((None, None, self.chance.uniform(0, 0.5)))
        status, output, told = self.ended("cancel", *map(str, chosen), seconds=seconds)
        done = set(map(int, re.findall("order ([0-9]+) cancelled", output)))
        self.cancelled |= done
        for number in done:
            self.counts[f"cancelled, {states[number]}"] += 1
        is_told = re.search("is at work|has ended|can't be cancelled now", told)
        assert status == 0 or is_told or seconds is not None or self.server, (status, told)

    def repeat(self):
        """Repeat an order that came to no good end, or was cancelled, and once one was, break that off now and then."""
        found = self.bench.rows("select number from bench_orders where state in ('ended', 'cancelled') and"
                                " (code is null or code <> 0)")
        if not found:
            return
        number = str(self.chance.choice(found)[0])
        seconds = self.chance.choice((None, self.chance.uniform(0, 0.3))) if self.counts["repeated"] else None
        status, output, told = self.ended("again", number, seconds=seconds)
        self.counts["repeated"] += f" repeats {number}" in output
        assert status == 0 or "was repeated by order" in told or seconds is not None or self.server, (status, told)

    def retire(self):
        """Retire a journal beside the work of its bus, and withdraw that now and then."""
        seconds = self.chance.choice((1, self.chance.uniform(0, 0.5)))
        status, *_ = self.ended("retire", "--bus", self.chance.choice(BUSES), seconds=seconds)
        self.counts["retired"] += status == 0

    def give_up(self):
        """Take the power from all units of a bus, and give its journal up."""
        bus = self.chance.choice(BUSES)
        end_of(self.processes.pop(bus))
        wait_for(lambda: self.bench.give("status").status == 0)
        ended = self.bench.give("retire", "--bus", bus, "--power-was-taken", "--cancel-sent")
        self.counts["given up"] += ended.status == 0
        assert ended.status == 0 or "the bus has none now" in ended.told or self.server, ended
        self.keep_alive()

    def print(self):
        """Take labels by a printer that takes some and then jams: it goes, or hangs until somebody ends it."""
        reads, writes = os.pipe()
        spelled = self.chance.choice(((), ("--template", self.template)))
        taker = subprocess.Popen(self.bench.words("labels", "--take", *spelled), cwd=self.bench.folder, stdout=writes,
                                 stderr=subprocess.DEVNULL)
        os.close(writes)
        got = b""
        for _ in range(self.chance.randrange(4)):
            piece = os.read(reads, MOST_READ)
            got += piece
            if not piece:
                break
        if self.chance.random() < 0.5:
            time.sleep(self.chance.uniform(0, 0.3))
            if self.chance.random() < 0.5:
                taker.kill()
                self.killed_takers += 1
        os.close(reads)
        taker.wait(PATIENCE)
        self.counts["jams"] += 1
        self.seen += numbers_of(got)

    def end(self):
        """Have all orders end in quiet, and judge, also that each label was printed, and twice only after a kill."""
        self.bench.losses = LOSSES
        for process in self.processes.values():
            end_of(process)
        # The last drive closes what was left.
        self.keep_alive = lambda: Storm.keep_alive(self)
        super().end()
        states = self.bench.states()
        want({number: states[number] for number in self.cancelled}, dict.fromkeys(self.cancelled, "cancelled"))
        labels = [number for number, in self.bench.rows("select number from bench_labels order by number")]
        plans = self.bench.rows("select distinct plan from bench_orders where code is not null order by plan")
        want(plans, [("checked",), ("short",)])
        want(self.bench.rows("select count(*) from bench_orders anew join bench_orders tried on tried.number ="
                             " anew.repeats where anew.bus <> tried.bus or anew.unit <> tried.unit or anew.fields <>"
                             " tried.fields or tried.code = 0"), [(0,)])
        self.seen += [json.loads(line)["order"] for line in self.labels]
        want(sorted(set(self.seen)), labels)
        assert len(self.seen) - len(labels) <= self.killed_takers + (self.counts["server"] + self.counts["backend"]), (
            len(self.seen), len(labels), self.killed_takers)
        want(self.bench.rows("select count(*) from bench_labels where taken is null or printed = 0"), [(0,)])


def end_of(process):
    """End a bus's process, which may just have been started, or have ended."""
    if process.poll() is None:
        assert stop(process) in (0, -signal.SIGTERM), process.returncode


def numbers_of(data):
    """Give the numbers of the orders of the whole lines that were read."""
    return [json.loads(line)["order"] for line in data.splitlines(keepends=True) if line.endswith(b"\n")]


def storm(bench, kills, seed, server=None):
    """Let a storm go over a bench."""
    found = DayStorm(bench, random.Random(seed), kills, server)
    found.go_on()
    found.end()
    return found.counts


class DayStormTest(BenchTest):
    """A short storm over an ordinary day."""

    def test_a_storm_over_a_day(self):
        counts = storm(Bench(self.folder, buses=BUSES), SHORT_KILLS, SEED)
        assert counts["jams"] > 2 and counts["given up"] > 0 and counts["cancelled, added"] > 0, counts
        assert counts["repeated"] > 0, counts


def main(arguments):
    """Let long storms go over both stores."""
    kills, seed = int(arguments[0]) if arguments else KILLS, int(arguments[1]) if arguments[1:] else SEED
    for is_server in (False, True):
        with tempfile.TemporaryDirectory(dir="/dev/shm") as room:
            folder = pathlib.Path(room)
            began = time.monotonic()
            if is_server:
                with Server(folder) as server:
                    storm(Bench(folder, server.url, BUSES), kills, seed, server)
            else:
                storm(Bench(folder, buses=BUSES), kills, seed)
            print(f"{'PostgreSQL' if is_server else 'SQLite'}: {kills} kills in {time.monotonic() - began:.0f} s",
                  flush=True)


if __name__ == "__main__":
    main(sys.argv[1:])
