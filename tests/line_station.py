#!/usr/bin/env python3
"""A storm of kills over a station: each luminaire that left with a label has exactly its own numbers.

    line_station.py [KILLS [SEED]]

runs it by itself, with KILLS kills (300 by default) over SQLite and a tenth of them over PostgreSQL, with the program
of this checkout. tests/test_line_computer.py has a short one. A person puts luminaires in, scans and takes them out as
the station says, and errs now and then; the judge reads the luminaires' banks, the journals, and the labels that came
out of a command.
"""

import collections
import json
import os
import pathlib
import random
import re
import signal
import sys
import tempfile
import time

sys.dont_write_bytecode = True

from base import BenchTest, want  # noqa: E402
from driven import DONE, PATIENCE  # noqa: E402
from line_bench import Server, processes_of, wait_for, with_no_fault  # noqa: E402
from station_bench import BLANK, StationBench, bank_with, serial_of, state_of  # noqa: E402

SEED, KILLS, SHORT_KILLS = 20261130, 300, 20
PACE, LOSS = 1.5, 0.004  # milliseconds that a frame takes, so that kills hit it, and the chance that it is lost
IDENTIFICATION = slice(0x09, 0x11)
# The victims of a kill: all processes of the station, as by a power cut, its own, its adapter, the command over that.
VICTIMS = ("all", "own", "adapter", "command")
OUT = "sh -c 'cat >>labels; sync labels'"
ERRORS = ("next one at once", "again the last one", "twice", "amid work")


class Luminaire:
    """A luminaire: the serial number that is printed on it, and the bank that it left with."""

    def __init__(self, number):
        self.serial, self.bank, self.is_labelled = serial_of(number), BLANK, False


class Person:
    """Somebody at a station, who does what it says."""

    def __init__(self, bench, chance, kills, server=None):
        self.bench, self.chance, self.left, self.server = bench, chance, kills, server
        bench.pace, bench.loss = PACE, LOSS
        self.counts, self.luminaires, self.station = collections.Counter(), [], None
        self.here = None  # the luminaire at the seat
        self.tries = 0  # scans of it
        self.span, self.scanned_at = 1.0, None  # seconds from a scan to its label, and when the last scan was

    # The seat

    def put_in(self, luminaire):
        """Exchange what stands at the seat; None leaves it empty."""
        if self.here is not None:
            self.here.bank = self.bench.seated()
        self.here = luminaire
        self.bench.seat(None if luminaire is None else luminaire.bank)

    def next_one(self):
        """Put a new luminaire in."""
        self.luminaires.append(Luminaire(len(self.luminaires)))
        self.put_in(self.luminaires[-1])
        self.tries = 0

    def with_label(self):
        """Take the luminaire out, with its label."""
        self.here.is_labelled = True
        self.counts["left with a label"] += 1
        want((self.here.serial, self.bench.seated().hex()), (self.here.serial, bank_with(self.here.serial).hex()))

    # The station

    def start(self):
        """Start the station, as one does who finds it dark; what was at work at a kill has ended."""
        wait_for(self.is_dark)
        self.bench.seed = self.chance.randrange(1 << 30)
        self.station = self.bench.station("bus1", "--label-command", OUT)
        self.counts["starts"] += 1

    def is_dark(self):
        """Tell whether nothing is at work. A drive that hadn't opened its orders yet is let go, as the next start does."""
        orders = self.bench.folder / "bus1" / "line_computer.orders"
        if orders.is_fifo():
            os.close(os.open(orders, os.O_RDWR | os.O_NONBLOCK))
        return not processes_in(self.bench.folder / "bus1", self.bench.folder)

    def asked(self):
        """Give what the station says once it asks for something; None if it was killed before."""
        said = self.station.asked()
        if said is None:
            self.station.process.wait()
            self.station.process.stdin.close()
            self.station.thread.join(PATIENCE)
            self.station.process.stdout.close()
            self.station = None
        return said

    def go_on(self):
        """Go on until all kills are over, and the luminaire that is at the seat then has its end."""
        self.next_one()
        while self.left > 0 or self.station is None or not (self.here and self.here.is_labelled):
            if self.station is None:
                self.start()
            said = self.asked()
            if said is not None:
                self.do(said)
        status = self.station.end()
        if status == -signal.SIGKILL:  # after the last label
            self.start()
            self.asked()
            status = self.station.end()
        want(status, 0)

    def do(self, said):
        """Do what the station says."""
        hand = re.search("put it back: ([0-9A-F]+)[.]", said)
        if "See to the printer" in said:
            return
        if self.here is None and not hand:
            self.next_one()
        if "If it is gone for good" in said:
            self.see_to(hand[1] if hand else self.here.serial)
        elif said.startswith("PASS") or f"{self.here.serial} has its label already" in said:
            self.counts["labels that a kill had hidden"] += not said.startswith("PASS")
            if said.startswith("PASS") and self.scanned_at:
                self.span = time.monotonic() - self.scanned_at
            if not self.here.is_labelled:
                self.with_label()
            if self.left > 0 and self.chance.random() < 0.25:
                self.forget()
            elif self.left > 0:
                self.next_one()
                self.scan(self.here.serial)
        elif "The luminaire that stands there has its label" in said:
            self.counts["labelled ones that weren't written again"] += 1
            self.next_one()
            self.scan(self.here.serial)
        elif self.tries > 4:
            self.counts["scrapped"] += 1
            self.next_one()
            self.scan(self.here.serial)
        else:
            self.counts["tried again"] += said.startswith("FAIL")
            self.scan(self.here.serial)

    def forget(self):
        """Forget to exchange the luminaire, and scan the next one's number."""
        self.counts["forgotten"] += 1
        if self.chance.random() < 0.5:
            self.station.scan(serial_of(len(self.luminaires)))
        else:
            self.scan(serial_of(len(self.luminaires)))

    def see_to(self, serial):
        """See to the luminaire of an order that was broken off: scan it, or another one, or give it up."""
        known = next(it for it in self.luminaires if it.serial == serial)
        self.counts["broken off"] += 1
        what = self.chance.random()
        if what < 0.15:
            # Somebody has exchanged it: the other one must not be written.
            self.counts["exchanged amid an order"] += 1
            self.next_one()
            self.scan(self.here.serial)
        elif what < 0.25:
            self.counts["given up"] += 1
            self.put_in(None)
            self.scan("gone")
        else:
            if self.here is not known:
                self.put_in(known)
                self.tries = 0
            self.scan(serial)

    def scan(self, line):
        """Scan, err now and then, and be killed now and then."""
        self.tries += 1
        lines, what = [line], self.chance.choice((*ERRORS, *12 * [None]))
        if what == "twice":
            lines = [line, line]
        elif what == "next one at once":
            lines = [line, serial_of(len(self.luminaires))]
        elif what == "again the last one" and self.luminaires[-2:][0].is_labelled:
            lines = [self.luminaires[-2:][0].serial]
        self.counts[f"scanned {what}" if what else "scanned"] += 1
        is_killed = self.left > 0 and self.chance.random() < 0.75
        if is_killed and self.chance.random() < 0.1:
            self.kill()
            self.station.scan(*lines)  # amid the kill
            return
        self.station.scan(*lines)
        if what == "amid work":
            time.sleep(self.chance.uniform(0, 0.3))
            self.station.scan(line)
        self.scanned_at = None if is_killed else time.monotonic()
        if is_killed:
            time.sleep(self.chance.uniform(0, 1.1 * self.span))
            self.kill()

    def kill(self):
        """Kill one of the victims."""
        victim = self.chance.choice((*VICTIMS, "backend", "server") if self.server else VICTIMS)
        if victim in ("server", "backend"):
            self.server.kill(is_whole=victim == "server")
            if victim == "server":
                time.sleep(self.chance.uniform(0, 0.2))
                self.server.start()
        else:
            chain = processes_of(self.station.process)
            chosen = {"all": chain, "own": chain[:1], "adapter": chain[1:2], "command": chain[2:3]}[victim]
            for pid in chosen:
                with_no_fault(os.kill, pid, signal.SIGKILL)
            if not chosen:
                return
        self.counts[f"killed {victim}"] += 1
        self.left -= 1

    # The judge

    def judge(self):
        """Raise unless each luminaire, label and journal is as it has to be."""
        self.here.bank = self.bench.seated()
        for it in self.luminaires:
            own = bytes.fromhex(it.serial)
            for at, byte in enumerate(it.bank[IDENTIFICATION]):
                assert byte in (0xFF, own[at]), f"{it.serial} has {byte:02X} of another one: {it.bank.hex()}"
            if it.is_labelled:
                want((it.serial, it.bank.hex()), (it.serial, bank_with(it.serial).hex()))
        rows = self.bench.rows("select bench_orders.number, code, found, name, latest from bench_scans join"
                               " bench_orders on bench_orders.number = bench_scans.number order by bench_orders.number")
        labels = [number for number, in self.bench.rows("select number from bench_labels order by number")]
        want(labels, [number for number, _, found, _, _ in rows if found == "same"])
        named = {number: name for number, _, _, name, _ in rows}
        with_label = [it.serial for it in self.luminaires if it.is_labelled]
        want(sorted(named[number] for number in labels), sorted(with_label))
        printed = [json.loads(line) for line in (self.bench.folder / "labels").read_text().splitlines()]
        want(sorted({it["order"] for it in printed}), labels)
        want([it for it in printed if it["identification"] != named[it["order"]]], [])
        ends = {group.number: group.code for group in self.bench.groups("bus1")}
        want(len(ends), len(self.bench.groups("bus1")))
        want([number for number in labels if ends[number] != DONE], [])
        want({number: code for number, code, *_ in rows if code is not None}, ends)
        want(self.bench.rows("select count(*) from bench_labels where taken is null"), [(0,)])
        self.counts["luminaires"], self.counts["orders"] = len(self.luminaires), len(rows)
        self.counts["labels twice"] = len(printed) - len(labels)
        print(", ".join(f"{name} {count}" for name, count in sorted(self.counts.items())), flush=True)


def processes_in(*folders):
    """Give the processes, other than zombies and servers, that work in folders."""
    found = []
    for name in filter(str.isdigit, os.listdir("/proc")):
        try:
            is_here = os.readlink(f"/proc/{name}/cwd") in map(str, folders)
        except OSError:
            continue
        if is_here and state_of(int(name)) not in "ZX":
            found.append(int(name))
    return found


def storm(bench, kills, seed, server=None):
    """Let a storm go over a bench."""
    person = Person(bench, random.Random(seed), kills, server)
    person.go_on()
    person.judge()
    return person.counts


class StationStormTest(BenchTest):
    """A short storm over a station."""

    def test_a_storm_over_a_station(self):
        counts = storm(StationBench(self.folder), SHORT_KILLS, SEED)
        assert counts["left with a label"] > 3 and counts["broken off"] > 1, counts


def main(arguments):
    """Let long storms go over both stores."""
    kills, seed = int(arguments[0]) if arguments else KILLS, int(arguments[1]) if arguments[1:] else SEED
    for is_server, count in ((False, kills), (True, kills // 10)):
        with tempfile.TemporaryDirectory(dir="/dev/shm") as room:
            folder, began = pathlib.Path(room), time.monotonic()
            if is_server:
                with Server(folder) as server:
                    storm(StationBench(folder, server.url), count, seed, server)
            else:
                storm(StationBench(folder), count, seed)
            print(f"{'PostgreSQL' if is_server else 'SQLite'}: {count} kills in {time.monotonic() - began:.0f} s",
                  flush=True)


if __name__ == "__main__":
    main(sys.argv[1:])
