#!/usr/bin/env python3
"""Measure how long `dali_bench drive` takes, beyond its link.

Orders of a GTIN (112 frames and three records each) for a few units are sent through pipes to a link that answers at
once (null_link.c). The share of the pipes alone is measured with a command that does nothing but send and read.

1. 10, 100 and 1000 orders, with the journal in memory and on disk: the program's own share of a frame, and its peak
   memory; and 1000 orders that the journal knows, which send no frame.
2. The start alone: over a journal of 100000 orders with all fields, of version 2, and of version 1, which is written
   anew; and with 0 to 100 older journals (`--older`) of 100000 orders with a GTIN.
3. `drive --follow`, 1000 orders through a named pipe: each written once the one before it has its kept reply, all
   written at once, and that of four buses beside each other; beside one `drive` an order.
4. The peak memory of `drive --follow` by its lines.

Status 0: every order was done. Status 1: one wasn't. Status 2: a program couldn't be built or run. Status 3: an aim
isn't held.
"""

import contextlib
import json
import os
import pathlib
import subprocess
import sys
import tempfile
import time
from typing import NamedTuple

from inputs import FULL, GTIN, HEADER, MOST_ORDERS, write_journal
from measuring import KIBIBYTE, MEBIBYTE, Bench, Wrong, argument_parser, built, judged

FRAMES_OF_ORDER = 112
ORDERS = 1000
BUSES = 4
# The program's own share of a frame, in seconds.
MOST_SHARE = 20e-6
# Of a start with older journals: how the time may grow with ten times as many, the most seconds with 50, and the most
# memory by the length of the files.
MOST_GROWTH, MOST_START, MOST_OLDER_MEMORY = 12, 4, 2
# Of `--follow`, from 1000 lines to 100000.
MOST_MORE = 256 * KIBIBYTE
FEED = 'exec cat "$0" >"$1"'


class Driven(NamedTuple):
    """The measures of a command under the link, and its lines."""

    frames: int
    seconds: float
    processor_seconds: float
    peak_memory: int
    told: str


def driven_of(printed, told, new):
    """Read what the link prints, and want status 0 and the frames of `new` new orders."""
    frames, nanoseconds, microseconds, memory, status = map(int, printed.split())
    if (status, frames) != (0, FRAMES_OF_ORDER * new):
        raise Wrong(f"status {status}, {frames} frames of {new} new orders: {told[:99]}")
    return Driven(frames, nanoseconds / 1e9, microseconds / 1e6, memory * KIBIBYTE, told)


def done_of(printed, told, orders, new):
    """Do the same, and want kept replies to `orders` orders."""
    done = told.count(" kept 0 Done\n")
    if done != orders:
        raise Wrong(f"{done} orders of {orders} done: {told[:99]}")
    return driven_of(printed, told, new)


def least(runs):
    """Give the least times and the highest peak memory of several runs."""
    return runs[0]._replace(
        seconds=min(it.seconds for it in runs),
        processor_seconds=min(it.processor_seconds for it in runs),
        peak_memory=max(it.peak_memory for it in runs),
    )


def order(number):
    """Give an order."""
    return {"order": number, "unit": number % 5, "gtin": "4006381333931"}


class DriveBench(Bench):
    """A bench with the link, and runs under it."""

    def __init__(self, arguments, folder):
        super().__init__(arguments, folder)
        self.link, memory = built("benchmarks/null_link.c"), pathlib.Path("/dev/shm")
        self.places = {"in memory": memory if os.access(memory, os.W_OK) else self.folder, "on disk": self.folder}

    def run(self, words, orders=0, new=None):
        """Run a command under the link once."""
        ran = subprocess.run([self.link, *words], check=True, capture_output=True, text=True, stdin=subprocess.DEVNULL)
        return done_of(ran.stdout, ran.stderr, orders, orders if new is None else new)

    def pipes(self, count):
        """Measure the pipes alone, with the frames of `count` orders."""
        words = [self.link, self.link, "--ask", str(FRAMES_OF_ORDER * count)]
        runs = []
        for _ in range(self.runs):
            printed = subprocess.run(words, check=True, capture_output=True, text=True).stdout
            runs.append(driven_of(printed, "", count))
        return least(runs)

    def orders(self, count):
        """Write a file of `count` orders."""
        path = self.folder / f"orders_{count}.json"
        path.write_text(json.dumps([order(number) for number in range(1, count + 1)]), encoding="ascii")
        return path

    def lines(self, count, numbers):
        """Write a file of `count` lines, of the orders of these numbers in turn."""
        path = self.folder / f"lines_{count}_{numbers}"
        with open(path, "w", encoding="ascii") as file:
            file.writelines(json.dumps(order(1 + at % numbers)) + "\n" for at in range(count))
        return path

    def drive(self, count, place, is_sent_again=False):
        """Measure a drive of `count` orders with the journal at a place."""
        runs = []
        with tempfile.TemporaryDirectory(dir=place) as folder:
            journal = pathlib.Path(folder, "bench.journal")
            words = [self.program, "drive", self.orders(count), journal]
            for _ in range(self.runs):
                journal.unlink(missing_ok=True)
                first = self.run(words, count)
                runs.append(self.run(words, count, 0) if is_sent_again else first)
        return least(runs)

    def start(self, place, version=None, older=0):
        """Measure the start of a drive over the longest journal of a version, or with as many older journals."""
        runs = []
        with tempfile.TemporaryDirectory(dir=place) as folder:
            journal, words = pathlib.Path(folder, "bench.journal"), [self.program, "drive"]
            for number in range(older):
                path = pathlib.Path(folder, f"older_{number}.journal")
                write_journal(path, range(number * MOST_ORDERS, (number + 1) * MOST_ORDERS), GTIN)
                words += ["--older", path]
            for _ in range(self.runs):
                if version:
                    write_journal(journal, range(MOST_ORDERS), FULL, b"", version)
                runs.append(self.run([*words, self.orders(0), journal]))
                if runs[-1].told or not journal.read_bytes().startswith(HEADER):
                    raise Wrong(f"a start: told {runs[-1].told!r}")
        return least(runs)


class Bus:
    """A folder with a pipe and a journal, and runs of `drive --follow` over them under the link."""

    def __init__(self, bench, folder):
        self.bench, self.folder = bench, pathlib.Path(folder)
        self.pipe, self.journal = self.folder / "orders", self.folder / "bench.journal"
        os.mkfifo(self.pipe)

    def start(self):
        """Start a drive that takes its orders from the pipe."""
        words = [self.bench.link, self.bench.program, "drive", "--follow", self.pipe, self.journal]
        how = {"stdout": subprocess.PIPE, "stderr": subprocess.PIPE, "text": True}
        return subprocess.Popen(words, stdin=subprocess.DEVNULL, **how)

    def at_once(self, lines, count, new):
        """Measure a drive over all lines of a file, `new` of them new orders."""
        with subprocess.Popen(["sh", "-c", FEED, lines, self.pipe]):
            return done_of(*self.start().communicate(), count, new)

    def one_by_one(self):
        """Measure new orders that are each written once the one before is done."""
        command, told = self.start(), ""
        with open(self.pipe, "w", encoding="ascii", buffering=1) as pipe:
            for number in range(1, ORDERS + 1):
                pipe.write(json.dumps(order(number)) + "\n")
                while not told.endswith(f"reply {number} kept 0 Done\n"):
                    told += command.stderr.readline()
        printed, rest = command.communicate()
        return done_of(printed, told + rest, ORDERS, ORDERS)

    def drive_each(self):
        """Measure one `drive` an order."""
        files = [self.folder / f"order_{number}.json" for number in range(1, ORDERS + 1)]
        for number, file in enumerate(files, 1):
            file.write_text(json.dumps([order(number)]), encoding="ascii")
        for file in files:
            self.bench.run([self.bench.program, "drive", file, self.journal], 1)


def share_of(driven, pipes, start):
    """Give the program's own share of a frame: the processor's seconds, less those of the pipes and of the start."""
    return (driven.processor_seconds - pipes.processor_seconds - start.processor_seconds) / driven.frames


def measure_orders(bench):
    """Measure what frames and orders take."""
    for where, place in bench.places.items():
        start = bench.drive(0, place)
        for count in (10, 100, ORDERS):
            driven, pipes = bench.drive(count, place), bench.pipes(count)
            share = share_of(driven, pipes, start)
            print(
                f"{count:5} orders, {where:9}: {driven.seconds:6.3f} s, {count / driven.seconds:6.0f} orders a second"
                f" (the pipes alone {count / pipes.seconds:6.0f}), a frame's own share {share * 1e6:.1f} us,"
                f" {driven.peak_memory / MEBIBYTE:.1f} MiB",
                flush=True,
            )
            most = MOST_SHARE * 1e6
            bench.aims.want(share < MOST_SHARE, f"{count} orders, {where}: a frame's own share is under {most:.0f} us")
    again = bench.drive(ORDERS, bench.folder, is_sent_again=True)
    print(f"{ORDERS:5} orders sent again: {again.seconds * 1e3:.1f} ms, {again.peak_memory / MEBIBYTE:.1f} MiB")


def measure_starts(bench):
    """Measure what starts take."""
    for where, place in bench.places.items():
        for version in (2, 1):
            took = bench.start(place, version)
            what = f"start over {MOST_ORDERS} orders, version {version}, {where}"
            print(f"{what}: {took.seconds * 1e3:.1f} ms, {took.peak_memory / MEBIBYTE:.1f} MiB", flush=True)
    took = {}
    for count in (0, 1, 10, 50, 100):
        took[count] = bench.start(bench.folder, older=count)
        size = count * (len(HEADER) + MOST_ORDERS * 35)
        by_size = f" = {took[count].peak_memory / size:.1f} x files" if count else ""
        memory = f"{took[count].peak_memory / MEBIBYTE:.1f} MiB{by_size}"
        print(f"start behind {count:3} older journals: {took[count].seconds * 1e3:.1f} ms, {memory}", flush=True)
    growth, memory = took[100].seconds / took[10].seconds, took[100].peak_memory / size
    bench.aims.want(growth <= MOST_GROWTH, f"ten times the journals take {MOST_GROWTH} x the time: {growth:.1f}")
    bench.aims.want(took[50].seconds < MOST_START, f"50 journals take under {MOST_START} s: {took[50].seconds:.1f}")
    bench.aims.want(memory <= MOST_OLDER_MEMORY, f"memory is at most {MOST_OLDER_MEMORY} x files: {memory:.1f}")


def side_by_side(bench, folder, lines):
    """Drive orders of several buses that run at once."""
    folders = [pathlib.Path(folder, f"bus_{number}") for number in range(BUSES)]
    for each in folders:
        each.mkdir()
    buses = [Bus(bench, each) for each in folders]
    with contextlib.ExitStack() as stack:
        for bus in buses:
            stack.enter_context(subprocess.Popen(["sh", "-c", FEED, lines, bus.pipe]))
        for command in [bus.start() for bus in buses]:
            done_of(*command.communicate(), ORDERS, ORDERS)


def measure_follow(bench):
    """Measure orders a second, line by line."""
    lines = bench.lines(ORDERS, ORDERS)
    ways = {
        "one drive an order": (1, lambda folder: Bus(bench, folder).drive_each()),
        "one by one": (1, lambda folder: Bus(bench, folder).one_by_one()),
        "all written at once": (1, lambda folder: Bus(bench, folder).at_once(lines, ORDERS, ORDERS)),
        f"{BUSES} buses, all written at once": (BUSES, lambda folder: side_by_side(bench, folder, lines)),
    }
    for where, place in bench.places.items():
        for name, (buses, measured) in ways.items():
            seconds = []
            for _ in range(bench.runs):
                with tempfile.TemporaryDirectory(dir=place) as folder:
                    start = time.perf_counter()
                    measured(folder)
                    seconds.append(time.perf_counter() - start)
            print(f"{name}, {where}: {buses * ORDERS / min(seconds):.0f} orders a second", flush=True)


def measure_lines(bench):
    """Measure the peak memory by the number of lines, of orders that the journal knows."""
    with tempfile.TemporaryDirectory(dir=bench.folder) as folder:
        bus, peaks = Bus(bench, folder), {}
        bus.at_once(bench.lines(ORDERS, ORDERS), ORDERS, ORDERS)
        for count in (1, ORDERS, 100 * ORDERS):
            lines = bench.lines(count, min(count, ORDERS))
            # The kernel's count differs by some 100 KiB.
            peaks[count] = min(bus.at_once(lines, count, 0).peak_memory for _ in range(bench.runs))
            print(f"{count:6} lines of known orders: {peaks[count] // KIBIBYTE} KiB", flush=True)
    more = peaks[100 * ORDERS] - peaks[ORDERS]
    bench.aims.want(more <= MOST_MORE, f"memory doesn't grow with the lines: {more // KIBIBYTE} KiB")


if __name__ == "__main__":
    measures = (measure_orders, measure_starts, measure_follow, measure_lines)
    sys.exit(judged(argument_parser(__doc__.splitlines()[0], 3), *measures, bench_of=DriveBench))
