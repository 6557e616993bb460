#!/usr/bin/env python3
"""Measure the line computer: orders a second over one store, a kill of its database, and a store of many orders.

Orders of a GTIN (49 frames by the short plan) go to links that answer at once (null_link.c).

1. 1, 10 and 50 buses over one server of PostgreSQL, and over a file of SQLite, in a folder on disk, each bus with its
   own process, drive and journal: how many orders a second come to their end over all of them, from the moment at which
   all buses are ready and the first order is given.
2. The same 10 buses over PostgreSQL, over a link that takes 2 ms a frame, with
   the whole server killed and started again amid them: how long no order comes
   to its end, beside how long that is without a kill.
3. A store of 100000 orders of two days, and one of a million of a year: the page, a search, and the next step of an
   order.

Status 0: every order was done. Status 1: one wasn't. Status 2: a program couldn't
be built or run. Status 3: an aim isn't held. PostgreSQL and psycopg2 are wanted.
"""

import os
import pathlib
import sys
import tempfile
import time
import unittest

from measuring import REPOSITORY, Wrong, argument_parser, built, judged

sys.dont_write_bytecode = True
sys.path.insert(0, str(REPOSITORY / "tests"))

from base import settings  # noqa: E402
from line_bench import Bench, Server, stop  # noqa: E402
from line_fixtures import MANY, MOST_PAGE, MOST_STEP, Page, fill, page_seconds, step_seconds  # noqa: E402

GTIN = "4006381333931"
ORDERS = {1: 200, 10: 100, 50: 40}
SLOW_ORDERS = 12
PACE = 2
# The link's words have "--" in front of the drive's, which the link in C doesn't know.
WORDS = 'shift; exec "$0" "$@"'


class Line:
    """A store with this many buses, each of which is given orders that are all done at the end."""

    def __init__(self, folder, store, buses, orders, adapter):
        self.buses = [f"bus{number}" for number in range(1, buses + 1)]
        self.bench, self.count, self.adapter = Bench(folder, store, self.buses), buses * orders, adapter
        self.given = ("unit,gtin\n" + f"5,{GTIN}\n" * orders).encode()

    def ended(self):
        """Give how many orders have ended."""
        return self.bench.rows("select count(*) from bench_orders where state = 'ended'")[0][0]

    def ready(self):
        """Give how many buses are ready, or past that."""
        return self.bench.rows("select count(*) from bench_states where state = 'ready'")[0][0]

    def run(self, act=lambda: None):
        """Run all buses; give the moments at which orders were seen to have ended, and how many had by then."""
        processes = [self.bench.start(bus, adapter=self.adapter) for bus in self.buses]
        while self.ready() < len(self.buses):
            time.sleep(0.01)
        seen, is_done = [(time.monotonic(), 0)], False
        for bus in self.buses:
            self.bench.does("add", "--bus", bus, "-", given=self.given)
        while seen[-1][1] < self.count:
            time.sleep(0.02)
            if not is_done and seen[-1][1] > self.count / 3:
                act()
                is_done = True
            seen.append((time.monotonic(), self.ended()))
        for process in processes:
            stop(process)
        done = self.bench.rows("select count(*) from bench_orders where code = 0")[0][0]
        labels = self.bench.rows("select count(*) from bench_labels")[0][0]
        if (done, labels) != (self.count, self.count):
            raise Wrong(f"{done} of {self.count} orders are done, with {labels} labels")
        return seen

    def rate(self):
        """Give how many orders a second came to their end, from the moment at which the first was given."""
        seen = self.run()
        return (seen[-1][1] - seen[0][1]) / (seen[-1][0] - seen[0][0])


def longest_gap(seen):
    """Give the longest time in which no order came to its end."""
    moments = [now for (_, before), (now, count) in zip(seen, seen[1:]) if count > before]
    return max(later - earlier for earlier, later in zip(moments, moments[1:]))


def measure_rates(place, link):
    """Measure and print orders a second."""
    adapter = ["sh", "-c", WORDS, str(link)]
    for buses, orders in ORDERS.items():
        with tempfile.TemporaryDirectory(dir=place) as folder:
            folder = pathlib.Path(folder)
            folder.chmod(0o755)
            with Server(folder) as server:
                rate = Line(folder, server.url, buses, orders, adapter).rate()
            print(f"PostgreSQL, {buses} buses: {rate:.0f} orders a second", flush=True)
        with tempfile.TemporaryDirectory(dir=place) as folder:
            rate = Line(pathlib.Path(folder), None, buses, orders, adapter).rate()
        print(f"SQLite, {buses} buses: {rate:.0f} orders a second", flush=True)


def measure_kill(place):
    """Measure and print what a kill of the database costs."""
    for name, is_killed in (("no kill", False), ("a kill of the server", True)):
        with tempfile.TemporaryDirectory(dir=place) as folder:
            folder = pathlib.Path(folder)
            folder.chmod(0o755)
            with Server(folder) as server:
                line, took = Line(folder, server.url, 10, SLOW_ORDERS, None), []
                line.bench.pace = PACE

                def kill():
                    began = time.monotonic()
                    server.kill()
                    server.start()
                    took.append(time.monotonic() - began)

                seen = line.run(kill if is_killed else lambda: None)
            server_seconds = f", of which the server was away {took[0]:.1f}" if took else ""
            print(f"10 buses over a slow link, {name}: all done in {seen[-1][0] - seen[0][0]:.1f} s, no end for at most"
                  f" {longest_gap(seen):.1f} s{server_seconds}", flush=True)


def measure_many(place, aims, count, days):
    """Measure and print the page and a step over `count` orders of `days` days."""
    with tempfile.TemporaryDirectory(dir=place) as folder:
        bench = Bench(pathlib.Path(folder), buses=("bus1", "bus2"))
        fill(bench, count, ("bus1", "bus2"), days)
        size = os.path.getsize(bench.store) / 2**20
        with Page(bench) as page:
            pages = page_seconds(page)
        step = step_seconds(bench)
    print(f"{count} orders of {days} days, {size:.0f} MiB: the page {1000 * pages['']:.0f} ms, the slowest search"
          f" {1000 * max(pages.values()):.0f} ms, an order's steps in the store {1000 * step:.1f} ms", flush=True)
    aims.want(max(pages.values()) < MOST_PAGE, f"a page takes under {1000 * MOST_PAGE:.0f} ms")
    aims.want(step < MOST_STEP, f"an order's steps take under {1000 * MOST_STEP:.0f} ms")


def measure_all(bench):
    """Take all measures."""
    settings["program"] = bench.program
    link = built("benchmarks/null_link.c")
    bench.folder.chmod(0o755)
    try:
        measure_rates(bench.folder, link)
        measure_kill(bench.folder)
        measure_many(bench.folder, bench.aims, MANY, 2)
        measure_many(bench.folder, bench.aims, 10 * MANY, 365)
    except unittest.SkipTest as fault:
        raise OSError(str(fault)) from fault


if __name__ == "__main__":
    sys.exit(judged(argument_parser(__doc__.splitlines()[0], 1), measure_all))
