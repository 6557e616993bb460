"""Fixtures of the line computer's tests besides its bench: its page, a store that is changed, a storm of kills."""

import collections
import html
import json
import os
import random
import re
import shutil
import signal
import sqlite3
import subprocess
import time
import unittest
import urllib.request

from base import want
from driven import NAMES, PATIENCE, ROOT
from line_bench import ABSENT, ADAPTER, FIXED, GOOD, LIVE, SHORT, judge, processes_of, stop, wait_for, with_no_fault

LEFT, UNIT = 60, 5
SLOW = 40  # milliseconds that a frame takes, so that an order is at work for some seconds
SEED = 20261129
BUSES = ("bus1", "bus2")
PACE = 2  # milliseconds that a frame takes, so that kills hit orders
MANY = 100000
MOST_PAGE, MOST_STEP = 0.2, 0.005
# How often a page is measured while other work of the machine holds it up.
MOST_TRIES = 30
CODES = (0,) * 60 + (1, 2, 3, 3, 4, 5)
# The victims of a storm: of a bus all processes, its own, its adapter, its drive; or a command that adds orders.
VICTIMS = ("all", "own", "adapter", "drive", "add")


class Page:
    """The page of a bench, served as long as this is entered."""

    def __init__(self, bench, listen="127.0.0.1:0"):
        self.process = subprocess.Popen(bench.words("page", "--listen", listen), cwd=bench.folder,
                                        stdout=subprocess.PIPE, text=True)
        self.url = self.process.stdout.readline().strip()

    def get(self, query=""):
        """Give the page's text."""
        with urllib.request.urlopen(self.url + query, timeout=20) as answer:
            return answer.read().decode()

    def __enter__(self):
        return self

    def __exit__(self, *_):
        self.process.send_signal(signal.SIGTERM)
        want(self.process.wait(20), 0)
        self.process.stdout.close()


def text_of(page):
    """Give the words of a page, with a blank between two elements."""
    return re.sub(r"\s+", " ", html.unescape(re.sub("<[^>]*>", " ", page)))


def told_by_browser(url, *words):
    """Have a browser load a page, and give what it prints."""
    name = shutil.which("chromium") or shutil.which("chromium-browser") or shutil.which("google-chrome")
    if not name:
        raise unittest.SkipTest("chromium isn't installed (Debian: chromium)")
    profile = ["--headless", "--no-sandbox", "--disable-gpu", "--disable-dev-shm-usage", "--no-first-run"]
    return subprocess.run([name, *profile, *words, url], capture_output=True, timeout=60, check=False).stdout.decode()


def fill(bench, count, buses, days=2):
    """Put orders of some days into a store of SQLite, as they are after their ends; the last are to do."""
    chance, now = random.Random(7), int(time.time())
    rows, labels = [], []
    for number in range(1, count + 1):
        is_left = number > count - 20
        code = None if is_left else chance.choice(CODES)
        ended = None if is_left else now - (count - number) * 86400 * days // count
        bus = chance.choice(buses)
        misses = int(chance.expovariate(1 / (1 + 30 * number / count if bus == buses[-1] else 1)))
        serial = f"{7919 * number:016X}"
        fields = json.dumps({"gtin": f"{number:013}", "identification": serial})
        rows.append((number, bus, str(70000000 + number), number % 64, fields, f"{number:014}", serial, 112,
                     "added" if is_left else "ended", code, now - 86400 * days, ended and ended - 5, ended,
                     0 if is_left else 1, None if is_left else f"kept {code} {NAMES[code]}",
                     None if is_left else 112 + 7 * misses, None if is_left else misses))
        labels += [(number, ended)] if code == 0 else []
    with sqlite3.connect(bench.store) as connection:
        connection.executemany(
            "insert into bench_orders (number, bus, reference, unit, fields, gtin, identification, expected, state,"
            f" code, added, sent, ended, sends, told, frames, misses) values ({', '.join('?' * 17)})", rows)
        connection.executemany("insert into bench_labels (number, made) values (?, ?)", labels)
        connection.execute("update bench_store set following = ?", (count + 1,))
    connection.close()


# An order's steps in the store: which is next, that it is sent, that it is taken, that it has ended with its label.
STEP = """
import sys, time
sys.dont_write_bytecode = True
sys.path.insert(0, sys.argv[1])
from line_computer import schema, told, work
database = schema.open_store(sys.argv[2])
bus, times = work.Work(database, "bus1"), []
for _ in range(5):
    began = time.perf_counter()
    order = bus.send(bus.next_order())
    bus.keep([told.Taken(order.number)], work.BusState("ready", order.number))
    bus.keep([told.Reported(order.number, "kept 0 Done", 0, order.sent, 112, 0, "{}")], work.BusState("ready"))
    times.append(time.perf_counter() - began)
print(min(times))
"""


def page_seconds(page):
    """Measure the page and searches; give the least seconds of each."""
    found = {}
    for query in ("", "?unit=5", "?gtin=77777", "?number=500", "?number=99999&unit=31", "?reference=70000500",
                  "?identification=3C6AC4", "?identification=0&unit=5"):
        times = []
        while len(times) < 5 or min(times) >= MOST_PAGE and len(times) < MOST_TRIES:
            began = time.perf_counter()
            page.get(query)
            times.append(time.perf_counter() - began)
        found[query] = min(times)
    return found


def step_seconds(bench):
    """Measure the steps of orders that are to do; give the least seconds."""
    words = [bench.python, "-c", STEP, ROOT / "tools", bench.store]
    return float(subprocess.run(words, capture_output=True, check=True, text=True).stdout)


def units(*addresses, frame_time=0, lost=()):
    """Give the words of an adapter to these units."""
    words = [ADAPTER, "--folder", "bus1", "--frame-time", str(frame_time)]
    words += [word for address in addresses for word in ("--unit", str(address))]
    return words + (["--lose-frame", ",".join(map(str, lost))] if lost else [])


def add(bench, *orders, options=()):
    """Add orders as they stand; give how that ended."""
    return bench.give("add", "--bus", "bus1", *options, "-", given=json.dumps(orders).encode())


def identified(number, unit=UNIT, **more):
    """Make an order that gives a unit an identification number."""
    return {"unit": unit, "identification": number, **more}


def change(bench, statement):
    """Change the store without the line computer."""
    if "://" in bench.store:
        subprocess.run(["psql", "-X", "-q", "-c", statement, bench.store], check=True)
    else:
        subprocess.run(["python3", "-c", "import sqlite3, sys; c = sqlite3.connect(sys.argv[1], timeout=20);"
                        " c.executescript(sys.argv[2]); c.commit()", bench.store, statement], check=True)


class Storm:
    """Two buses whose processes are killed and started again, while orders are added, cancelled and labelled."""

    def __init__(self, bench, chance, kills, server=None):
        self.bench, self.chance, self.left, self.server = bench, chance, kills, server
        bench.pace = PACE
        self.processes, self.counts, self.labels = {}, collections.Counter(), []

    def keep_alive(self):
        """Start what has ended, as a service does."""
        for bus in BUSES:
            process = self.processes.get(bus)
            if process is None or process.poll() is not None:
                self.processes[bus] = self.bench.start(bus, *self.options())
                self.counts["starts"] += 1

    def options(self):
        """Give the options of the next process."""
        return ()

    def go_on(self):
        """Go on until all kills are over."""
        while self.left > 0:
            self.keep_alive()
            time.sleep(self.chance.uniform(0.0, 0.25))
            if sum(state in LIVE for state in self.bench.states().values()) < 12:
                self.add()
            if self.chance.random() < 0.1:
                self.cancel_or_take()
            self.kill()

    def add(self, crash=()):
        """Add some orders to a bus."""
        units = (*GOOD, *GOOD, *GOOD, *GOOD, FIXED, SHORT, ABSENT)
        orders = [(self.chance.choice(units), self.chance.randrange(100), self.chance.randint(1, 53)) for _ in range(6)]
        self.bench.add(orders, self.chance.choice(BUSES), crash=crash)

    def cancel_or_take(self):
        """Cancel the last order that waits, which may be at work by now, or take the labels."""
        if self.chance.random() < 0.5:
            states = self.bench.states()
            number = max((it for it, state in states.items() if state == "added"), default=max(states, default=1))
            ended = self.bench.give("cancel", str(number))
            assert ended.status == 0 or re.search("is at work|has ended", ended.told) or self.server, ended
            self.counts["cancelled"] += ended.status == 0
        else:
            ended = self.bench.give("labels", "--take")
            self.labels += ended.lines() if ended.status == 0 else []

    def kill(self):
        """Kill one of the victims."""
        victim = self.chance.choice((*VICTIMS, "server", "backend") if self.server else VICTIMS)
        if victim == "add":
            self.add(crash=("commit", str(1), self.chance.choice(("before", "behind"))))
        elif victim in ("server", "backend"):
            self.server.kill(is_whole=victim == "server")
            if victim == "server":
                time.sleep(self.chance.uniform(0, 0.3))
                self.server.start()
        else:
            process = self.processes[self.chance.choice(BUSES)]
            chain = processes_of(process)
            chosen = {"all": chain, "own": chain[:1], "adapter": chain[1:2], "drive": chain[2:3]}[victim]
            if not chosen:
                return
            for pid in chosen:
                with_no_fault(os.kill, pid, signal.SIGKILL)
            if process.pid in chosen:
                process.wait()
        self.counts[victim] += 1
        self.left -= victim != "add"

    def end(self):
        """Have all orders end in quiet, and judge."""
        wait_for(lambda: self.keep_alive() or not any(it in LIVE for it in self.bench.states().values()), 8 * PATIENCE)
        wait_for(lambda: all(len(processes_of(process)) == 3 for process in self.processes.values()))
        for process in self.processes.values():
            want(stop(process), 0)
        stored = judge(self.bench, BUSES)
        self.labels += self.bench.does("labels", "--take")
        self.counts["orders"], self.counts["labels"] = len(stored), len(self.labels)
        for name, is_so in (("sent again", "sends > 1"), ("answered from the journal", "report like '%\"before\"%'"),
                            ("ended by a later drive", "code = 0 and frames < expected")):
            self.counts[name] = self.bench.rows(f"select count(*) from bench_orders where {is_so}")[0][0]
        print(", ".join(f"{name} {count}" for name, count in sorted(self.counts.items())), flush=True)
