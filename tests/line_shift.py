"""Tests of the line computer's page for a shift leader: shifts, counts by bus, what isn't done, who was killed, who is
silent; and of a store of the version before, which knows no identification numbers.
"""

import datetime
import html
import http.server
import json
import os
import re
import signal
import sqlite3
import subprocess
import sys
import threading
import time
import urllib.request
from functools import partialmethod

from base import BenchTest, want
from driven import ROOT
from line_bench import Bench, Server, processes_of, python, stop, wait_for
from line_fixtures import Page, text_of, told_by_browser

sys.path.insert(0, str(ROOT / "tools"))

from line_computer import advice, database, faults, spans, standing  # noqa: E402

# Moments by hand, of UTC: 24 October 2026 20:00, the next day 05:00; 28 March 2026 21:00, the next day 04:00;
# 1 July 2026 00:30, 08:30 and 16:30.
AUTUMN, SPRING, JULY = (1792872000, 1792904400), (1774731600, 1774756800), (1782865800, 1782894600, 1782923400)
NIGHTS = "06:00,14:00,22:00"
# The store as the line computer before this one makes it, as far as its page goes.
SECOND = """
create table bench_store (version integer not null, id text not null, following bigint not null);
create table bench_buses (bus text primary key, number integer not null unique, folder text,
    has_journal integer not null default 0, retire integer not null default 0, answer text);
create table bench_states (bus text primary key references bench_buses, state text not null, number bigint,
    frames bigint, trouble text, since bigint, seen bigint not null);
create table bench_journals (bus text not null references bench_buses, place integer not null, name text not null,
    named integer not null, retired bigint, primary key (bus, place));
create table bench_orders (number bigint primary key, bus text not null references bench_buses, reference text,
    unit integer not null check (unit between 0 and 63), fields text not null, gtin text, expected bigint,
    state text not null, code integer, added bigint not null, sent bigint, ended bigint,
    sends bigint not null default 0, told text, report text, frames bigint, misses bigint, place integer,
    unique (bus, reference));
create index bench_orders_live on bench_orders (bus, number)
    where state in ('added', 'sent', 'taken', 'blocked', 'full');
create index bench_orders_unit on bench_orders (unit, number);
create index bench_orders_gtin on bench_orders (gtin, number);
create index bench_orders_hour on bench_orders ((ended / 3600), state, code);
create index bench_orders_state on bench_orders (state, number);
create index bench_orders_misses on bench_orders (bus, number) where misses is not null;
create table bench_labels (number bigint primary key references bench_orders, made bigint not null, taken bigint,
    printed integer not null default 0);
create index bench_labels_left on bench_labels (number) where taken is null;
create table bench_withdrawals (number bigint primary key references bench_orders, answer text);
insert into bench_store (version, id, following) values (2, 'a', 2000);
insert into bench_buses (bus, number) values ('bus1', 1);
insert into bench_states (bus, state, seen) values ('bus1', 'stopped', 0);
"""

# One who looks all the time, beside one who takes a lock again and again.
LOCKS = """
import sys, threading, time
sys.dont_write_bytecode = True
sys.path.insert(0, sys.argv[1])
from line_computer import database
buses, seen, is_over = {"bus1": 1, "bus2": 2}, [], threading.Event()
looker = database.opened(sys.argv[2])
assert looker.locked(buses) == set()

def look():
    its = database.opened(sys.argv[2])
    while not is_over.is_set():
        seen.append(frozenset(its.locked(buses)))

thread = threading.Thread(target=look)
thread.start()
for _ in range(300):
    holder = database.opened(sys.argv[2])
    # PostgreSQL gives a lock up a while after the end of its connection.
    last = time.monotonic() + 5
    while not (is_mine := holder.lock("bus1", 1)) and sys.argv[2].startswith("postgresql") and time.monotonic() < last:
        time.sleep(0.001)
    assert is_mine
    assert looker.locked(buses) == {"bus1"}
    holder.close()
is_over.set()
thread.join()
last = time.monotonic() + 5
while looker.locked(buses):
    assert time.monotonic() < last, "it isn't given up"
assert set(seen) <= {frozenset(), frozenset({"bus1"})} and len(seen) > 10, seen
"""


class Place(Bench):
    """A bench without a program: its store is written by hand."""

    def __init__(self, folder, store=None, is_made=True):
        self.folder, self.store, self.python, self.processes = folder, store or str(folder / "orders.db"), python(), []
        if is_made:
            self.does("init", "--bus", "bus1", "--bus", "bus2")

    def write(self, *statements):
        """Carry out statements."""
        if "://" in self.store:
            text = ";\n".join(statements)
            subprocess.run(["psql", "-X", "-q", "-v", "ON_ERROR_STOP=1", self.store], input=text, text=True, check=True)
            return
        with sqlite3.connect(self.store, timeout=20) as connection:
            for statement in statements:
                connection.executescript(statement)
        connection.close()

    def order(self, number, state, code=None, **more):
        """Put an order into the store."""
        known = {"number": number, "bus": "bus1", "unit": 5, "fields": "{}", "state": state, "added": 1, **more}
        if code is not None:
            known["code"] = code
        values = ", ".join("null" if it is None else str(it) if isinstance(it, int) else f"'{it}'"
                           for it in known.values())
        self.write(f"insert into bench_orders ({', '.join(known)}) values ({values})")


class Shown(Page):
    """The page of a bench with options of its own."""

    def __init__(self, bench, *options, **more):
        self.process = subprocess.Popen(bench.words("page", "--listen", "127.0.0.1:0", *options), cwd=bench.folder,
                                        stdout=subprocess.PIPE, text=True, **more)
        self.url = self.process.stdout.readline().strip()


def rows_of(page, heading):
    """Give the rows of the table below a heading, each a list of its cells' words."""
    part = re.search(f"<h2>{heading}[^<]*</h2>(.*?)(?:<h2>|$)", page, re.DOTALL)[1]
    rows = re.findall("<tr[^>]*>(.*?)</tr>", part.partition("</table>")[0])
    return [[text_of(cell).strip() for cell in re.findall("<t[hd][^>]*>(.*?)</t[hd]>", row)] for row in rows]


class SpanTest(BenchTest):
    """Shifts by the clock."""

    def in_zone(self, zone):
        """Have this process live in a time zone."""
        os.environ["TZ"] = zone
        time.tzset()

    def test_shifts_when_the_clock_is_put(self):
        self.in_zone("Europe/Berlin")
        times = spans.clock_times(NIGHTS)
        for (start, end), hours in ((AUTUMN, 9), (SPRING, 7)):
            for moment in (start, start + 1, end - 1):
                found = spans.shift(times, moment)
                self.assertEqual((found.start, found.end, found.hours()), (start, end, hours))
            self.assertEqual(spans.shift(times, end).start, end)
            self.assertEqual(spans.shift(times, start - 1).end, start)
            self.assertEqual(spans.shift(times, end, 1)[1:], (start, end))
        self.assertEqual(spans.shift(times, AUTUMN[0]).name, "the shift 2026-10-24 22:00 to 06:00")
        # Clock times that there are twice, or not at all.
        for moment, text in ((AUTUMN[1], "02:00,02:30"), (SPRING[1], "02:00,02:30,03:00")):
            found = spans.shift(spans.clock_times(text), moment)
            assert found.start <= moment < found.end, (text, found)

    def test_shifts_of_other_zones(self):
        self.in_zone("Asia/Kolkata")
        times = spans.clock_times(NIGHTS)
        self.assertEqual([spans.shift(times, moment)[1:] for moment in JULY[:2]],
                         [(JULY[0], JULY[1]), (JULY[1], JULY[2])])
        self.assertEqual(spans.shift(times, JULY[2] + 5, 2)[1:], (JULY[0], JULY[1]))
        # One clock time: a day from there to there.
        self.assertEqual(spans.shift(spans.clock_times("06:00"), JULY[2])[1:], (JULY[0], JULY[0] + 86400))
        self.assertEqual(spans.shift(spans.clock_times("06:00"), JULY[2], 99)[1:],
                         (JULY[0] - 99 * 86400, JULY[0] - 98 * 86400))
        self.assertEqual(spans.quarters(spans.shift(times, JULY[0])), (1980962, 1980994))

    def test_the_last_day(self):
        self.assertEqual(spans.day(JULY[0])[1:], (JULY[0] + 1800 - 86400, JULY[0] + 1800))
        self.assertEqual(spans.day(JULY[0]).hours(), 24)

    def test_clock_times_that_are_none(self):
        for text in ("", "6:00", "06:10", "24:00", "06:00,06:00", "06:00;14:00", "06:00,", "06:60", "06:00 ",
                     "\u0660\u0666:00"):
            with self.assertRaises(faults.Refused):
                spans.clock_times(text)
        ended = Place(self.folder).give("page", "--shift", "06:10")
        self.assertEqual((ended.status, ended.told),
                         (1, "error: --shift takes clock times, each once, at quarters of an hour, as"
                             " 06:00,14:00,22:00, and not 06:10\n"))


class LeaderTest(BenchTest):
    """The page that a shift leader sees."""

    def test_counts_by_bus_and_shift(self):
        bench = Place(self.folder)
        # The shift began an hour ago, at a quarter, and the one before two hours before that.
        start = (int(time.time()) // 900 - 4) * 900
        for number, (bus, state, code, ended) in enumerate([
                ("bus1", "ended", 0, start), ("bus1", "ended", 0, start - 1), ("bus1", "ended", 3, start + 60),
                ("bus2", "ended", 0, start + 61), ("bus2", "refused", None, start + 62),
                ("bus2", "reused", None, start - 7200), ("bus2", "ended", 5, start - 7201),
                ("bus2", "cancelled", None, start + 63), ("bus1", "added", None, None), ("bus1", "added", None, None),
                ("bus1", "sent", None, None), ("bus2", "blocked", None, None)], 1):
            bench.order(number, state, code, bus=bus, ended=ended, told=f"kept {code} x" if code is not None else None)
        at = [datetime.datetime.fromtimestamp(start + shift).strftime("%H:%M") for shift in (-7200, 0, 7200)]
        with Shown(bench, "--shift", ",".join(at), "--name", "Halle <3>") as page:
            text = page.get()
            self.assertEqual(rows_of(text, "Buses")[0],
                             ["Bus", "How it stands", "Waiting", "At work", "Done", "Not done"])
            self.assertEqual([row[2:] for row in rows_of(text, "Buses")[1:]],
                             [["2", "1", "1", "1"], ["0", "1", "1", "1"], ["2", "2", "2", "2"]])
            self.assertEqual([row[2:] for row in rows_of(page.get("?back=1"), "Buses")[1:]],
                             [["2", "1", "1", "0"], ["0", "1", "0", "1"], ["2", "2", "1", "1"]])
            self.assertEqual([row[2:] for row in rows_of(page.get("?day"), "Buses")[1:]],
                             [["2", "1", "2", "1"], ["0", "1", "1", "3"], ["2", "2", "3", "4"]])
            assert "<title>Halle &lt;3&gt; · Line computer</title>" in text, text
            for words in (f"{at[1]} to {at[2]}", "4 to do", "2 done in", "2 not done in it"):
                assert words in text_of(text), words
            # The search and the span stay in the links and in the form.
            links = html.unescape(page.get("?unit=5&back=2"))
            assert '<input type="hidden" name="back" value="2">' in links, links
            for link in ("/?unit=5&back=1", "/?unit=5&back=3", "/?unit=5&day="):
                assert f'<a href="{link}">' in links, link

    def test_what_is_not_done_and_what_to_do(self):
        bench, now = Place(self.folder), int(time.time())
        ends = {3: "Silent", 4: "Doubt", 5: "DoubtOpen", 1: "Short", 2: "Format", 0: "Done"}
        for number, (code, name) in enumerate(ends.items(), 1):
            bench.order(number, "ended", code, ended=now - 100 + number, told=f"kept {code} {name}",
                        reference=f"A-{number}", identification=f"{number:016X}")
        bench.order(7, "blocked", told="blocked 9")
        bench.order(8, "refused", ended=now, told="item 1: gtin: <b>")
        bench.order(9, "added", reference="A-9")
        bench.order(10, "ended", 3, ended=now - 90000, told="kept 3 Silent")
        # The luminaire of one was done by another order since; before that one it doesn't count.
        bench.order(11, "ended", 3, ended=now, told="kept 3 Silent", identification="00000000000000AA")
        bench.order(12, "ended", 0, ended=now, told="kept 0 Done", identification="00000000000000AA")
        bench.order(13, "ended", 3, ended=now, told="kept 3 Silent", identification="00000000000000AA")
        with Shown(bench) as page:
            text = page.get()
            found = {row[0]: row[1:] for row in rows_of(text, "Not done in")[1:]}
            self.assertEqual({number: row[-3:-1] for number, row in found.items()}, {
                "11": ["kept 3 Silent", "done since, as order 12"],
                "13": ["kept 3 Silent", "look at power, wire and address; add it anew"],
                "7": ["blocked 9", "put unit 9 back, or any unit at its address; or cancel the order"],
                "8": ["refused: item 1: gtin: <b>", "mend what it says; add it anew"],
                "5": ["kept 2 Format", "take another unit; add it anew"],
                "4": ["kept 1 Short", "take another unit, or fewer fields; add it anew"],
                "3": ["kept 5 DoubtOpen", "keep the unit on the bus, look at power and wire; add the same anew. In"
                                          " doubt again: take the unit out"],
                "2": ["kept 4 Doubt", "look at power and wire; add the same anew. In doubt again: take the unit out"],
                "1": ["kept 3 Silent", "look at power, wire and address; add it anew"]})
            self.assertEqual(found["1"][:5], ["A-1", "bus1", "5", "", "0000000000000001"])
            self.assertEqual([row[:2] for row in rows_of(text, "Waiting orders")[1:]], [["9", "A-9"]])
            # No colour carries a meaning alone: an order that isn't done has a mark and words.
            self.assertEqual(text.count('<tr class=trouble><td class="w" data-name="Order">'), 8 + 10)
            assert "!8" in text_of(text), "the picture has no number above its bar"
        self.assertEqual((advice.advice("full", None, "full"), advice.advice("reused", None, None),
                          advice.advice("added", None, None), advice.advice("ended", 0, "kept 0 Done")),
                         ("nothing: the journal is retired by itself", "add it anew", "", ""))

    def test_searches(self):
        bench = Place(self.folder)
        serials = ("00000000000000AB", "0123456789ABCDEF", None)
        for number, serial in enumerate(serials, 1):
            bench.order(number, "added", reference=f"P/{number} <ü>", identification=serial, unit=number)
        with Shown(bench) as page:
            for query, wanted in {"?identification=ab": {1}, "?identification=0123456789abcdef": {2},
                                  "?identification=0123456789ABCDE": set(), "?identification=%20AB%20": {1},
                                  "?identification=xyz": set(), "?reference=P/2%20%3C%C3%BC%3E": {2},
                                  "?reference=P/2": set(), "?reference=P/3%20%3C%C3%BC%3E&unit=3": {3},
                                  "?reference=P/3%20%3C%C3%BC%3E&unit=2": set(),
                                  "?reference=" + 65 * "x": set(), "?reference=%00": set()}.items():
                text = page.get(query)
                found = set(map(int, re.findall(r'<a href="/\?number=([0-9]+)">', text)))
                self.assertEqual((query, found), (query, wanted))
            assert "P/1 &lt;ü&gt;" in page.get("?identification=AB")
            # A reader sees why nothing is found.
            assert "a serial number takes hexadecimal ones" in page.get("?identification=xyz")

    def test_a_report_is_a_table(self):
        bench = Place(self.folder)
        report = {"cause": {"byte": 255, "location": 5, "was": "other"}, "code": 4, "ended": "now", "frames": 98,
                  "misses": 8, "moment": JULY[0], "name": "Doubt", "order": 2, "reply": "kept 4 Doubt", "run": 1,
                  "unit": 6}
        texts = [json.dumps(report), json.dumps({**report, "cause": None, "ended": "before"}), "{<b>" + 300 * "x",
                 '"text"', "[1]", '{"cause": 5, "moment": "x"}', None]
        for number, text in enumerate(texts, 1):
            bench.order(number, "ended", 4, told="kept 4 Doubt", report=text, fields='{"year":24,"colour":null}')
        bench.order(8, "refused", told="no JSON", fields="{no JSON <i>")
        with Shown(bench, env={**os.environ, "TZ": "UTC"}) as page:
            one = page.get("?number=1")
            words = re.search('<table class="pairs"><tr><th>reply.*?</table>', one)[0]
            self.assertEqual(text_of(words).split(),
                             "reply kept 4 Doubt by this drive begun 2026-07-01 00:30:00 frames 98 misses 8 cause other"
                             " at location 05h, which holds FFh".split())
            assert "{" not in text_of(one), "JSON is left"
            assert "Year 24" in text_of(one) and "Colour unknown" in text_of(one), text_of(one)
            assert "by an earlier one" in text_of(page.get("?number=2")) and "cause" not in page.get("?number=2")
            assert "{&lt;b&gt;xxx" in page.get("?number=3")
            for number in range(4, 8):
                assert "kept 4 Doubt" in page.get(f"?number={number}"), number
            assert "{no JSON &lt;i&gt;" in page.get("?number=8")


# Processes and drives


def sees(page, words, query=""):
    """Wait until the page has these words; give the seconds that it took."""
    began = time.monotonic()
    wait_for(lambda: words in text_of(page.get(query)), 30)
    return time.monotonic() - began


def judge_kills(bench):
    """Raise unless a process that was killed shows at once, and looking never keeps another one away."""
    with Shown(bench) as page:
        for _ in range(4):
            process = bench.start()
            sees(page, "bus1 ready")
            process.send_signal(signal.SIGKILL)
            took = sees(page, ": its process was killed")
            assert took < 5, took
            process.wait()
        # The next one begins while it is looked at all the time.
        is_over, looks = threading.Event(), []

        def look():
            while not is_over.is_set():
                looks.append(page.get())

        lookers = [threading.Thread(target=look) for _ in range(3)]
        for looker in lookers:
            looker.start()
        for _ in range(3):
            want(bench.run(), 0)
        is_over.set()
        for looker in lookers:
            looker.join()
        assert looks and "another process" not in bench.log(), bench.log()
        sees(page, "bus1 not running since")
        assert "killed" not in page.get(), "one that has ended counts as killed"


def judge_locks(bench):
    """Raise unless a lock is seen, and who looks never has it, beside one that takes it again and again."""
    words = [bench.python, "-c", LOCKS, ROOT / "tools", bench.store]
    subprocess.run(words, check=True, timeout=120)


def judge_older_store(bench):
    """Bring a store of the version before up, and raise unless its orders are found by what wasn't searched before."""
    fields = {1: {"identification": "00ab000000000000", "year": 24}, 2: {"year": 24}, 3: {"identification": None},
              1500: {"identification": "FFAB000000000000"}}
    texts = {number: json.dumps(it) for number, it in fields.items()} | {4: '"identification" no JSON', 5: "[1]"}
    bench.write(SECOND, *("insert into bench_orders (number, bus, unit, fields, state, added, reference) values"
                          f" ({number}, 'bus1', 5, '{text}', 'added', 1, 'job-{number}')"
                          for number, text in texts.items()),
                *(f"insert into bench_orders (number, bus, unit, fields, state, code, added, ended) values ({number},"
                  f" 'bus1', 6, '{{\"identification\":\"{number:016x}\"}}', 'ended', 0, 1, 2)"
                  for number in range(100, 1400)))
    ended = bench.give("status")
    want((ended.status, ended.told),
         (1, "error: the store has version 2, and this line computer has 3: `init` brings it up\n"))
    want(bench.does("init"), ["store of version 3"])
    want(dict(bench.rows("select number, identification from bench_orders where unit = 5")),
         {1: "00AB000000000000", 2: None, 3: "unknown", 4: None, 5: None, 1500: "FFAB000000000000"})
    want(bench.rows("select count(*) from bench_orders where identification is not null"), [(1303,)])
    with Shown(bench) as page:
        for query, number in (("?identification=00ab000000000000", 1), ("?identification=3e8", 1000),
                              ("?reference=job-4", 4)):
            want((query, re.findall(r'<a href="/\?number=([0-9]+)">', page.get(query))), (query, [str(number)]))
    want(bench.does("init"), ["store of version 3"])


class ProcessTest(BenchTest):
    """The page's lines on processes and drives; the last ones over both databases."""

    def test_a_drive_that_says_nothing(self):
        bench = Bench(self.folder)
        with Shown(bench) as page:
            bench.pace = 20
            process = bench.start()
            bench.add([(5, 24, 1)])
            sees(page, "bus1 at work on order 1")
            adapter = processes_of(process)[1]
            os.kill(adapter, signal.SIGSTOP)
            began = time.monotonic()
            sees(page, "the drive says nothing since")
            took = time.monotonic() - began
            # Twice the 2.5 seconds that are the least for an order.
            assert 3 < took < 12, took
            assert "amid order 1: look at the interface" in bench.does("status")[0], bench.does("status")
            os.kill(adapter, signal.SIGCONT)
            sees(page, "1 done in")
            assert "says nothing" not in page.get()
            stop(process)

    def test_what_a_bus_says(self):
        now = int(time.time())
        well = standing.Bus("b", 1, True, "ready", None, None, None, None, None, now, now)
        at_work = well._replace(order=7, frames=3, expected=112)
        for bus, words, is_well in [
                (well, "ready", True), (at_work, "at work on order 7, 3 of 112 frames", True),
                (at_work._replace(expected=None), "at work on order 7, 3 of ? frames", True),
                (at_work._replace(spoke=now - 8), "at work on order 7, 3 of 112 frames", True),
                (at_work._replace(spoke=now - 12), "the drive says nothing since ", False),
                (at_work._replace(spoke=now - 12, expected=1000), "at work on order 7, 3 of 1000 frames", True),
                # Where nobody knows how many frames were answered, a drive that works long isn't taken for silent.
                (at_work._replace(spoke=now - 12, frames=None), "at work on order 7", True),
                (well._replace(seen=now - 61), "no word since ", False),
                (well._replace(trouble="the plug", since=now), "in trouble since ", False),
                (well._replace(is_locked=False), "not running since ", False),
                (well._replace(is_locked=False, state="stopped"), "not running since ", True),
                (well._replace(is_locked=False, state="stopped", seen=0), "not running", True),
                (well._replace(is_locked=False, state="stopped", trouble="x", since=now), "stopped, in trouble since ",
                 False), (well._replace(is_locked=True, state="stopped"), "not running since ", True)]:
            self.assertEqual((bus, bus.words()[:len(words)], bus.is_well()), (bus, words, is_well))
            self.assertEqual((bus, "killed" in bus.words()), (bus, not bus.is_locked and bus.state == "ready"))
            assert bus.is_at_work() <= bus.is_well(), bus

    def test_a_lock_that_may_not_be_looked_at(self):
        bench = Place(self.folder)
        (self.folder / "orders.db.bus1.lock").mkdir()
        found = database.opened(bench.store)
        self.assertEqual(found.locked({"bus1": 1, "bus2": 2}), {"bus1"})
        found.close()

    def test_the_page_is_brought_up_to_date_in_a_browser(self):
        """The order is added after the first answer: a browser shows it without being asked."""
        bench = Place(self.folder)
        with Shown(bench) as page:
            asked = []

            class Between(http.server.BaseHTTPRequestHandler):
                """Hands on what is asked for, and notes it."""

                def do_GET(self):
                    asked.append(self.path)
                    if asked.count("/?unit=5") == 2:
                        bench.order(77, "added")
                    if asked.count("/?unit=5") > 2:
                        self.send_error(503, "no store")
                        return
                    with urllib.request.urlopen(page.url.rstrip("/") + self.path, timeout=20) as answer:
                        self.send_response(200)
                        for name in ("Content-Type", "Content-Security-Policy"):
                            self.send_header(name, answer.headers[name])
                        self.end_headers()
                        self.wfile.write(answer.read())

                def log_message(self, *_):
                    pass

            with http.server.ThreadingHTTPServer(("127.0.0.1", 0), Between) as between:
                threading.Thread(target=between.serve_forever, daemon=True).start()
                url = f"http://127.0.0.1:{between.server_address[1]}/?unit=5"
                found = told_by_browser(url, "--dump-dom", "--virtual-time-budget=9000")
                between.shutdown()
            assert asked.count("/?unit=5") >= 3, asked
            assert 'href="/?number=77"' in found and 'name="unit" value="5"' in found, found
            # After that no answer came: the page says that it is old.
            old = re.search('<p id="old">([^<]*)</p>', found)
            assert old and old[1].startswith("This page is old. ") and "no store" in old[1], found


def over(judge, kind, is_in_postgresql, test):
    """Judge a bench over a database, which has none yet where it is of the version before."""
    if not is_in_postgresql:
        judge(kind(test.folder))
        return
    with Server(test.folder) as server:
        judge(kind(test.folder, server.url))


def older(folder, store=None):
    """Give a place without a store."""
    if store is None:
        (folder / "orders.db").touch()
    return Place(folder, store, is_made=False)


def judged_over(test, judge, kind, is_in_postgresql):
    """Do so as a test."""
    over(judge, kind, is_in_postgresql, test)


for name, judge, kind in (("killed", judge_kills, Bench), ("locks", judge_locks, Place),
                          ("an_older_store", judge_older_store, older)):
    for its, is_in_postgresql in (("sqlite", False), ("postgresql", True)):
        setattr(ProcessTest, f"test_{name}_over_{its}", partialmethod(judged_over, judge, kind, is_in_postgresql))
