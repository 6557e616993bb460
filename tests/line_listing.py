"""Tests of the line computer's lists: which orders, as lines and as a table, orders that are repeated, and plans."""

import csv
import io
import json
import os
import re
import shutil
import signal
import subprocess

from base import BenchTest, in_cases, want
from driven import FIELDS, ROOT
from line_bench import ABSENT, TO_VERSION_2, Bench, Server, processes_of, stop, wait_for
from line_fixtures import SLOW, UNIT, Page, add, change, identified, text_of, units

BERLIN = "CET-1CEST,M3.5.0,M10.5.0/3"
HEADER = ",".join(["order,bus,reference,repeats,unit,state,end,told,plan,added,sent,ended,sends,frames,misses",
                   *(it["key"] for it in FIELDS)])
# Orders by their numbers: bus, reference, repeats, its reference, state, code, told, the moment of the end: in Berlin
# the last second of 29 November, the first of the 30th, those before and at 15:00, the last of the 30th.
ROWS = {
    1: ("bus1", "70", None, None, "ended", 0, "kept 0 Done", 1764457199),
    2: ("bus1", "71", None, None, "ended", 3, "kept 3 Silent", 1764457200),
    3: ("bus2", "71", None, None, "ended", 5, "kept 5 DoubtOpen", 1764511199),
    4: ("bus2", None, None, None, "refused", None, "item 1 fault 1 Unit", 1764511200),
    5: ("bus1", None, 2, "71", "ended", 0, "kept 0 Done", 1764543599),
    6: ("bus1", None, None, None, "added", None, None, None),
}
# Words of `orders`, and the numbers that are listed.
CHOSEN = [
    ((), [1, 2, 3, 4, 5, 6]), (("--bus", "bus2"), [3, 4]), (("--reference", "71"), [2, 3, 5]),
    (("--reference", "71", "--bus", "bus1"), [2, 5]), (("--reference", "7"), []), (("--end", "Done"), [1, 5]),
    (("--end", "done"), [1, 5]), (("--end", "3"), [2]), (("--end", "Silent", "--end", "doubtopen"), [2, 3]),
    (("--end", "refused", "--end", "5"), [3, 4]), (("--end", "added"), [6]), (("--end", "ended"), [1, 2, 3, 5]),
    (("--state", "ended", "--end", "Silent"), [2]), (("--state", "added", "--end", "Done"), []),
    (("--since", "2025-11-30"), [2, 3, 4, 5, 6]), (("--until", "2025-11-29"), [1]),
    (("--since", "2025-11-30", "--until", "2025-11-30"), [2, 3, 4, 5]),
    (("--since", "2025-11-30 15:00"), [4, 5, 6]), (("--until", "2025-11-30 15:00"), [1, 2, 3]),
    (("--since", "2025-11-30T14:59:59", "--until", "2025-11-30 15:00:01"), [3, 4]),
    (("--since", "2025-11-30", "--end", "Done", "--bus", "bus1"), [5]), (("--since", "2999-12-31"), []),
]
WRONG = [
    (("--end", "Dnoe"), "argument --end: 'Dnoe' is no end, as Done, Short, Format, Silent, Doubt, DoubtOpen or 0 to 5"),
    (("--end", "6"), "argument --end: '6' is no end"), (("--end", ""), "argument --end: '' is no end"),
    (("--since", "30.11.2025"), "argument --since: '30.11.2025' is no date and no moment, as 2026-11-30 or"),
    (("--since", "2026-02-29"), "argument --since: '2026-02-29' is no date"),
    (("--until", "2025-11-30 24:00"), "argument --until: '2025-11-30 24:00' is no date"),
    (("--until", "9999-12-31"), "argument --until: '9999-12-31' is no date"),
    (("--since", "2025-11-30 14"), "argument --since: '2025-11-30 14' is no date"),
    (("--since", "2025-11-30 14:00", "--until", "2025-11-30 14:00"), "--since isn't before --until, so no order is"),
    (("--bus", "bus9"), "there is no bus bus9: `init --bus bus9` makes it"),
]
# Texts of other programs, and how a table has them.
TEXTS = {'=HYPERLINK("x")': "'=HYPERLINK(\"x\")", "+49": "'+49", "-1": "'-1", "@a": "'@a", "'=a": "''=a",
         "\t=a": "'\t=a", "\r=a": "'\r=a", "a=1": "a=1", "a,b;c": "a,b;c", 'a"b': 'a"b', "a\r\nb": "a\r\nb",
         "Ü€": "Ü€", " =a": " =a"}
SHARES = 2  # of what is done in one server, each a case


# An order with all fields.
FULL = json.loads((ROOT / "examples" / "full.json").read_text(encoding="utf-8"))[0]
del FULL["order"], FULL["unit"]


def quoted(value):
    """Spell a value for a statement."""
    return "null" if value is None else str(value) if isinstance(value, int) else "'" + value.replace("'", "''") + "'"


def fill(bench, rows=None):
    """Put orders into a store."""
    names = "number, bus, reference, repeats, repeated_reference, state, code, told, ended, unit, fields, added"
    for number, row in (rows or ROWS).items():
        values = ", ".join(map(quoted, (number, *row, UNIT, '{"year": 24}', 1764454000)))
        change(bench, f"insert into bench_orders ({names}) values ({values})")
    change(bench, "update bench_store set following = 50")


def numbers(lines):
    """Give the numbers of the orders of some lines."""
    return [int(line.split()[1]) for line in lines]


def records(text):
    """Read a table as RFC 4180 has it: each record ends with CR LF, and a cell with such in it stands in quotes."""
    want((text[-2:], re.sub('"[^"]*"', "", text).replace("\r\n", "").count("\n")), ("\r\n", 0))
    rows = list(csv.reader(io.StringIO(text, newline=""), strict=True))
    want({len(row) for row in rows}, {HEADER.count(",") + 1})
    return rows


def table(bench, *words, zone=BERLIN):
    """Give the records of a table of orders."""
    ended = subprocess.run(bench.words("orders", "--csv", *words), capture_output=True, check=True,
                           env={**os.environ, "TZ": zone})
    return records(ended.stdout.decode())


def orders_are_chosen(bench):
    """Each option chooses, as lines and as a table, in local time."""
    fill(bench)
    for words, wanted in CHOSEN:
        lines = bench.does("orders", *words, env={**os.environ, "TZ": BERLIN})
        want((words, numbers(lines)), (words, wanted))
        want((words, [int(row[0]) for row in table(bench, *words)[1:]]), (words, wanted))
    want(bench.does("orders")[1:5:3], ["order 2 bus bus1 unit 5 ended: kept 3 Silent (was 71)",
                                       "order 5 bus bus1 unit 5 ended: kept 0 Done (was 71, repeats 2)"])
    for words, told in WRONG:
        ended = bench.give("orders", *words)
        want((words, ended.status, ended.output, ended.told[:len(told) + 7]), (words, 1, "", f"error: {told}"))


def a_table_of_orders(bench):
    """The table has all that is known, moments in local time, and texts that no spreadsheet takes for formulas."""
    fill(bench)
    rows = table(bench)
    want(",".join(rows[0]), HEADER)
    want(rows[2], ["2", "bus1", "71", "", "5", "ended", "Silent", "kept 3 Silent", "", "2025-11-29 23:06:40", "",
                   "2025-11-30 00:00:00", "0", "", "", "", "", "24", *11 * [""]])
    want(rows[5][:8], ["5", "bus1", "71", "2", "5", "ended", "Done", "kept 0 Done"])
    want(rows[6][5:12], ["added", "", "", "", "2025-11-29 23:06:40", "", ""])
    want(table(bench, "--bus", "bus2", zone="UTC")[1][11], "2025-11-30 13:59:59")
    want(table(bench, "--reference", "none"), [HEADER.split(",")])
    fill(bench, {20 + at: ("bus1", text, None, None, "cancelled", None, text, 3) for at, text in enumerate(TEXTS)})
    rows = table(bench, "--state", "cancelled")[1:]
    want([(row[2], row[7]) for row in rows], [(text, text) for text in TEXTS.values()])
    # One apostrophe less is the text again.
    want([re.sub("^'", "", row[2]) for row in rows], list(TEXTS))
    fields = {"gtin": None, "colour": "=1+1", "luminaire": "A, \"B\"", "cct": 3000}
    change(bench, f"update bench_orders set fields = {quoted(json.dumps(fields))} where number = 20")
    change(bench, "update bench_orders set fields = 'nothing' where number = 21")
    rows = table(bench, "--state", "cancelled")
    known = {"gtin": "null", "cct": "3000", "colour": "'=1+1", "luminaire": 'A, "B"'}
    want(rows[1][15:], [known.get(it["key"], "") for it in FIELDS])
    want(rows[2][15:], len(FIELDS) * [""])
    with open("/dev/full", "wb") as full:
        ended = subprocess.run(bench.words("orders", "--csv"), stdout=full, stderr=subprocess.PIPE, check=False)
    want((ended.returncode, ended.stderr), (2, b"error: the output can't be written: No space left on device\n"))


def a_silent_order(bench, **more):
    """Have an order that ends as Silent, since there is no such unit."""
    want(add(bench, {"order": 70, "unit": ABSENT, "gtin": "96385074", **more}).status, 0)
    want(bench.run(adapter=units(UNIT)), 0)
    want(bench.does("orders"), [f"order 1 bus bus1 unit {ABSENT} ended: kept 3 Silent (was 70)"])


def an_order_again(bench):
    """An order that came to no good end is repeated, once, and its repeat in turn; all have the ERP's number."""
    a_silent_order(bench)
    want(bench.does("again", "1"), ["order 2 repeats 1"])
    want(bench.does("again", "1", "1"), ["order 2 repeats 1 known"])
    want(bench.give("again", "2")[::2],
         (1, "error: order 2 hasn't ended, so it isn't repeated: wait for its end, or cancel it\n"))
    want(bench.does("orders")[1], f"order 2 bus bus1 unit {ABSENT} added (was 70, repeats 1)")
    want(bench.run(adapter=units(UNIT)), 0)
    want(bench.give("again", "1")[::2],
         (1, "error: order 1 was repeated by order 2, which has ended: kept 3 Silent: `again 2` repeats that one\n"))
    last = bench.does("again", "2")
    assert re.fullmatch("order [0-9]+ repeats 2", last[0]), last
    number = numbers(last)[0]
    want(bench.run(adapter=units(UNIT, ABSENT)), 0)
    want(bench.does("orders", "--reference", "70", "--end", "Done"),
         [f"order {number} bus bus1 unit {ABSENT} ended: kept 0 Done (was 70, repeats 2)"])
    want(bench.give("again", "2").told,
         f"error: order 2 was repeated by order {number}, which has ended: kept 0 Done\n")
    want(bench.give("again", str(number)).told,
         f"error: order {number} is done, so it isn't repeated: if its label tore, `labels --again {number}` prints it"
         " once more; for a luminaire without a label add an order of its own\n")
    want([json.loads(line)["reference"] for line in bench.does("labels")], ["70"])
    # The number stays that of the first one, where it comes from.
    want(add(bench, {"order": 70, "unit": ABSENT, "gtin": "96385074"}).lines(), ["item 1 order 1 known",
                                                                                "added 0 known 1"])
    rows = bench.rows("select 'n' || reference, repeats, 'n' || repeated_reference, 'n' || gtin, expected, fields"
                      " from bench_orders order by number")
    contents = ("n00000096385074", 49, '{"gtin":"96385074"}')
    want(rows, [("n70", None, None, *contents), (None, 1, "n70", *contents), (None, 2, "n70", *contents)])
    with Page(bench) as page:
        text = text_of(page.get(f"?number={number}"))
        for words in ("Reference 70 ", "Repeats 2 ", "Plan short "):
            assert words in text, (words, text)


def several_again(bench):
    """All are repeated or none, whatever they ended as; none for another luminaire than one that waits at its unit."""
    a, b = "00000000000000A1", "00000000000000B2"
    want(add(bench, identified(a, ABSENT), {"unit": UNIT, "year": 1}, {"unit": 7, "year": 2}).status, 0)
    want(bench.does("cancel", "3"), ["order 3 cancelled"])
    want(bench.run(adapter=units(UNIT)), 0)
    for words, told in ((("1", "2"), "order 2 is done, so it isn't repeated: "), (("1", "9"), "there is no order 9"),
                        (("1", "x"), "argument N: 'x' is no whole number"), ((), "the following arguments are requ")):
        ended = bench.give("again", *words)
        want((words, ended.status, ended.output, ended.told[:len(told) + 7]), (words, 1, "", f"error: {told}"))
    want(len(bench.states()), 3)
    want(add(bench, identified(b, ABSENT)).lines()[0], "item 1 order 4")
    ended = bench.give("again", "3", "1")
    want((ended.status, ended.output, ended.told),
         (1, "", f"error: order 1: unit {ABSENT} would get identification {a}, and order 4, which waits for it, {b}:"
          " where both are for one luminaire, --same-luminaire says so; else add this once that one has ended and the"
          " next luminaire is there\n"))
    want(len(bench.states()), 4)
    want(bench.does("again", "3", "1", "--same-luminaire"), ["order 5 repeats 3", "order 6 repeats 1"])
    # Those of other programs: `check` has the last word.
    change(bench, "insert into bench_orders (number, bus, unit, fields, state, told, added, ended) values"
           " (30, 'bus1', 5, '{\"year\": 100}', 'refused', 'item 1 fault 2 Value', 1, 2),"
           " (31, 'bus1', 5, '[]', 'refused', 'no', 1, 2), (32, 'bus1', 5, '{\"year\": 3}', 'reused', 'no', 1, 2)")
    change(bench, "update bench_store set following = 33")
    for number, told in ((30, "item 1 order 30: year: "), (31, "the fields are no object of JSON")):
        ended = bench.give("again", "32", str(number))
        want((number, ended.status, ended.told[:len(told) + 7]), (number, 1, f"error: {told}"))
    want(bench.does("again", "32"), ["order 33 repeats 32"])


def again_and_kills(bench):
    """Behind a kill there is all of a repeat or nothing, and the same command says which; many at once make one."""
    a_silent_order(bench)
    want(bench.give("again", "1", crash=("commit", "1", "before"))[:2], (-signal.SIGKILL, ""))
    want(bench.states(), {1: "ended"})
    want(bench.give("again", "1", crash=("commit", "1", "behind"))[:2], (-signal.SIGKILL, ""))
    want(bench.states(), {1: "ended", 2: "added"})
    want(bench.does("again", "1"), ["order 2 repeats 1 known"])
    want(bench.does("cancel", "2"), ["order 2 cancelled"])
    many = [subprocess.Popen(bench.words("again", "2"), cwd=bench.folder, stdout=subprocess.PIPE, text=True)
            for _ in range(5)]
    told = [process.communicate()[0].split() for process in many]
    want(([process.returncode for process in many], {words[1] for words in told if words[2:4] == ["repeats", "2"]}),
         (5 * [0], {told[0][1]}))
    want((sorted(words[4:] for words in told), len(bench.states())), ([[], *4 * [["known"]]], 3))


def run(bench, *options, adapter=None, crash=()):
    """Run the process of the bus with options until no order is left, or it crashes; give its status."""
    return bench.start("bus1", "--until-empty", *options, adapter=adapter or units(UNIT), crash=crash).wait(120)


def plans(bench):
    """Give the plan of each order, how many frames it took, and how many were expected."""
    return bench.rows("select plan, frames, expected from bench_orders order by number")


def the_short_plan(bench):
    """Orders are carried out by the plan of `run`, and the store says by which."""
    gtin = {"unit": UNIT, "gtin": "96385074"}
    for options in (), ("--checked-plan",), ("--short-plan",):
        want(add(bench, gtin).status, 0)
        want(run(bench, *options), 0)
    want(plans(bench), [("short", 49, 49), ("checked", 112, 112), ("short", 49, 49)])
    want([row[6:9] for row in table(bench)[1:]], [["Done", "kept 0 Done", plan] for plan in
                                                  ("short", "checked", "short")])
    # A year; neighbours in one row and in several; three runs; all fields.
    orders = [{"unit": UNIT, **order} for order in (
        {"year": 24}, {"identification": 16 * "A", "gtin": "96385074"}, {"colour": "A"},
        {"year": 24, "colour": "A"}, FULL)]
    want(add(bench, *orders, options=["--same-luminaire"]).status, 0)
    want(run(bench), 0)
    want(plans(bench)[3:], [("short", frames, frames) for frames in (44, 81, 142, 153, 536)])
    want(add(bench, gtin).status, 0)
    want(bench.rows("select number, plan from bench_orders where state = 'added'"), [(9, None)])
    want(len(bench.does("labels")), 8)


def another_plan_goes_on(bench):
    """An order that a kill has stopped is ended by the plan of the next drive; one whose end was kept, by its own."""
    want(add(bench, {"unit": UNIT, "gtin": "96385074"}).status, 0)
    process = bench.start("bus1", "--checked-plan", adapter=units(UNIT, frame_time=SLOW))
    wait_for(lambda: bench.states()[1] == "taken")
    want(bench.rows("select plan from bench_orders"), [("checked",)])
    for pid in processes_of(process):
        os.kill(pid, signal.SIGKILL)
    process.wait()
    want(run(bench), 0)
    want(bench.rows("select plan, code from bench_orders"), [("short", 0)])
    # It is killed as it keeps the end, which the journal has.
    want(add(bench, {"unit": UNIT, "gtin": "4006381333931"}).status, 0)
    want(run(bench, "--checked-plan", crash=("label", "1", "before")), -signal.SIGKILL)
    want(bench.rows("select plan, code from bench_orders where number = 2"), [("checked", None)])
    want(run(bench), 0)
    want(bench.rows("select plan, code, sends from bench_orders where number = 2"), [("checked", 0, 2)])
    want(len(bench.does("labels")), 2)


def a_plan_that_nobody_knows(bench):
    """Of an order that an older store has no end of, the journal alone knows the end, and nobody the plan."""
    want(add(bench, {"unit": UNIT, "year": 9}).status, 0)
    shutil.copy(bench.store, bench.folder / "older")
    want(run(bench), 0)
    for name in ("orders.db-wal", "orders.db-shm"):
        (bench.folder / name).unlink(missing_ok=True)
    shutil.copy(bench.folder / "older", bench.store)
    # The moment of the submission is another one.
    change(bench, "update bench_orders set sent = 7, state = 'sent', plan = 'checked'")
    want(run(bench), 0)
    want(bench.rows("select told, plan from bench_orders"), [("kept 0 Done, known before", None)])


def a_store_of_version_2(bench):
    """Orders that a line computer without plans sent used the checked one, and those at work go on."""
    want(add(bench, *({"unit": UNIT, "year": year} for year in (1, 2, 3))).status, 0)
    want(add(bench, {"order": 70, "unit": ABSENT, "year": 4}, {"unit": UNIT, "year": 5}).status, 0)
    process = bench.start("bus1", "--checked-plan", adapter=units(UNIT, frame_time=SLOW))
    wait_for(lambda: bench.states()[2] == "taken")
    want(stop(process), 0)
    change(bench, "update bench_orders set told = 'kept 0 Done, known before' where number = 1")
    for statement in TO_VERSION_2:
        change(bench, statement)
    want(bench.give("again", "1")[::2],
         (1, "error: the store has version 2, and this line computer has 3: `init` brings it up\n"))
    want(bench.does("init"), ["store of version 3"])
    want(bench.rows("select number, plan from bench_orders order by number"),
         [(1, None), (2, "checked"), (3, None), (4, None), (5, None)])
    want(run(bench), 0)
    want(bench.rows("select number, plan from bench_orders order by number"),
         [(1, None), (2, "short"), (3, "short"), (4, "short"), (5, "short")])
    want(bench.does("again", "4"), ["order 6 repeats 4"])
    want(bench.does("orders", "--reference", "70")[1], f"order 6 bus bus1 unit {ABSENT} added (was 70, repeats 4)")


LISTS = (orders_are_chosen, a_table_of_orders, an_order_again, several_again, again_and_kills, the_short_plan,
         another_plan_goes_on, a_plan_that_nobody_knows, a_store_of_version_2)
BUSES = {orders_are_chosen: ("bus1", "bus2"), a_table_of_orders: ("bus1", "bus2")}
# This one copies a file of SQLite.
ONLY_SQLITE = (a_plan_that_nobody_knows,)


class ListingTest(BenchTest):
    """Lists, repeats and plans over SQLite."""


class PostgresqlListingTest(BenchTest):
    """The same over PostgreSQL, in a database for each: half of them in one server."""

    @in_cases(SHARES)
    def test_lists(self, case):
        with Server(self.folder) as server:
            for at, listed in enumerate([it for it in LISTS if it not in ONLY_SQLITE][case::SHARES]):
                name = f"list_{at}"
                subprocess.run(["psql", "-X", "-q", "-c", f"create database {name}", server.url], check=True)
                (self.folder / name).mkdir()
                url = server.url.replace("/postgres?", f"/{name}?")
                listed(Bench(self.folder / name, url, BUSES.get(listed, ("bus1",))))


def over_sqlite(listed):
    """Make a test of a list."""
    return lambda test: listed(Bench(test.folder, buses=BUSES.get(listed, ("bus1",))))


for it in LISTS:
    setattr(ListingTest, f"test_{it.__name__}", over_sqlite(it))
