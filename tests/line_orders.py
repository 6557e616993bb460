"""Tests of the line computer's store and its commands: adding, numbers, mistakes, and versions of the store."""

import json
import os
import shutil
import sqlite3
import subprocess

from base import BenchTest, settings, want
from drive_desk import NOBODY
from driven import ROOT
from line_bench import PROGRAM, Bench, Server, judge

# Orders to add, with options, and the result: the output of `add`, and how the orders then stand in the store.
GOOD = {
    "JSON": ((), b'[{"unit":5,"year":24},{"unit":6,"gtin":"4006381333931"}]',
             ["item 1 order 1", "item 2 order 2", "added 2 known 0"],
             [(1, None, 5, '{"year":24}', None), (2, None, 6, '{"gtin":"4006381333931"}', "04006381333931")]),
    "JSON with numbers": ((), b'[{"order":70,"unit":5,"year":24},{"order":70,"unit":5,"year":24}]',
                          ["item 1 order 1", "item 2 order 1 known", "added 1 known 1"],
                          [(1, "70", 5, '{"year":24}', None)]),
    "a table": ((), b"unit;gtin;colour\n5;96385074;RAL 9016\n6;;null\n",
                ["item 1 order 1", "item 2 order 2", "added 2 known 0"],
                [(1, None, 5, '{"colour":"RAL 9016","gtin":"96385074"}', "00000096385074"),
                 (2, None, 6, '{"colour":null}', None)]),
    "a table with numbers": ((), b"order,unit,year\n18446744073709551615,5,24\n", ["item 1 order 1", "added 1 known 0"],
                             [(1, "18446744073709551615", 5, '{"year":24}', None)]),
    "a table in Latin-1": (("--latin-1",), b"unit,colour\n5,blue\n", ["item 1 order 1", "added 1 known 0"],
                           [(1, None, 5, '{"colour":"blue"}', None)]),
    "JSON with a byte order mark": ((), b"\xef\xbb\xbf\r\n" + b'[{"unit":5,"year":24}]',
                                    ["item 1 order 1", "added 1 known 0"], [(1, None, 5, '{"year":24}', None)]),
    "a table whose separator is named": ((), b"sep=;\r\nunit;year\r\n5;24\r\n", ["item 1 order 1", "added 1 known 0"],
                                         [(1, None, 5, '{"year":24}', None)]),
    "an unknown GTIN": ((), b'[{"unit":5,"gtin":null}]', ["item 1 order 1", "added 1 known 0"],
                        [(1, None, 5, '{"gtin":null}', None)]),
}
# Orders that are refused: the first line of `add` on standard output and on standard error; then nothing is added.
WRONG = {
    "a unit out of range": (b'[{"unit":5,"year":24},{"unit":64,"year":24}]', "item 2 fault 1 Unit",
                            "error: item 2: unit: "),
    "a wrong GTIN": (b'[{"unit":5,"gtin":"4006381333932"}]', "item 1 fault 4 Gtin", "error: item 1: gtin: "),
    "a key that isn't known": (b'[{"unit":5,"yaer":24}]', "item 1 fault 10 Key", "error: item 1: yaer: "),
    "no field": (b'[{"unit":5}]', "item 1 fault 8 Empty", "error: item 1: "),
    "no unit": (b'[{"year":5}]', "item 1 fault 9 Shape", "error: item 1: "),
    "a number that is none": (b'[{"order":-1,"unit":5,"year":2}]', "item 1 fault 9 Shape", "error: item 1: order: "),
    "one order": (b'{"unit":5,"year":24}', "fault 12 Document", "error: the input is "),
    "a list of numbers": (b"[1]", "item 1 fault 9 Shape", "error: item 1: "),
    "no JSON": (b'[{"unit":5,}]', "fault 11 Json", "error: line 1 column 12: "),
    "an infinite number": (b'[{"unit":5,"year":1e999}]', "fault 11 Json", "error: line 1 column "),
    "JSON lines": (b'{"unit":5,"year":24}\n{"unit":6,"year":24}\n', "fault 11 Json", "error: line 2 column 1: "),
    "no orders": (b"[]", None, "error: the file has no orders"),
    "an empty file": (b"", None, "error: line 1: the table is empty"),
    "a table without units": (b"gtin\n96385074\n", None, "error: line 1: unit: the key is missing"),
    "a table with a wrong cell": (b"unit,year\n5,x\n", None, 'error: line 2: year: the cell "x"'),
    "a workbook": (b"PK\x03\x04", None, "error: line 1: the file is a workbook"),
    "one number for two orders": (b'[{"order":7,"unit":5,"year":1},{"order":7,"unit":5,"year":2}]', None,
                                  "error: item 2 order 7: the number of order "),
}


class OrdersTest(BenchTest):
    """Orders, their numbers and their states."""

    def test_orders_are_added(self):
        for at, (name, (options, given, lines, rows)) in enumerate(GOOD.items()):
            (self.folder / str(at)).mkdir()
            bench = Bench(self.folder / str(at))
            self.assertEqual((name, bench.does("add", *options, "-", given=given)), (name, lines))
            stored = bench.rows("select number, reference, unit, fields, gtin from bench_orders order by number")
            self.assertEqual((name, stored), (name, rows))
            path = self.folder / str(at) / "given"
            path.write_bytes(given)
            again = bench.does("add", *options, "given")
            self.assertEqual((name, again[-1]),
                             (name, lines[-1] if rows[0][1] is None else f"added 0 known {len(lines) - 1}"))

    def test_wrong_orders_are_refused_as_a_whole(self):
        bench = Bench(self.folder)
        for name, (given, line, told) in WRONG.items():
            ended = bench.give("add", "-", given=given)
            self.assertEqual((name, ended.status, (ended.lines() or [None])[0], ended.told[:len(told)]),
                             (name, 1, line, told))
        self.assertEqual(bench.states(), {})
        # No number was used up that anybody saw.
        self.assertEqual(bench.does("add", "-", given=b'[{"unit":5,"year":24}]')[-1], "added 1 known 0")

    def test_an_order_that_is_added_again_is_one(self):
        bench = Bench(self.folder, buses=("bus1", "bus2"))
        given = b'[{"order":1,"unit":5,"year":24},{"order":2,"unit":60,"year":25}]'
        self.assertEqual(bench.does("add", "--bus", "bus1", "-", given=given)[-1], "added 2 known 0")
        more = b'[{"order":2,"unit":60,"year":25},{"order":3,"unit":60,"year":26}]'
        self.assertEqual(bench.does("add", "--bus", "bus1", "-", given=more), ["item 1 order 2 known", "item 2 order 4",
                                                                               "added 1 known 1"])
        self.assertEqual(bench.does("add", "--bus", "bus2", "-", given=given)[-1], "added 2 known 0")
        another = b'[{"order":9,"unit":5,"year":24},{"order":2,"unit":5,"year":9}]'
        other = bench.give("add", "--bus", "bus1", "-", given=another)
        self.assertEqual((other.status, other.told),
                         (1, "error: item 2 order 2: the number of order 2 of this store, which is another one\n"))
        self.assertEqual(len(bench.states()), 5)

    def test_no_number_is_given_twice(self):
        bench = Bench(self.folder)
        adders = [subprocess.Popen(bench.words("add", "-"), cwd=self.folder, stdin=subprocess.PIPE,
                                   stdout=subprocess.PIPE) for _ in range(6)]
        for adder in adders:
            adder.stdin.write(json.dumps([{"unit": 5, "year": 24}] * 30).encode())
            adder.stdin.close()
        lines = [line for adder in adders for line in adder.stdout.read().decode().splitlines()]
        self.assertEqual([adder.wait() for adder in adders], [0] * 6)
        numbers = [int(line.split()[3]) for line in lines if line.startswith("item")]
        self.assertEqual(sorted(numbers), list(range(1, 181)))
        with sqlite3.connect(bench.store) as connection:
            connection.execute("delete from bench_orders")
        connection.close()
        self.assertEqual(bench.does("add", "-", given=b'[{"unit":5,"year":24}]')[0], "item 1 order 181")
        self.assertEqual(bench.does("init", "--first", "7"), ["store of version 3"])
        self.assertEqual(bench.does("init", "--first", "1000"), ["store of version 3"])
        self.assertEqual(bench.does("add", "-", given=b'[{"unit":5,"year":24}]')[0], "item 1 order 1000")
        bench.does("init", "--first", str(2**53 - 2))
        self.assertEqual(bench.give("add", "-", given=b'[{"unit":5,"year":24},{"unit":5,"year":24}]').status, 1)
        self.assertEqual(bench.does("add", "-", given=b'[{"unit":5,"year":24}]')[0], f"item 1 order {2**53 - 2}")

    def test_orders_status_and_cancelling(self):
        bench = Bench(self.folder)
        bench.does("add", "-", given=b'[{"order":4,"unit":5,"year":24},{"unit":6,"year":24}]')
        self.assertEqual(bench.does("orders"),
                         ["order 1 bus bus1 unit 5 added (was 4)", "order 2 bus bus1 unit 6 added"])
        self.assertEqual(bench.does("cancel", "1"), ["order 1 cancelled"])
        self.assertEqual(bench.does("orders", "--state", "cancelled"), ["order 1 bus bus1 unit 5 cancelled (was 4)"])
        self.assertEqual(bench.does("status"),
                         ["bus bus1 not running",
                          "orders added 1 sent 0 taken 0 blocked 0 full 0 ended 0 refused 0 reused 0 cancelled 1",
                          "done 0", "labels left 0"])
        # One that was cancelled is known all the same.
        self.assertEqual(bench.does("add", "-", given=b'[{"order":4,"unit":5,"year":24}]')[-1], "added 0 known 1")
        self.assertEqual(bench.run(), 0)
        self.assertEqual(bench.does("orders")[1], "order 2 bus bus1 unit 6 ended: kept 4 Doubt")


def mistakes(folder):
    """Give wrong commands, each with its status and the first line that it tells."""
    adapter = ("--", "true")
    url = "postgresql://nobody@127.0.0.1:1/none"
    missing = str(folder / "missing.db")
    return [
        (("frobnicate",), 1, "error: argument COMMAND: invalid choice: 'frobnicate'"),
        ((), 1, "error: the following arguments are required: COMMAND"),
        (("add",), 1, "error: the following arguments are required: FILE"),
        (("add", "--bsu", "bus1", "-"), 1, "error: unrecognized arguments: --bsu"),
        (("add", "--bus", "bus9", "-"), 1, "error: there is no bus bus9: `init --bus bus9` makes it"),
        (("add", str(folder / "none.json")), 2, f"error: {folder / 'none.json'}: No such file or directory"),
        (("add", str(folder)), 2, f"error: {folder}: Is a directory"),
        (("add", "--program", "/none", "-"), 2, "error: dali_bench can't be started: /none: No such file or directory"),
        (("add", "--program", "/bin/false", "-"), 2, "error: dali_bench check ended with status 1: "),
        (("run", "--bus", "bus9", *adapter), 1, "error: there is no bus bus9: `init --bus bus9` makes it"),
        (("run", "--bus", "bus1"), 1, "error: `run` and `station` take the adapter and its words behind --"),
        (("run", *adapter), 1, "error: the following arguments are required: --bus"),
        (("run", "--bus", "bus1", "--longest-wait", "-3", *adapter), 1, "error: argument --longest-wait: "),
        (("run", "--bus", "bus1", "--folder", "/proc/none", *adapter), 2, "error: /proc/none: "),
        (("status", "--", "true"), 1, "error: `run` and `station` take the adapter and its words behind --"),
        (("status", "--store", missing), 2, f"error: there is no store: {missing}: `init` makes one; --store, or"),
        (("status", "--store", "missing.db"), 2, f"error: there is no store: {missing}: `init` makes one; --store"),
        (("status", "--store", "text"), 2, f"error: the store can't be used: file is not a database: {folder / 'text'}:"
                                           " this file is something else: --store names the store"),
        (("run", "--bus", "bus1", "adapters/none.py"), 1,
         "error: unrecognized arguments: adapters/none.py: put -- before the adapter"),
        (("run", "--bus", "bus1", "--until-empty", "--", "adapters/none.py", "--x"), 2,
         f"error: the adapter isn't there: {folder / 'adapters/none.py'}"),
        (("run", "--bus", "bus1", "--", "no_adapter"), 2, "error: the adapter isn't there: no_adapter, on the path"),
        (("run", "--bus", "bus1", "--", "./text"), 2,
         f"error: the adapter may not be run: `chmod +x` lets it: {folder / 'text'}"),
        (("cancel",), 1, "error: the following arguments are required: N"),
        (("labels", "--take", "--again", "1"), 1, "error: argument --again: not allowed with argument --take"),
        (("labels", "--printer", "127.0.0.1:9100"), 1, "error: one command, or --to, stands beside"),
        (("labels", "--take", "--printer", "9100"), 1, "error: --to takes HOST:PORT, as 192.0.2.7:9100, and not 9100"),
        (("status", "--store", str(folder / "empty")), 2, "error: there is no store in this database: `init` makes"),
        (("status", "--store", "mysql://host/db"), 1, "error: a store is a file, or postgresql://..., and not mysql"),
        (("init", "--store", "/none/orders.db"), 2, "error: the store can't be used: /none/orders.db: No such file or"),
        (("init", "--bus", "../bus"), 1, "error: the name of a bus has 1 to 32 letters, digits, - and _: ../bus"),
        (("init", "--first", "x"), 1, "error: argument --first: 'x' is no whole number up to 9007199254740991"),
        (("orders", "--state", "done"), 1, "error: argument --state: invalid choice: 'done'"),
        (("cancel", "9"), 1, "error: there is no order 9"),
        (("cancel", "x"), 1, "error: argument N: 'x' is no whole number up to 9007199254740991"),
        (("retire", "--bus", "bus9"), 1, "error: there is no bus bus9: `init --bus bus9` makes it"),
        (("page", "--listen", "8080"), 1, "error: --listen takes HOST:PORT, as 127.0.0.1:8080, and not 8080"),
        (("page", "--listen", ":8080"), 1, "error: --listen takes HOST:PORT"),
        (("page", "--listen", "127.0.0.1:x"), 1, "error: --listen takes HOST:PORT, as 127.0.0.1:8080"),
        (("page", "--listen", "192.0.2.1:0"), 1, "error: --listen 192.0.2.1:0 is open to other computers, and"),
        (("page", "--listen", "192.0.2.1:0", "--anyone-may-read"), 2, "error: 192.0.2.1:0: "),
        (("status", "--store", url), 2, "error: "),
    ]


class MistakesTest(BenchTest):
    """Mistakes, and stores that can't be used."""

    def test_mistakes_are_told(self):
        bench = Bench(self.folder)
        (self.folder / "text").write_text("no database, and longer than the header of one" * 40)
        (self.folder / "empty").write_text("")
        for words, status, told in mistakes(self.folder):
            command = [bench.python, PROGRAM, *words]
            if "--store" not in words and words and words[0] not in ("frobnicate",):
                command[3:3] = ["--store", bench.store]
            if words[:1] in (("add",), ("run",)) and "--program" not in words:
                command[3:3] = ["--program", settings["program"]]
            ended = subprocess.run(command, cwd=self.folder, input=b'[{"unit":5,"year":24}]', capture_output=True,
                                   check=False)
            found = ended.stderr.decode()
            self.assertEqual((words, ended.returncode, found[:len(told)]), (words, status, told))
            self.assertEqual((words, [line for line in found.splitlines() if "Traceback" in line]), (words, []))
        self.assertEqual(bench.states(), {})

    def test_a_store_of_another_version_is_told(self):
        bench = Bench(self.folder)
        bench.does("add", "-", given=b'[{"unit":5,"year":24}]')
        for version, what in ((4, "use the line computer that made it"), (0, "")):
            with sqlite3.connect(bench.store) as connection:
                connection.execute("update bench_store set version = ?", (version,))
            connection.close()
            for command in (("status",), ("add", "-"), ("labels",), ("cancel", "1")):
                ended = bench.give(*command, given=b'[{"unit":5,"year":24}]')
                wanted = f"error: the store has version {version}, and this line computer has 3: {what}"
                if version:
                    self.assertEqual((command, ended.status, ended.told), (command, 1, wanted + "\n"))
                else:
                    self.assertEqual((command, ended.status), (command, 2))


# A line computer of a later version, whose tables have a column more.
LATER = f"""
import sys
sys.dont_write_bytecode = True
sys.path.insert(0, {str(ROOT / 'tools')!r})
from line_computer import commands, schema
commands.MIGRATIONS = schema.MIGRATIONS = (*schema.MIGRATIONS, "alter table bench_orders add column remark text;\\n")
sys.exit(commands.main(sys.argv[1:]))
"""


def judge_migration(bench):
    """Bring a store up by a later version, and raise unless all of it is there, and only once no bus is at work."""
    bench.add([(5, 24, 1)])
    bench.run()

    def later(*words):
        ended = subprocess.run([bench.python, "-c", LATER, words[0], "--store", bench.store, *words[1:]],
                               cwd=bench.folder, capture_output=True, text=True, check=False)
        return ended.returncode, ended.stdout, ended.stderr

    older = "error: the store has version 3, and this line computer has 4: `init` brings it up\n"
    want(later("status"), (1, "", older))
    process = bench.start()
    while bench.rows("select state from bench_states where bus = 'bus1'")[0][0] != "ready":
        pass
    want(later("init"), (1, "", "error: the bus bus1 is at work: end its `run` first\n"))
    process.terminate()
    process.wait()
    want(later("init"), (0, "store of version 4\n", ""))
    want(later("init"), (0, "store of version 4\n", ""))
    want(later("orders"), (0, "order 1 bus bus1 unit 5 ended: kept 0 Done\n", ""))
    want(bench.rows("select count(*), count(remark) from bench_orders"), [(1, 0)])
    want(bench.give("status")[::2], (1, "error: the store has version 4, and this line computer has 3: use the line"
                                     " computer that made it\n"))
    want(bench.give("init")[::2], (1, "error: the store has version 4, and this line computer has 3\n"))


class StoreTest(BenchTest):
    """Stores of an older version, of PostgreSQL, and without rights."""

    def test_a_store_is_brought_up(self):
        judge_migration(Bench(self.folder))

    def test_a_store_in_postgresql_is_brought_up(self):
        with Server(self.folder) as server:
            judge_migration(Bench(self.folder, server.url))

    def test_a_store_in_postgresql(self):
        with Server(self.folder) as server:
            bench = Bench(self.folder, server.url, ("bus1", "bus2"))
            for given, line in ((b'[{"order":1,"unit":5,"year":24},{"unit":60,"year":25}]', "added 2 known 0"),
                                (b'[{"order":1,"unit":5,"year":24}]', "added 0 known 1")):
                self.assertEqual(bench.does("add", "--bus", "bus1", "-", given=given)[-1], line)
            self.assertEqual(bench.does("cancel", "2"), ["order 2 cancelled"])
            self.assertEqual(bench.run(), 0)
            self.assertEqual(bench.does("orders"), ["order 1 bus bus1 unit 5 ended: kept 0 Done (was 1)",
                                                    "order 2 bus bus1 unit 60 cancelled"])
            self.assertEqual(len(bench.does("labels", "--take")), 1)
            self.assertEqual(bench.does("labels"), [])
            self.assertEqual(bench.does("retire", "--bus", "bus1"), ["retired bench_1.journal"])
            # A role without rights, one that isn't there, a database that isn't, a server that is gone.
            subprocess.run(["psql", "-X", "-q", "-c", "create role guest login", server.url], check=True)
            guest = server.url.replace("bench@", "guest@")
            for url, told in ((guest, "error: the store can't be used: permission denied for table bench_store"),
                              (server.url.replace("bench@", "none@"), "error: the store can't be used: "),
                              (server.url.replace("/postgres?", "/none?"), "error: the store can't be used: ")):
                ended = subprocess.run([bench.python, PROGRAM, "status", "--store", url], capture_output=True,
                                       text=True, check=False)
                self.assertEqual((url, ended.returncode, ended.stderr[:len(told)]), (url, 2, told))
            server.kill()
            ended = bench.give("status")
            self.assertEqual((ended.status, ended.told[:32]), (2, "error: the store can't be used: "))
            server.start()

    def test_no_right_to_a_store(self):
        if os.geteuid():
            return
        bench = Bench(self.folder)
        # A folder that anybody may enter, with a store that nobody else may read.
        self.folder.chmod(0o755)
        os.chmod(bench.store, 0o600)
        place = ROOT if os.access(ROOT, os.R_OK) else self.folder
        copy = self.folder / "copy"
        shutil.copytree(place / "tools", copy / "tools")
        shutil.copy(PROGRAM, copy / "line_computer")
        # A Python that anybody may run, and not one in somebody's home.
        ended = subprocess.run(["/usr/bin/env", "PATH=/usr/local/bin:/usr/bin:/bin", "python3",
                                copy / "line_computer", "status", "--store", bench.store], capture_output=True,
                               text=True, user=NOBODY, group=NOBODY, extra_groups=[], cwd="/", check=False)
        self.assertEqual((ended.returncode, ended.stderr),
                         (2, f"error: the store can't be used: unable to open database file: {bench.store}: this user"
                          " has to have the right to read and write it and its folder\n"))


class OutputsTest(BenchTest):
    """Labels, and what is printed."""

    def test_labels_that_can_not_be_written_are_not_taken(self):
        bench = Bench(self.folder)
        bench.add([(5, 24, 1), (60, 24, 2)])
        self.assertEqual(bench.run(), 0)
        with open("/dev/full", "wb") as full:
            ended = subprocess.run(bench.words("labels", "--take"), cwd=self.folder, stdout=full,
                                   stderr=subprocess.PIPE, text=True, check=False)
        self.assertEqual((ended.returncode, ended.stderr),
                         (2, "error: the output can't be written: No space left on device\n"))
        reader, writer = os.pipe()
        os.close(reader)
        ended = subprocess.run(bench.words("labels", "--take"), cwd=self.folder, stdout=writer, stderr=subprocess.PIPE,
                               text=True, check=False)
        os.close(writer)
        self.assertEqual((ended.returncode, ended.stderr, len(bench.does("labels"))), (2, "", 2))
        self.assertEqual((len(bench.does("labels", "--take")), bench.does("labels", "--take")), (2, []))
        judge(bench)

    def test_help_of_each_command(self):
        commands = ("init", "add", "run", "status", "orders", "again", "cancel", "labels", "retire", "page")
        ended = subprocess.run([PROGRAM, "--help"], capture_output=True, text=True, check=False)
        self.assertEqual((ended.returncode, ended.stderr), (0, ""))
        for command in commands:
            assert f"    {command} " in ended.stdout, command
            one = subprocess.run([PROGRAM, command, "--help"], capture_output=True, text=True, check=False)
            self.assertEqual((command, one.returncode, one.stderr, "--store" in one.stdout), (command, 0, "", True))
