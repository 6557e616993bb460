#!/usr/bin/env python3
"""Test tools/orders_from_csv: what it makes of tables, what it tells of wrong ones, and that `check` takes its orders.

    test_table.py [PROGRAM [FOLDER]]

PROGRAM and FOLDER are as of test_drive.py. The last line is `N passed, M failed`, and the status is 0 only where none
failed.
"""

import csv
import io
import json
import os
import random
import subprocess
import sys

sys.dont_write_bytecode = True

import beside  # noqa: E402
from base import BenchTest, settings, want  # noqa: E402
from cases import case_of  # noqa: E402
from driven import FIELDS, ROOT  # noqa: E402

TOOL = ROOT / "tools" / "orders_from_csv"
MARK = b"\xef\xbb\xbf"
GREATEST = 18446744073709551615
# The orders by hand, of a table each; of an option its word stands before the table.
GOOD = {
    "commas": (b"order,unit,gtin\n1,5,4006381333931\n",
               ['{"order":1,"unit":5,"gtin":"4006381333931"}']),
    "keys in another order": (b"gtin,unit,order\n4006381333931,5,1\n",
                              ['{"gtin":"4006381333931","unit":5,"order":1}']),
    "semicolons": (b"order;unit;luminaire\n1;5;Panel 600x600, 36 W\n",
                   ['{"order":1,"unit":5,"luminaire":"Panel 600x600, 36 W"}']),
    "the mark of UTF-8": (MARK + b"order,unit,year\n1,5,24\n", ['{"order":1,"unit":5,"year":24}']),
    "the mark, and a key in quotes": (MARK + b'"order";"unit";"year"\n1;5;24\n', ['{"order":1,"unit":5,"year":24}']),
    "CRLF": (b"order,unit,colour\r\n1,5,RAL 9016\r\n2,6,RAL 9005\r\n",
             ['{"order":1,"unit":5,"colour":"RAL 9016"}', '{"order":2,"unit":6,"colour":"RAL 9005"}']),
    "CR": (b"order,unit,colour\r1,5,a;b\r", ['{"order":1,"unit":5,"colour":"a;b"}']),
    "no line feed at the end": (b"order,unit,year\n1,5,24", ['{"order":1,"unit":5,"year":24}']),
    "a GTIN with leading zeros": (b"order,unit,gtin\n1,5,00012345678905\n",
                                  ['{"order":1,"unit":5,"gtin":"00012345678905"}']),
    "texts that look like numbers": (b"order,unit,identification,colour,luminaire\n1,5,0000000000000001,9016,1e3\n",
                                     ['{"order":1,"unit":5,"identification":"0000000000000001","colour":"9016",'
                                      '"luminaire":"1e3"}']),
    "a text that looks like JSON": (b'order,unit,colour\n1,5,true\n2,5,"{""a"":1}"\n3,5,\\u0041\n',
                                    ['{"order":1,"unit":5,"colour":"true"}',
                                     '{"order":2,"unit":5,"colour":"{\\"a\\":1}"}',
                                     '{"order":3,"unit":5,"colour":"\\\\u0041"}']),
    "empty cells": (b'order,unit,gtin,year,colour\n1,5,,24,\n2,5,"",,"RAL 9016"\n',
                    ['{"order":1,"unit":5,"year":24}', '{"order":2,"unit":5,"colour":"RAL 9016"}']),
    "unknown": (b"order,unit,gtin,year,colour\n1,5,null,null,null\n",
                ['{"order":1,"unit":5,"gtin":null,"year":null,"colour":null}']),
    "texts that are nearly unknown": (b"order,unit,colour\n1,5,NULL\n2,5, null\n",
                                      ['{"order":1,"unit":5,"colour":"NULL"}',
                                       '{"order":2,"unit":5,"colour":" null"}']),
    "cells in quotes": (b'order,unit,colour,luminaire\n"1","5","a,b","a ""b"" c"\n',
                        ['{"order":1,"unit":5,"colour":"a,b","luminaire":"a \\"b\\" c"}']),
    "a quote within a cell": (b'order,unit,luminaire\n1,5,8" pipe\n',
                              ['{"order":1,"unit":5,"luminaire":"8\\" pipe"}']),
    "line feeds in a cell": (b'order,unit,luminaire\n1,5,"a\nb\r\nc"\n2,5,d\n',
                             ['{"order":1,"unit":5,"luminaire":"a\\nb\\r\\nc"}',
                              '{"order":2,"unit":5,"luminaire":"d"}']),
    "rows of empty cells": (b"order;unit;year\r\n1;5;24\r\n;;\r\n2;5;25\r\n;;\r\n;;;\r\n\r\n",
                            ['{"order":1,"unit":5,"year":24}', '{"order":2,"unit":5,"year":25}']),
    "empty lines in front": (b"\n\norder;unit;year\n1;5;24\n", ['{"order":1,"unit":5,"year":24}']),
    "blanks around keys and numbers": (b"order, unit ,year, colour\n 1 ,5, 24\t, RAL \n",
                                       ['{"order":1,"unit":5,"year":24,"colour":" RAL "}']),
    "blanks where a number is left out": (b"order,unit,year,week\n1,5, ,24\n", ['{"order":1,"unit":5,"week":24}']),
    "numbers over 2 to the 53": (b"order,unit,year\n9007199254740993,5,24\n18446744073709551615,5,25\n",
                                 ['{"order":9007199254740993,"unit":5,"year":24}',
                                  '{"order":18446744073709551615,"unit":5,"year":25}']),
    "zeros in front of numbers": (b"order,unit,year\n000,05,00\n0000000000000000000000000000007,5,07\n",
                                  ['{"order":0,"unit":5,"year":0}', '{"order":7,"unit":5,"year":7}']),
    "values out of range": (b"order,unit,year,gtin\n1,64,100,x\n",
                            ['{"order":1,"unit":64,"year":100,"gtin":"x"}']),
    "a number twice": (b"order,unit,year\n1,5,24\n1,6,24\n",
                       ['{"order":1,"unit":5,"year":24}', '{"order":1,"unit":6,"year":24}']),
    "other characters": ("order,unit,colour\n1,5,wei\u00df \U0001f4a1\n".encode(),
                         ['{"order":1,"unit":5,"colour":"wei\\u00df \\ud83d\\udca1"}']),
    "no orders": (b"order,unit,gtin\n", [""]),
    "a line that names the separator": (b"sep=;\r\norder;unit;colour\r\n1;5;a,b\r\n",
                                        ['{"order":1,"unit":5,"colour":"a,b"}']),
    "the same in quotes, behind the mark": (MARK + b'"SEP=,"\norder,unit,colour\n1,5,a;b\n',
                                            ['{"order":1,"unit":5,"colour":"a;b"}']),
}
NUMBERED = {
    "numbers from 7": (b"unit,gtin\n5,4006381333931\n;\n6,\n".replace(b";", b","),
                       ['{"order":7,"unit":5,"gtin":"4006381333931"}', '{"order":8,"unit":6}']),
    "none to number": (b"unit;year\n", [""]),
}
LATIN_1 = {
    "Latin-1": (b"order;unit;colour\n1;5;wei\xdf\n", ['{"order":1,"unit":5,"colour":"wei\\u00df"}']),
    "ASCII as Latin-1": (b"order;unit;colour\n1;5;RAL\n", ['{"order":1,"unit":5,"colour":"RAL"}']),
}
EMPTY = "line 1: the table is empty: its first line has the keys, as order,unit,gtin"
UTF_16 = "line 1: the file is in UTF-16, or is no text: it has to be saved as CSV in UTF-8"
WORKBOOK = "line 1: the file is a workbook, and no table: its sheet has to be saved as CSV in UTF-8"
TABS = "line 1: the cells stand between tabs: the table has to be saved as CSV, with commas or semicolons"
ORDER_MISSING = "line 1: order: the key is missing"
UNIT_MISSING = "line 1: unit: the key is missing"
WIDE = ": one with a separator in it stands in quotes"
IS_JSON = "line 1: this is JSON, and no table: `dali_bench check` and `drive` take it as it is"
QUOTES = "a quoted cell isn't closed, or has more behind its closing quote"
WHOLE = "and it is a whole number"
# Tables with the message for each, after the file's name.
BAD = (
    (b"", [EMPTY]),
    (MARK, [EMPTY]),
    (b"\r\n\r\n;;;\r\n", [EMPTY]),
    (b"order,unit,gtim\n1,5,x\n", ["line 1: gtim: no such key (gtin?)"]),
    (b"order,unit,GTIN\n1,5,x\n", ["line 1: GTIN: no such key (gtin?)"]),
    (b"order,unit,Min Voltage\n1,5,1\n", ["line 1: Min Voltage: no such key (min_voltage?)"]),
    (b"order,unit,color\n1,5,1\n", ["line 1: color: no such key (colour?)"]),
    (b"order,unit,xyz\n1,5,1\n", ["line 1: xyz: no such key"]),
    ("order,unit,l\u00e4nge\x1b[31m\n1,5,1\n".encode(), ["line 1: l\\u{e4}nge\\u{1b}[31m: no such key"]),
    (b"order,unit," + 41 * b"x" + b"\n1,5,1\n", [f"line 1: {40 * 'x'}...: no such key"]),
    (b"order,unit,year,year\n1,5,1,1\n", ["line 1: year: the key stands there twice"]),
    (b"order,unit,year,\n1,5,1,\n", ["line 1: column 4: there is no key"]),
    (b"unit,year\n5,24\n", [ORDER_MISSING]),
    (b"order,year\n1,24\n", [UNIT_MISSING]),
    (b"Order,unit,week,week\n1,5,x\n", ["line 1: Order: no such key (order?)",
                                       "line 1: week: the key stands there twice", ORDER_MISSING]),
    (b"1,5,4006381333931\n", ["line 1: 1: no such key", "line 1: 5: no such key", "line 1: 4006381333931: no such key",
                              ORDER_MISSING, UNIT_MISSING]),
    (b"order\tunit\n1\t5\n", [TABS]),
    (b"PK\x03\x04\x14\0\0\0", [WORKBOOK]),
    (b'[{"order": 1, "unit": 5, "year": 24}]', [IS_JSON]),
    (MARK + b'\r\n [{"order": "1"}]', [IS_JSON]),
    (b'{"order": 1, "unit": 5}\n{"order": 2, "unit": 5}\n', [IS_JSON]),
    (b"sep=;\norder;unit;yaer\n1;5;24\n", ["line 2: yaer: no such key (year?)"]),
    (b"sep=;\norder;unit;year\n1;5;x\n", [f'line 3: year: the cell "x", {WHOLE} or null']),
    (b"sep=|\norder|unit|year\n", ["line 1: sep=|: no such key", ORDER_MISSING, UNIT_MISSING]),
    (b"\xd0\xcf\x11\xe0\xa1\xb1", [WORKBOOK]),
    (b"order,unit;year\n1,5;24\n", ["line 1: order,unit: no such key", ORDER_MISSING, UNIT_MISSING]),
    (b"order,unit,year\n1,5\n2,5,24,\n3,5,24\n4\n", ["line 2: 2 cells, and the header has 3",
                                                    f"line 3: 4 cells, and the header has 3{WIDE}",
                                                    "line 5: 1 cell, and the header has 3"]),
    (b"order,unit,year\n1;5;24\n", ["line 2: 1 cell, and the header has 3"]),
    (b"order,unit,input_power\n1,5,12,5\n", [f"line 2: 4 cells, and the header has 3{WIDE}"]),
    (b"order;unit;input_power\n1;5;12,5\n", [f'line 2: input_power: the cell "12,5", {WHOLE} or null']),
    (b"order,unit,year\n,5,24\n1,,24\nnull,5,24\n", [f'line 2: order: the cell "", {WHOLE}',
                                                    f'line 3: unit: the cell "", {WHOLE}',
                                                    f'line 4: order: the cell "null", {WHOLE}']),
    (b"order,unit,year,week\n-1,+5,2.0,1e1\n", [f'line 2: order: the cell "-1", {WHOLE}',
                                               f'line 2: unit: the cell "+5", {WHOLE}',
                                               f'line 2: year: the cell "2.0", {WHOLE} or null',
                                               f'line 2: week: the cell "1e1", {WHOLE} or null']),
    (b"order,unit,year\n18446744073709551616,5,24\n1,5," + 41 * b"9" + b"\n",
     [f'line 2: order: the cell "18446744073709551616", {WHOLE}',
      f'line 3: year: the cell "{40 * "9"}...", {WHOLE} or null']),
    ("order,unit,year,week\n1,5,\u0662\u0664,2\u00b2\n".encode(),
     [f'line 2: year: the cell "\\u{{662}}\\u{{664}}", {WHOLE} or null',
      f'line 2: week: the cell "2\\u{{b2}}", {WHOLE} or null']),
    (b"order,unit,year\n1,5,NULL\n2,5,0x18\n3,5,1 000\n", [f'line 2: year: the cell "NULL", {WHOLE} or null',
                                                         f'line 3: year: the cell "0x18", {WHOLE} or null',
                                                         f'line 4: year: the cell "1 000", {WHOLE} or null']),
    (b'order,unit,luminaire,year\n1,5,"a\n\nb",24\n2,5,c,x\n', [f'line 5: year: the cell "x", {WHOLE} or null']),
    (b'order,unit,luminaire\n1,x,a\n2,5,"a\n3,5,b\n', [f'line 2: unit: the cell "x", {WHOLE}', f"line 3: {QUOTES}"]),
    (b'order,unit,luminaire\n1,5,"a"b\n', [f"line 2: {QUOTES}"]),
    (b'"order,unit,luminaire\n1,5,a\n', [f"line 1: {QUOTES}"]),
    (b"order,unit,colour\r\n1,5,a\r\n2,5,wei\xdf\r\n",
     ["line 3: the byte DF is no UTF-8: where the file is in Latin-1, --latin-1 says so"]),
    (b"\xff\xfeo\0r\0", [UTF_16]),
    (b"order,unit,colour\n1,5,a\0\n", [UTF_16]),
)


def run(words, given=b"", **streams):
    """Run the tool on words."""
    how = {"stdout": subprocess.PIPE, "stderr": subprocess.PIPE, "timeout": 60, **streams}
    return subprocess.run([TOOL, *words], input=given, **how)


class TableTest(BenchTest):
    """Tables with their orders, or with their mistakes."""

    def test_good(self):
        for options, cases in (((), GOOD), (("--latin-1",), LATIN_1), (("--from", "7"), NUMBERED)):
            for name, (table, orders) in cases.items():
                path = self.folder / "table.csv"
                path.write_bytes(table)
                wanted = ("[\n" + ",\n".join(orders) + "\n]\n").encode()
                for words, given in (([*options, path], b""), ([*options, "-"], table)):
                    ended = run(words, given)
                    self.assertEqual((name, ended.returncode, ended.stdout, ended.stderr), (name, 0, wanted, b""))
                json.loads(wanted)

    def test_bad(self):
        path = self.folder / "table.csv"
        for table, lines in BAD:
            path.write_bytes(table)
            ended = run([path])
            wanted = "".join(f"orders_from_csv: {path}: {line}\n" for line in lines)
            self.assertEqual((table, ended.returncode, ended.stdout, ended.stderr.decode()), (table, 1, b"", wanted))

    def test_bad_latin_1(self):
        ended = run(["--latin-1", "-"], MARK + b"order,unit,year\n1,5,24\n")
        wanted = b"orders_from_csv: -: line 1: the file begins with the mark of UTF-8, so it isn't in Latin-1\n"
        self.assertEqual((ended.returncode, ended.stdout, ended.stderr), (1, b"", wanted))

    def test_bad_numbers(self):
        column = "line 1: order: with --from the numbers aren't those of the table: take the column out"
        over = f"line 3: order: the number {GREATEST + 1} is over {GREATEST}"
        for first, table, line in (("7", b"order,unit\n1,5\n", column), (str(GREATEST), b"unit\n5\n6\n", over)):
            ended = run(["--from", first, "-"], table)
            wanted = f"orders_from_csv: -: {line}\n"
            self.assertEqual((ended.returncode, ended.stdout, ended.stderr.decode()), (1, b"", wanted))
        for first in ("", "-1", "x", "1.0", str(GREATEST + 1)):
            ended = run([f"--from={first}", "-"], b"unit\n5\n")
            self.assertEqual((first, ended.returncode, ended.stdout), (first, 2, b""))
            assert b"is no whole number up to" in ended.stderr, ended

    def test_many_bad_rows(self):
        ended = run(["-"], b"order,unit,year\n" + 1001 * b"1,5,x\n")
        lines = ended.stderr.decode().splitlines()
        self.assertEqual((ended.returncode, ended.stdout, len(lines)), (1, b"", 1001))
        self.assertEqual(lines[999], f'orders_from_csv: -: line 1001: year: the cell "x", {WHOLE} or null')
        self.assertEqual(lines[1000], "orders_from_csv: -: more is left out: these are the first 1000 lines")

    def test_odd_name(self):
        path = self.folder / "a\x1b[31m.csv"
        path.write_bytes(b"")
        ended = run([path])
        self.assertEqual((ended.returncode, ended.stderr.decode()),
                         (1, f"orders_from_csv: {self.folder}/a\\u{{1b}}[31m.csv: {EMPTY}\n"))

    def test_unread(self):
        for words, told in (([self.folder], f"{self.folder}: Is a directory"),
                            ([self.folder / "none.csv"], f"{self.folder}/none.csv: No such file or directory")):
            ended = run(words)
            self.assertEqual((ended.returncode, ended.stdout, ended.stderr.decode()),
                             (2, b"", f"orders_from_csv: {told}\n"))
        shut = subprocess.run(["sh", "-c", f"exec {TOOL} - <&-"], capture_output=True, timeout=60)
        self.assertEqual((shut.returncode, shut.stdout, shut.stderr),
                         (2, b"", b"orders_from_csv: -: Bad file descriptor\n"))

    def test_wrong_command_lines(self):
        for words in ([], ["a", "b"], ["--latin1", "a"], ["--latin", "a"], ["-x", "a"]):
            ended = run(words)
            self.assertEqual((words, ended.returncode, ended.stdout), (words, 2, b""))
            assert ended.stderr.startswith(b"usage: orders_from_csv "), ended
        ended = run(["--help"])
        assert ended.returncode == 0 and b"null" in ended.stdout and b"--latin-1" in ended.stdout, ended

    def test_failing_outputs(self):
        table = self.folder / "table.csv"
        table.write_bytes(b"order,unit,year\n1,5,24\n")
        for output, cause in ((">/dev/full", "No space left on device"), (">&-", "Bad file descriptor")):
            ended = subprocess.run(["sh", "-c", f"exec {TOOL} {table} {output}"], capture_output=True, timeout=60)
            told = f"orders_from_csv: the output can't be written: {cause}\n"
            self.assertEqual((ended.returncode, ended.stdout, ended.stderr.decode()), (2, b"", told))
        reader, writer = os.pipe()
        os.close(reader)
        ended = run([table], stdout=writer)
        os.close(writer)
        self.assertEqual((ended.returncode, ended.stderr),
                         (2, b"orders_from_csv: the output can't be written: Broken pipe\n"))
        table.write_bytes(b"order,unit,year\n1,5,x\n")
        for error in ("2>&-", "2>/dev/full"):
            ended = subprocess.run(["sh", "-c", f"exec {TOOL} {table} {error}"], capture_output=True, timeout=60)
            self.assertEqual((error, ended.returncode, ended.stdout), (error, 1, b""))


def checked(table, *options):
    """Run the program's `check` on what the tool makes of a table."""
    made = run([*options, "-"], table)
    want((made.returncode, made.stderr), (0, b""))
    return subprocess.run([settings["program"], "check", "-"], input=made.stdout, capture_output=True, timeout=60)


class CheckTest(BenchTest):
    """The output of `check` on the orders that come out."""

    def test_check_takes_a_full_order(self):
        order = json.loads((ROOT / "examples" / "full.json").read_text())[0]
        for separator in ",;":
            table = separator.join(order) + "\r\n" + separator.join(map(str, order.values())) + "\r\n"
            ended = checked(table.encode())
            self.assertEqual((ended.returncode, ended.stdout), (0, case_of("full").wanted))

    def test_check_takes_each_key(self):
        """The keys of the fields are those of the program, each of its kind, and each may be unknown."""
        values = {"gtin": "4006381333931", "identification": "0011223344556677", "text": "24"}
        for it in FIELDS:
            for value in (values.get(it["form"], it["most"]), "null"):
                ended = checked(f"order,unit,{it['key']}\n1,5,{value}\n".encode())
                self.assertEqual((it["key"], ended.returncode, ended.stdout.splitlines()[-1]),
                                 (it["key"], 0, b"accepted 1 refused 0"))

    def test_check_judges_values(self):
        table = (b"order;unit;gtin;year\r\n1;5;04006381333931;\r\n2;64;;24\r\n3;5;4006381333932;24\r\n4;5;;100\r\n"
                 b"5;5;;\r\n18446744073709551615;63;null;\r\n;;;\r\n")
        wanted = (b"item 1 order 1 unit 5 bytes 6\n03 03\n04 A4\n05 CE\n06 EF\n07 AD\n08 AB\nitem 2 fault 1 Unit\n"
                  b"item 3 fault 4 Gtin\nitem 4 fault 3 Range\nitem 5 fault 8 Empty\n"
                  b"item 6 order 18446744073709551615 unit 63 bytes 6\n03 FF\n04 FF\n05 FF\n06 FF\n07 FF\n08 FF\n"
                  b"accepted 2 refused 4\n")
        ended = checked(table)
        self.assertEqual((ended.returncode, ended.stdout), (1, wanted))
        ended = checked(b"order;unit;colour\n1;5;wei\xdf\n", "--latin-1")
        self.assertEqual((ended.returncode, ended.stdout), (1, b"item 1 fault 5 Text\naccepted 0 refused 1\n"))
        self.assertEqual(checked(b"order,unit,gtin\n").stdout, b"accepted 0 refused 0\n")

    def test_any_table_comes_back(self):
        """Orders made by chance and written as a table come back as they were."""
        chance = random.Random(1)
        texts = ["", "0", "007", "null ", "a,b;c", 'a "b"', "a\nb", "a\r\nb", " x", "\u00e9\u4e2d", "'", '"', "\t",
                 "1e3"]
        for _ in range(40):
            keys = ["order", "unit",
                    *chance.sample(["gtin", "colour", "luminaire", "year", "cct"], chance.randint(1, 5))]
            chance.shuffle(keys)
            rows, orders = [], []
            for _ in range(chance.randint(0, 5)):
                numbers = {key: chance.choice([0, 5, 2**53 + 1, GREATEST]) for key in ("order", "unit", "year", "cct")}
                order = {key: numbers.get(key, chance.choice(texts)) for key in keys}
                rows.append([order[key] for key in keys])
                orders.append({key: value for key, value in order.items() if value != ""})
            text = io.StringIO()
            csv.writer(text, delimiter=chance.choice(",;"), quoting=chance.choice([csv.QUOTE_MINIMAL, csv.QUOTE_ALL]),
                       lineterminator=chance.choice(["\n", "\r\n"])).writerows([keys, *rows])
            ended = run(["-"], chance.choice([b"", MARK]) + text.getvalue().encode())
            self.assertEqual((ended.returncode, ended.stderr, json.loads(ended.stdout)), (0, b"", orders))


if __name__ == "__main__":
    sys.exit(beside.main(__doc__, ["test_table"], sys.argv[1:]))
