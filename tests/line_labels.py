"""Tests of labels for printers: templates, what is escaped in them, and that a label is taken only once it is out."""

import html
import json
import os
import socket
import sqlite3
import subprocess
import threading

from base import BenchTest, want
from driven import PATIENCE, ROOT
from line_bench import Bench, Server
from zpl import elements, labels_of

EXAMPLE = ROOT / "examples" / "label.zpl"
GTIN, NUMBER = "4006381333931", "00000000000000a1"
# Characters that mean more to a printer or a reader.
NASTY = "^XZ~JA_5E_\\&\"'<b>{gtin},;=1"
FIELDS = {1: {"gtin": GTIN, "identification": NUMBER, "year": 5, "week": 9}, 2: {"gtin": "96385074", "year": 24},
          3: {"gtin": "96385074", "identification": "FFFFFFFFFFFFFFFE", "colour": NASTY, "luminaire": None}}
# The orders' moments: half past one in the afternoon at the end of November, in Berlin.
ENDED, BERLIN = 1796041805, "CET-1CEST,M3.5.0,M10.5.0/3"
# Templates that are refused, each with the words.
WRONG = {
    "a.zpl": {
        "^XA^FD{gtinn}^FS^XZ": "line 1: there is no {gtinn}: there are order, bus, unit, reference, ",
        "^XA^FDlabel^FS^XZ": "it has no placeholder, as {order}, so all labels would be the same",
        "": "it has no placeholder, as {order}",
        "^XA^FD{gtin}^FS": "it has to begin a label with ^XA and to end it with ^XZ, or the printer prints nothing",
        "^FD{gtin}^FS^XZ": "it has to begin a label with ^XA and to end it with ^XZ",
        "^XA^FO{unit},1^FDa^FS^XZ": "{unit} has to stand in a field's data, between ^FD and ^FS",
        "^XA^FX {gtin}^FS^XZ": "{gtin} has to stand in a field's data",
        "^XA^FDa^FS{gtin}^XZ": "{gtin} has to stand in a field's data",
        "^XA^FD{colour}^FS^XZ": "{colour} may have characters that ZPL takes for commands: put ^FH right before",
        "^XA^FH^FDa^FS^FD{bus}^FS^XZ": "{bus} may have characters that ZPL takes for commands",
        "^XA^FH\\^FD{reference}^FS^XZ": "{reference} may have characters that ZPL takes for commands",
        "^XA^BCN,80^FH^FD{luminaire}^FS^XZ": "{luminaire} may have characters that a bar code takes for commands",
        "^XA^BXN,5,200,,,,_,1^FH^FD_1{gs1}^FS^XZ": "behind ^FH a _ begins two hexadecimal digits, and here it doesn't",
        "^XA^FH^FD_{gtin}^FS^XZ": "behind ^FH a _ begins two hexadecimal digits",
        "^XA^FD{gtin}^XZ": "the field has to end with ^FS before the next command: {gtin}^XZ",
        "^XA^FH^FD{bus}^FO1,9^FD{bus}^FS^XZ": "the field has to end with ^FS before the next command",
        "^XA^FH\n^FD{bus}^FS^XZ": "{bus} may have characters that ZPL takes for commands",
        "~cc+^XA^FH^FD{bus}^FS^XZ": "it gives ZPL other characters than ^ and ~, and values are escaped for these",
        "^XA^CT+^FH^FD{bus}^FS^XZ": "it gives ZPL other characters than ^ and ~"},
    "a.txt": {"{gtin} \n{Gtin} {week2}": "line 2: there is no {week2}: ", "{ gtin }": "it has no placeholder"},
    "a.prn": {"{gtin}": "its name has to end with .zpl, .txt, .json, .html, .svg, which says what is escaped"},
    "zpl": {"{gtin}": "its name has to end with .zpl"},
}


class Printer:
    """A printer of the test's own, as long as this is entered: it keeps what each connection sends."""

    def __init__(self):
        """Listen at a port of the system's choice."""
        self.got, self.server = [], socket.create_server(("127.0.0.1", 0))
        self.place = "127.0.0.1:%d" % self.server.getsockname()[1]
        self.thread = threading.Thread(target=self.serve, daemon=True)

    def serve(self):
        """Take connections until a test is over."""
        while True:
            try:
                printer, _ = self.server.accept()
            except OSError:
                return
            with printer, printer.makefile("rb") as file:
                self.got.append(file.read())

    def labels(self):
        """Give the labels, each of which came by a connection of its own."""
        return [label for data in self.got for label in labels_of(data)]

    def __enter__(self):
        self.thread.start()
        return self

    def __exit__(self, *_):
        self.server.shutdown(socket.SHUT_RDWR)
        self.thread.join(PATIENCE)
        self.server.close()


def labelled(folder, fields=None, buses=("bus1",)):
    """Make a bench with orders that were done, by their numbers, each with a label that nobody has taken."""
    bench = Bench(folder, buses=buses)
    with sqlite3.connect(bench.store) as connection:
        for number, given in (fields or FIELDS).items():
            reference = None if number == 2 else str(69 + number) if number < 3 else NASTY
            connection.execute(
                "insert into bench_orders (number, bus, reference, unit, fields, state, code, added, sent, ended, told)"
                " values (?, ?, ?, 5, ?, 'ended', 0, 1, 2, ?, 'kept 0 Done')",
                (number, buses[number % len(buses)], reference, json.dumps(given), ENDED))
            connection.execute("insert into bench_labels (number, made) values (?, ?)", (number, ENDED))
        connection.execute("update bench_store set following = 10")
    connection.close()
    return bench


def template(bench, name, text):
    """Write a template."""
    path = bench.folder / name
    path.write_text(text, newline="")
    return str(path)


def left(bench):
    """Give the orders whose labels nobody has taken."""
    return [json.loads(line)["order"] for line in bench.does("labels")]


class TemplateTest(BenchTest):
    """The fields of a template."""

    def test_the_example_on_a_printer(self):
        bench = labelled(self.folder)
        with Printer() as printer:
            for number in (1, 3):
                want(bench.does("labels", "--take", str(number), "--template", EXAMPLE, "--to", printer.place,
                                env={**os.environ, "TZ": BERLIN}), [])
            want(bench.does("labels", "--again", "1", "--template", EXAMPLE, "--printer", printer.place), [])
            first, second, again = printer.labels()
        self.assertEqual([elements(first[0].text), elements(second[0].text), elements(again[0].text)],
                         [("04006381333931", "00000000000000A1"), ("00000096385074", "FFFFFFFFFFFFFFFE"),
                          ("04006381333931", "00000000000000A1")])
        self.assertEqual([field.text for field in first[1:]],
                         ["GTIN 4006381333931", "00000000000000A1", "2026-11-30  order 1"])
        self.assertEqual([field.text for field in second[1:]],
                         ["GTIN 96385074", "FFFFFFFFFFFFFFFE", "2026-11-30  order 3"])
        self.assertEqual([field.bars[0] for field in first if field.bars], ["BX"])
        self.assertEqual(left(bench), [2])

    def test_characters_that_are_commands(self):
        bench = labelled(self.folder)
        texts = ["^FO1,1^A0N,22,22^FH^FD{reference}^FS", "^FO1,9^fh_^fd_5e{colour}_5E{colour}^fs"]
        name = template(bench, "a.ZPL", "^XA^CI28\r\n" + "\r\n".join(texts) + "^xz\r\n")
        with Printer() as printer:
            bench.does("labels", "--take", "3", "--template", name, "--to", printer.place)
            self.assertEqual([field.text for field in printer.labels()[0]], [NASTY, f"^{NASTY}^{NASTY}"])

    def test_a_template_of_a_designer(self):
        """Its first line sets what is set already."""
        bench = labelled(self.folder)
        name = template(bench, "a.zpl", "CT~~CD,~CC^~CT~\n^XA^FD{gtin}^FS^XZ")
        self.assertEqual(bench.does("labels", "--take", "1", "--template", name)[-1], "^XA^FD4006381333931^FS^XZ")

    def test_a_reference_of_another_program(self):
        bench = labelled(self.folder)
        number = "Auftrag Nr. 7/Ü €\n^XZ\t\U0001f4a1"
        with sqlite3.connect(bench.store) as connection:
            connection.execute("update bench_orders set reference = ? where number = 1", (number,))
        connection.close()
        name = template(bench, "a.zpl", "^XA^CI28^FH^FD{reference}^FS^BCN,80^FH^FD{reference}^FS^XZ")
        with Printer() as printer:
            bench.does("labels", "--take", "1", "--template", name, "--to", printer.place)
            self.assertEqual([field.text for field in printer.labels()[0]], [number, number])

    def test_each_kind(self):
        bench = labelled(self.folder)
        told = "{order}|{bus}|{unit}|{reference}|{colour}|{gs1}|{gs1_decimal}|{decimal}|{printed}|{ended}|{date}"
        wanted = f"3|bus1|5|{NASTY}|{NASTY}|010000009638507421FFFFFFFFFFFFFFFE|010000009638507421" \
                 "18446744073709551614|18446744073709551614|0|2026-11-30 13:30:05|2026-11-30"
        texts = {"a.txt": (f"{told}\r\n", lambda text: text[:-2]), "a.json": (f'"{told}"', json.loads),
                 "a.html": (f"<p>{told}", lambda text: html.unescape(text[3:])),
                 "a.svg": (f"<t>{told}", lambda text: html.unescape(text[3:]))}
        for name, (text, read) in texts.items():
            words = bench.words("labels", "--take", "3", "--template", template(bench, name, text))
            ended = subprocess.run(words, capture_output=True, check=True, env={**os.environ, "TZ": BERLIN})
            self.assertEqual((name, read(ended.stdout.decode())), (name, wanted))
            self.assertEqual((name, b"<b>" in ended.stdout), (name, name in ("a.txt", "a.json")))
            with sqlite3.connect(bench.store) as connection:
                connection.execute("update bench_labels set taken = null, printed = 0")
            connection.close()
        # Two digits of a year and a week, and what is unknown isn't there.
        name = template(bench, "b.txt", "20{year} week {week} ")
        self.assertEqual(bench.does("labels", "--take", "1", "--template", name), ["2005 week 09 "])
        self.assertEqual(bench.does("labels", "--again", "1", "--template", template(bench, "c.txt", "{printed}\n")),
                         ["1"])
        ended = bench.give("labels", "--take", "3", "--template", template(bench, "d.txt", "{luminaire}"))
        self.assertEqual((ended.status, ended.output, ended.told[:26]), (1, "", "error: order 3 has no lumi"))

    def test_labels_are_looked_at(self):
        bench = labelled(self.folder, {1: {}, 2: {}})
        name = template(bench, "a.txt", "{order} {printed}\n")
        self.assertEqual(bench.does("labels", "--template", name), ["1 0", "2 0"])
        self.assertEqual(bench.does("labels", "--take", "2", "--template", name), ["2 0"])
        self.assertEqual(bench.does("labels", "--all", "--template", name), ["1 0", "2 1"])
        self.assertEqual(left(bench), [1])


class WayTest(BenchTest):
    """Where labels go, and when one is taken."""

    def test_what_is_refused_before_anything_is_out(self):
        bench = labelled(self.folder)
        with Printer() as printer:
            for name, texts in WRONG.items():
                for text, words in texts.items():
                    ended = bench.give("labels", "--take", "--template", template(bench, name, text), "--to",
                                       printer.place)
                    wanted = f"error: the template {bench.folder}/{name}: {words}"
                    self.assertEqual((text, ended.status, ended.told[:len(wanted)]), (text, 1, wanted))
            (bench.folder / "b.txt").write_bytes(b"{gtin} \xff")
            for name, status, words in (("none.txt", 2, "error: the template can't be read: none.txt: No such file"),
                                        (str(bench.folder), 1, "error: the template "), ("b.txt", 1, "error: the templ"
                                        "ate b.txt: it isn't in UTF-8")):
                ended = bench.give("labels", "--take", "--template", name, "--to", printer.place)
                self.assertEqual((name, ended.status, ended.told[:len(words)]), (name, status, words))
            ended = bench.give("labels", "--take", "--template", EXAMPLE, "--to", printer.place)
            self.assertEqual((ended.status, ended.told), (
                1, f"error: order 2 has no identification, and {EXAMPLE} wants {{gs1}}, so no label is put out: print"
                " that of order 2 by itself, with another template or with none\n"))
            name = template(bench, "a.txt", "{reference} {year}")
            self.assertEqual(bench.give("labels", "--take", "2", "--template", name, "--to", printer.place).told,
                             f"error: order 2 has no reference, and {name} wants {{reference}}, so no label is put out:"
                             " print that of order 2 by itself, with another template or with none\n")
            self.assertEqual(printer.got, [])
        self.assertEqual(left(bench), [1, 2, 3])
        # The others go on once that one was printed by itself.
        bench.does("labels", "--take", "2")
        self.assertEqual(len(bench.does("labels", "--take", "--template", EXAMPLE)), 18)
        self.assertEqual(left(bench), [])

    def test_options_that_do_not_go_together(self):
        bench = labelled(self.folder)
        for words, told in (
                (("--to", "1.2.3.4:9100"), "one command, or --to, stands beside --take or --again, and --csv"),
                (("--take", "--to", "1.2.3.4:9100", "--", "cat"), "one command, or --to, stands beside"),
                (("--command", "cat"), "one command, or --to, stands beside"),
                (("--take", "--command", "cat", "--", "cat"), "one command, or --to, stands beside"),
                (("--take", "--command", "cat", "--to", "a:1"), "argument --to: not allowed with argument --command"),
                (("--take", "--command", " "), "argument --command: there is no command in it"),
                (("--take", "--command", "cat '"), "argument --command: No closing quotation"),
                (("--take", "--to", "a:1", "--printer", "b:1"), "argument --printer: not allowed with argument --to"),
                (("--take", "--to", "9100"), "--to takes HOST:PORT, as 192.0.2.7:9100, and not 9100"),
                (("--take", "--csv", "--template", "a.txt"), "--template and --csv are two ways to spell a label"),
                (("1",), "N.. stands beside --take, or behind --again"),
                (("--all", "1"), "N.. stands beside --take, or behind --again"),
                (("--take", "1", "--bus", "bus1"), "--bus chooses among all labels, and N.. names them: take one"),
                (("--bus", "bus2"), "there is no bus bus2: `init --bus bus2` makes it"),
                (("--take", "9"), "there is no order 9"), (("--again", "1"), "the label of order 1 wasn't taken yet")):
            ended = bench.give("labels", *words)
            self.assertEqual((words, ended.status, ended.told[:len(told) + 7]), (words, 1, f"error: {told}"))
        self.assertEqual(left(bench), [1, 2, 3])
        bench.does("labels", "--take", "3")
        self.assertEqual(bench.give("labels", "--take", "1", "3").told,
                         "error: the label of order 3 was taken: `labels --again 3` prints it once more\n")
        self.assertEqual(left(bench), [1, 2])

    def test_a_label_is_taken_once_it_is_out(self):
        bench = labelled(self.folder, {1: {}, 2: {}, 3: {}})
        name = template(bench, "a.txt", "no. {order}\n")
        script = 'read -r line; case $line in "no. 2") exit 3;; esac; echo "$line" >>printed'
        ended = bench.give("labels", "--take", "--template", name, "--", "sh", "-c", script)
        self.assertEqual((ended.status, ended.output, ended.told),
                         (2, "", "error: the label of order 2 isn't taken: sh ended with status 3\n"))
        self.assertEqual(((bench.folder / "printed").read_text(), left(bench)), ("no. 1\n", [2, 3]))
        ended = bench.give("labels", "--take", "--template", name, "--command", "sh -c 'exit 3'")
        self.assertEqual((ended.status, ended.told, left(bench)),
                         (2, "error: the label of order 2 isn't taken: sh ended with status 3\n", [2, 3]))
        with open("/dev/full", "wb") as full:
            words = bench.words("labels", "--take", "--template", name)
            ended = subprocess.run(words, stdout=full, stderr=subprocess.PIPE, check=False)
            self.assertEqual((ended.returncode, left(bench)), (2, [2, 3]))
        words = " ".join(f"'{word}'" for word in map(str, words))
        ended = subprocess.run(["sh", "-c", f"{words} | head -n 1"], capture_output=True, check=False)
        self.assertEqual((ended.stdout, left(bench)), (b"no. 2\n", [3]))
        with socket.create_server(("127.0.0.1", 0)) as server:
            place = "127.0.0.1:%d" % server.getsockname()[1]
        self.assertEqual(bench.give("labels", "--take", "--template", name, "--to", place).status, 2)
        self.assertEqual(left(bench), [3])
        with open(bench.folder / "file", "wb") as file:
            subprocess.run(bench.words("labels", "--take", "--template", name), stdout=file, check=True)
        self.assertEqual(((bench.folder / "file").read_bytes(), left(bench)), (b"no. 3\n", []))

    def test_a_taker_is_killed(self):
        for at, when in enumerate(("before", "behind"), 1):
            (self.folder / when).mkdir()
            bench = labelled(self.folder / when, {1: {"gtin": GTIN, "identification": NUMBER},
                                                  2: {"gtin": GTIN, "identification": "0" * 16}})
            words = ("labels", "--take", "--template", EXAMPLE, "--to")
            with Printer() as printer:
                ended = bench.give(*words, printer.place, crash=("commit", "1", when))
                self.assertEqual((when, ended.status), (when, -9))
                bench.does(*words, printer.place)
                got = [elements(label[0].text)[1][-2:] for label in printer.labels()]
            # It comes again where it was out, and not taken yet.
            self.assertEqual((when, got), (when, ["A1", "A1", "00"] if when == "before" else ["A1", "00"]))
            self.assertEqual((left(bench), bench.rows("select printed from bench_labels")), ([], [(1,), (1,)]))

    def test_the_labels_of_a_bus(self):
        bench = labelled(self.folder, {1: {}, 2: {}, 3: {}, 4: {}}, ("bus1", "bus2"))
        self.assertEqual([json.loads(line)["order"] for line in bench.does("labels", "--bus", "bus2")], [1, 3])
        name = template(bench, "a.txt", "{order} {bus}\n")
        self.assertEqual(bench.does("labels", "--take", "--bus", "bus2", "--template", name), ["1 bus2", "3 bus2"])
        self.assertEqual((left(bench), len(bench.does("labels", "--all", "--bus", "bus1"))), ([2, 4], 2))

    def test_labels_over_postgresql(self):
        with Server(self.folder) as server:
            bench = Bench(self.folder, server.url)
            statements = ("insert into bench_orders (number, bus, repeated_reference, unit, fields, state, code, added,"
                          " sent, ended, told) values (1, 'bus1', '70', 5, '{\"gtin\": \"96385074\"}', 'ended', 0, 1,"
                          " 2, 3, 'kept 0 Done')", "insert into bench_labels (number, made) values (1, 3)")
            for statement in statements:
                subprocess.run(["psql", "-X", "-q", "-c", statement, server.url], check=True)
            name = template(bench, "a.txt", "{gtin} {reference}\n")
            self.assertEqual(bench.does("labels", "--take", "--bus", "bus1", "--template", name), ["96385074 70"])
            self.assertEqual(bench.does("labels", "--again", "1", "--template", name), ["96385074 70"])
            self.assertEqual(left(bench), [])
