#!/usr/bin/env python3
"""Test what the commands over a link say of common mistakes: each mistake with its lines, and that nothing was done.

    test_mistakes.py [PROGRAM [FOLDER]]

PROGRAM and FOLDER are as of test_drive.py. The last line is `N passed, M failed`, and the status is 0 only where none
failed.
"""

import json
import os
import resource
import subprocess
import sys

sys.dont_write_bytecode = True

import beside  # noqa: E402
from base import BenchTest, settings, want  # noqa: E402
from drive_desk import DONE_JOURNAL, DONE_TOLD, PRESENT, desk_of  # noqa: E402
from drive_fixtures import blank_bus  # noqa: E402
from driven import HEADER, Desk, Following  # noqa: E402

PATIENCE = 20
ANSWERS_THERE = "ORDERS has to be a file or a named pipe: standard input has the answers"
TOO_MANY = "Too many open files (os error 24): raise the limit, as by ulimit -n 1024"
ORDERS = json.dumps(PRESENT).encode()
SCENARIO = b'{"limit": 1, "units": [{"address": 5}], "events": []}'
BANK = b"77 FF FF 03\n"
TABLE = b"order;unit;gtin\n1;5;4006381333931\n"
IS_JOURNAL = "the input is a journal, which `journal` takes, and has to be JSON"
IS_BANK = "the input is hexadecimal digits, as the text of a bank, which `show` takes, and has to be JSON"
IS_SCENARIO = "the input is an object with events, which `run` takes, and orders are an array"
IS_TABLE = "the input is a table, as CSV, and has to be JSON: make orders of it by orders_from_csv"
IS_ORDER = "the input is one order, and orders are an array: it stands between [ and ]"
# Other files in the place of ORDERS: the last line of `drive` and `verify`, and what `check` says that it is.
AS_ORDERS = {
    "a comma too many": (b'[{"order": 1,}]', "fault 11 Json",
                         "line 1 column 14: the comma before this bracket is one too many"),
    "a journal": (DONE_JOURNAL, "fault 11 Json", IS_JOURNAL),
    "a journal without orders": (HEADER, "fault 11 Json", IS_JOURNAL),
    "a bank": (BANK, "fault 11 Json", IS_BANK),
    "a table": (TABLE, "fault 11 Json", IS_TABLE),
    "a scenario": (SCENARIO, "fault 12 Document", IS_SCENARIO),
    "one order": (ORDERS[1:-1], "fault 12 Document", IS_ORDER),
}
# Other files in the place of JOURNAL: the last line of `drive`, and what `check` says that it is.
NO_JOURNAL = "journal fault 3 Record at 0"
AS_JOURNAL = {
    "orders": (ORDERS, NO_JOURNAL, "accepted 1 refused 0"),
    "a bank": (BANK, NO_JOURNAL, IS_BANK),
    "a table": (TABLE, NO_JOURNAL, IS_TABLE),
    "a scenario": (SCENARIO, NO_JOURNAL, IS_SCENARIO),
    "a journal of another version": (b"DB1\x03", "journal fault 7 Header", None),
}
# Lines of a stream that aren't one order each, and the replies to them.
PRETTY = json.dumps(PRESENT[0], indent=2)
AS_LINES = {
    "an array": (json.dumps(PRESENT), ["item 1 fault 9 Shape"]),
    "an order over several lines": (PRETTY, ["item 1 fault 11 Json", "item 2 fault 11 Json", "item 3 fault 11 Json",
                                             "item 4 fault 11 Json", "item 5 fault 11 Json"]),
    "a file of orders": (json.dumps(PRESENT, indent=0), ["item 1 fault 11 Json", "item 2 fault 11 Json",
                                                         *(f"item {number} fault 11 Json" for number in range(3, 8))]),
    "two orders on a line": (2 * json.dumps(PRESENT[0]), ["item 1 fault 11 Json"]),
    "a comma behind an order": (json.dumps(PRESENT[0]) + ",", ["item 1 fault 11 Json"]),
    "a table": (TABLE.decode(), ["item 1 fault 11 Json", "item 2 fault 11 Json"]),
    "a scenario": (SCENARIO.decode(), ["item 1 fault 9 Shape"]),
}


class Verifying(Desk):
    """Runs of `verify` on the orders."""

    def words(self):
        """Give the command line."""
        return [self.program, "verify", *self.options, self.orders]


def checked(path):
    """Give what `check` says of a file: all its lines, on both streams."""
    ended = subprocess.run([settings["program"], "check", path], capture_output=True, timeout=PATIENCE)
    return (ended.stdout + ended.stderr).decode().splitlines()


class SwappedTest(BenchTest):
    """Files that were swapped."""

    def test_another_file_in_the_place_of_orders(self):
        for name, (data, line, meaning) in AS_ORDERS.items():
            for kind in (Desk, Verifying):
                desk = kind(settings["program"], self.folder, [])
                desk.orders.write_bytes(data)
                ended = desk.give(b"")
                self.assertEqual((name, ended.status, ended.sent, ended.told), (name, 1, b"", line + "\n"))
                self.assertEqual((name, desk.orders.read_bytes(), desk.journal.exists()), (name, data, False))
            said = checked(desk.orders)
            self.assertEqual((name, said), (name, [line, meaning]))

    def test_another_file_in_the_place_of_the_journal(self):
        for name, (data, line, meaning) in AS_JOURNAL.items():
            desk = desk_of(self.folder, PRESENT, data)
            ended = desk.give(b"")
            self.assertEqual((name, ended.status, ended.sent, ended.told, desk.held()),
                             (name, 1, b"", line + "\n", data))
            assert meaning is None or meaning in checked(desk.journal), (name, checked(desk.journal))

    def test_orders_and_journal_swapped(self):
        desk = desk_of(self.folder, PRESENT, DONE_JOURNAL)
        desk.orders, desk.journal = desk.journal, desk.orders
        held = desk.held()
        ended = desk.give(b"")
        self.assertEqual((ended.status, ended.sent, ended.told), (1, b"", "fault 11 Json\n"))
        self.assertEqual((desk.orders.read_bytes(), desk.held()), (DONE_JOURNAL, held))


def watched(kind, folder, orders, journal=None, **options):
    """Run a command with --progress over files of these bytes, and an adapter that closes the link; give its lines."""
    desk = kind(settings["program"], folder, [])
    desk.options = ["--progress"]
    desk.orders.write_bytes(orders)
    if journal is not None:
        desk.journal.write_bytes(journal)
    ended = desk.give(None if options else b"", **options)
    want((ended.status, desk.orders.read_bytes(), journal is None or desk.journal.read_bytes() == journal),
         (1, orders, True))
    return desk, ended.told.splitlines()


class WatchedTest(BenchTest):
    """The lines for a person who watches, after those that programs read."""

    def test_another_file_in_the_place_of_orders(self):
        for name, (data, line, meaning) in AS_ORDERS.items():
            for kind in (Desk, Verifying):
                desk, told = watched(kind, self.folder, data)
                self.assertEqual((name, told), (name, [line, f"ORDERS {desk.orders} is refused:", meaning]))
        desk, told = watched(Desk, self.folder, b'[{"order": 1, "unit": 64, "year": 2024}]')
        self.assertEqual(told, ["item 1 fault 1 Unit", f"ORDERS {desk.orders} is refused:",
                                "item 1 order 1: unit: the number 64, and a short address is 0 to 63",
                                "item 1 order 1: year: the number 2024, and it is a whole number from 0 to 99, or null;"
                                " two digits: 24"])

    def test_another_file_in_the_place_of_the_journal(self):
        for data, words in ((TABLE, "a table, as CSV"),
                            (ORDERS, "an array of JSON, as orders are, which `check` takes"),
                            (BANK, "hexadecimal digits, as the text of a bank, which `show` takes")):
            desk, told = watched(Desk, self.folder, ORDERS, data)
            self.assertEqual(told, [NO_JOURNAL, f"JOURNAL {desk.journal} is no journal, but {words}: are ORDERS and"
                                                " JOURNAL swapped?"])
        desk, told = watched(Desk, self.folder, DONE_JOURNAL, ORDERS)
        self.assertEqual(told[:3], ["fault 11 Json", f"ORDERS {desk.orders} is refused:", IS_JOURNAL])
        assert told[3].endswith(": are ORDERS and JOURNAL swapped?"), told

    def test_an_array_in_the_place_of_lines(self):
        desk, told = watched(Following, self.folder, ORDERS)
        self.assertEqual(told[:2] + told[-1:],
                         ["ready", "item 1 fault 9 Shape",
                          f"ORDERS {desk.orders} is an array, and --follow takes a line for each order: `jq -c '.[]'`"
                          " makes lines of it"])

    def test_no_adapter(self):
        empty = "standard input is empty: start this over an adapter (docs/LINK.md)"
        for kind, lines in ((Desk, ["reply 1 taken", "drive fault 4 End"]), (Verifying, ["drive fault 4 End"])):
            told = watched(kind, self.folder, ORDERS, stdin=subprocess.DEVNULL)[1]
            self.assertEqual((told[:len(lines)], told[-1]), (lines, empty))
        # An adapter that closes the link is one.
        assert empty not in watched(Desk, self.folder, ORDERS)[1]


class LinesTest(BenchTest):
    """Lines that aren't one order each."""

    def test_lines_that_are_not_one_order(self):
        for name, (text, lines) in AS_LINES.items():
            desk = Following(settings["program"], self.folder, text + "\n")
            ended = desk.give(b"")
            self.assertEqual((name, ended.status, ended.sent, ended.told.splitlines()),
                             (name, 1, b"", ["ready", *lines]))
            self.assertEqual((name, desk.held()), (name, HEADER))


def given_standard_input(kind, folder, name, stdin):
    """Run a command with a name for ORDERS, over a standard input that stays open; give its end."""
    desk = kind(settings["program"], folder, [])
    desk.orders = name
    command = desk.start(stdin=stdin)
    try:
        told = command.communicate(timeout=PATIENCE)[1].decode() if stdin is not subprocess.PIPE else told_by(command)
    finally:
        command.kill()
    want(desk.journal.exists(), False)
    return command.wait(), told


def told_by(command):
    """Wait for the end of a command whose standard input is held open, and give what it told."""
    command.wait(PATIENCE)
    told = command.stderr.read().decode()
    for pipe in (command.stdin, command.stdout, command.stderr):
        pipe.close()
    return told


class StandardInputTest(BenchTest):
    """Orders out of standard input, which has the answers."""

    def test_orders_out_of_standard_input(self):
        link = self.folder / "link"
        link.symlink_to("/dev/stdin")
        for kind in (Desk, Following, Verifying):
            for name in ("-", "/dev/stdin", "/dev/fd/0", "/proc/self/fd/0", link):
                told = f"error: the file can't be used: {name}: {ANSWERS_THERE}\nfault 21 File\n"
                self.assertEqual((name, given_standard_input(kind, self.folder, name, subprocess.PIPE)),
                                 (name, (2, told)))

    def test_orders_out_of_the_pipe_of_the_answers(self):
        pipe = self.folder / "pipe"
        os.mkfifo(pipe)
        held = os.open(pipe, os.O_RDWR)
        for kind in (Desk, Following, Verifying):
            told = f"error: the file can't be used: {pipe}: {ANSWERS_THERE}\nfault 21 File\n"
            self.assertEqual(given_standard_input(kind, self.folder, pipe, held), (2, told))
        os.close(held)

    def test_orders_out_of_a_pipe_of_their_own(self):
        """As of the shell's <(...), which isn't standard input."""
        for kind in (Desk, Following):
            reads, writes = os.pipe()
            os.write(writes, ORDERS if kind is Desk else ORDERS[1:-1])
            os.close(writes)
            desk = kind(settings["program"], self.folder, [])
            desk.journal.unlink(missing_ok=True)
            desk.orders = f"/dev/fd/{reads}"
            desk.start = lambda environment=None, it=desk, **options: type(it).start(it, pass_fds=[reads])
            ended = desk.over(blank_bus(5))
            os.close(reads)
            self.assertEqual((ended.status, ended.told, desk.held()), (0, desk.ready + DONE_TOLD, DONE_JOURNAL))


def few_files(most):
    """Make what limits the descriptors of the child that is to be the program."""
    return lambda: resource.setrlimit(resource.RLIMIT_NOFILE, (most, most))


def limited(kind, folder, most, *options):
    """Run a command over a unit with so few descriptors; give its desk and its end."""
    desk = kind(settings["program"], folder, PRESENT)
    desk.options = options
    for path in (desk.journal, desk.journal.with_name("bench.journal.new")):
        path.unlink(missing_ok=True)
    desk.start = lambda environment=None: type(desk).start(desk, preexec_fn=few_files(most))
    return desk, desk.over(blank_bus(5))


def is_unloaded(most, ended):
    """Tell whether the system's loader had too few descriptors to begin the program."""
    return most == 3 and ended.status == 127 and "error while loading shared libraries" in ended.told


class DescriptorsTest(BenchTest):
    """Commands with few descriptors."""

    def test_drives_with_few_descriptors(self):
        for kind in (Desk, Following):
            statuses = []
            for most in range(3, 13):
                desk, ended = limited(kind, self.folder, most)
                statuses.append(ended.status)
                if is_unloaded(most, ended):
                    continue
                if ended.status == 0:
                    self.assertEqual((most, ended.told, desk.held()), (most, desk.ready + DONE_TOLD, DONE_JOURNAL))
                    continue
                first, last = ended.told.splitlines()
                self.assertEqual((most, ended.status, ended.sent, last), (most, 2, b"", "fault 21 File"))
                assert first.startswith("error: ") and first.endswith(TOO_MANY), (most, first)
                self.assertEqual((most, desk.held() if desk.journal.exists() else b""), (most, b""))
                ended = Desk.over(desk_of(self.folder, PRESENT), blank_bus(5))
                self.assertEqual((most, ended.told, desk.held()), (most, DONE_TOLD, DONE_JOURNAL))
            assert statuses[-1] == 0 and 2 in statuses, statuses

    def test_verifications_with_few_descriptors(self):
        report, statuses = self.folder / "report", []
        for most in range(3, 13):
            report.unlink(missing_ok=True)
            ended = limited(Verifying, self.folder, most, "--report", report)[1]
            statuses.append(ended.status)
            if is_unloaded(most, ended):
                continue
            lines = ended.told.splitlines()
            if ended.status == 1:
                self.assertEqual((most, lines, len(report.read_text().splitlines())),
                                 (most, ["order 1 unit 5 other 03 FF"], 1))
                continue
            self.assertEqual((most, ended.status), (most, 2))
            others = [line for line in lines if not (line.startswith("error: ") and line.endswith(TOO_MANY))]
            assert others in (["fault 21 File"], ["order 1 unit 5 other 03 FF"]) and len(lines) > 1, (most, lines)
            self.assertEqual((most, report.read_bytes() if report.exists() else b""), (most, b""))
        assert statuses[-1] == 1 and 2 in statuses, statuses

    def test_files_with_few_descriptors(self):
        path = self.folder / "orders.json"
        path.write_bytes(ORDERS)
        for most in range(3, 13):
            ended = subprocess.run([settings["program"], "check", path], capture_output=True, timeout=PATIENCE,
                                   preexec_fn=few_files(most))
            if ended.returncode == 127:
                continue
            if ended.returncode == 2:
                told = f"error: the input can't be opened or read: {path}: {TOO_MANY}\n"
                self.assertEqual((most, ended.stdout, ended.stderr.decode()), (most, b"fault 21 File\n", told))
            else:
                self.assertEqual((most, ended.returncode, ended.stdout.splitlines()[-1]),
                                 (most, 0, b"accepted 1 refused 0"))


if __name__ == "__main__":
    sys.exit(beside.main(__doc__, ["test_mistakes"], sys.argv[1:]))
