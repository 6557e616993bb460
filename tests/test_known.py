#!/usr/bin/env python3
"""Test `check --journal`: its words on orders, over journals made by hand, and that a drive then replies so.

    test_known.py [PROGRAM [FOLDER]]

PROGRAM and FOLDER are as of test_drive.py. The last line is `N passed, M failed`, and the status is 0 only where none
failed.
"""

import fcntl
import json
import os
import subprocess
import sys

sys.dont_write_bytecode = True

import beside  # noqa: E402
from base import BenchTest, settings, want  # noqa: E402
from drive_desk import (  # noqa: E402
    ABSENT,
    ABSENT_BEGAN,
    ABSENT_JOURNAL,
    DONE_JOURNAL,
    GTIN,
    MOST_JOURNAL,
    OLD_ABSENT_BEGAN,
    OLD_ABSENT_JOURNAL,
    OLD_DONE_JOURNAL,
    PRESENT,
    SILENCE,
    absent_records,
    desk_of,
)
from driven import HEADER, NAMES, PATIENCE, in_version_1, simulated_link  # noqa: E402

GREATEST = 18446744073709551615
FULL = 100000
UPDATES = "03 03\n04 A4\n05 CE\n06 EF\n07 AD\n08 AB\n"
DOUBT_OPEN = DONE_JOURNAL[:-1] + b"\x05"
CLOSED = DOUBT_OPEN + b"C\x05"
MISSING = "No such file or directory (os error 2)"


def number_8(number):
    """Give the eight bytes of a number."""
    return number.to_bytes(8, "big")


def ended(number, code, opened=True):
    """Give the records of an order of unit 5 with the GTIN, which ended so."""
    return b"B" + number_8(number) + DONE_JOURNAL[13:35] + (b"O\x05" if opened else b"") + b"E" + bytes([code])


def numbered(number, unit=5):
    """Give an order of this number with the GTIN."""
    return {"order": number, "unit": unit, "gtin": GTIN}


def item(number, order, word):
    """Give the lines of an accepted item with the GTIN, after which the journal's word comes."""
    return f"item {number} order {order['order']} unit {order['unit']} bytes 6\n{UPDATES}{word}\n"


def told(orders, words, free):
    """Give all lines of a check whose items are all accepted, with these words."""
    items = "".join(item(at, order, word) for at, (order, word) in enumerate(zip(orders, words), 1))
    return f"{items}accepted {len(orders)} refused 0\nfree {free}\n"


def run(words, given=b""):
    """Check in these words; give the status, the lines, and what was said on standard error."""
    command = [settings["program"], "check", *words]
    ended = subprocess.run(command, input=given, capture_output=True, timeout=PATIENCE)
    return ended.returncode, ended.stdout.decode(), ended.stderr.decode()


def asked(folder, orders, journal, *older):
    """Check orders beside a journal of these bytes, and older ones; nothing of them may change."""
    paths = [folder / "bench.journal", *(folder / f"older_{at}.journal" for at in range(len(older)))]
    for path, data in zip(paths, (journal, *older)):
        path.write_bytes(data)
    listed = sorted(os.listdir(folder))
    found = [os.stat(path) for path in paths]
    options = [word for path in paths[1:] for word in ("--older", path)]
    ended = run(["-", "--journal", paths[0], *options], json.dumps(orders).encode())
    want([path.read_bytes() for path in paths], [journal, *older])
    for before, path in zip(found, paths):
        after = os.stat(path)
        want((after.st_mtime_ns, after.st_ctime_ns, after.st_ino),
             (before.st_mtime_ns, before.st_ctime_ns, before.st_ino))
    want(sorted(os.listdir(folder)), listed)
    return ended


def wants(folder, words, free, orders, journal, *older):
    """Want these words of the orders, and this free number."""
    want(asked(folder, orders, journal, *older), (0, told(orders, words, free), ""))


class WordsTest(BenchTest):
    """The words on each order."""

    def test_each_word_in_both_versions(self):
        """A table of journals with one order of number 1, and the words on an order."""
        rows = [
            (DONE_JOURNAL, PRESENT, "known kept 0 Done"),
            (ABSENT_JOURNAL, ABSENT, "known kept 3 Silent"),
            (ABSENT_BEGAN, ABSENT, "known begun"),
            (DONE_JOURNAL[:-2], PRESENT, "known begun"),
            (DOUBT_OPEN, PRESENT, "known kept 5 DoubtOpen"),
            (CLOSED, PRESENT, "known kept 5 DoubtOpen closed"),
            (DONE_JOURNAL, [numbered(1, 6)], "known reused"),
            (DONE_JOURNAL, ABSENT, "known reused"),
            (ABSENT_BEGAN, PRESENT, "known reused"),
            (DOUBT_OPEN, [numbered(1, 6)], "known reused"),
            (DONE_JOURNAL, [numbered(2)], "new"),
            (DOUBT_OPEN, [numbered(2)], "new"),
            (ABSENT_BEGAN, [numbered(2)], "new"),
        ]
        for journal, orders, word in rows:
            for data in (journal, in_version_1(journal)):
                wants(self.folder, [word], 2, orders, data)

    def test_other_updates_are_another_order(self):
        """The number with the same unit and other updates, with one update less too."""
        for other in ({"gtin": "4006381333948"}, {"year": 24}, {"gtin": GTIN, "year": 24}):
            status, lines, words = asked(self.folder, [{"order": 1, "unit": 5, **other}], DONE_JOURNAL)
            self.assertEqual((status, "\nknown reused\naccepted 1 refused 0\nfree 2\n" in lines, words), (0, True, ""))

    def test_each_code(self):
        """An order that ended with each code that there is, and its unit closed after it, if that was left."""
        for code, name in enumerate(NAMES):
            journal = HEADER + ended(1, code, opened=name in ("Done", "Doubt", "DoubtOpen"))
            wants(self.folder, [f"known kept {code} {name}"], 2, PRESENT, journal)

    def test_an_order_ended_in_doubt_among_others(self):
        """Two orders left the same unit open, and only the first one's was closed since."""
        orders = [numbered(1), numbered(2), numbered(3)]
        closed = "known kept 5 DoubtOpen closed"
        both = HEADER + ended(1, 5) + b"C\x05" + ended(2, 5)
        wants(self.folder, [closed, "known kept 5 DoubtOpen", "new"], 3, orders, both)
        wants(self.folder, [closed, closed, "new"], 3, orders, both + b"C\x05")
        wants(self.folder, [closed, closed, "known begun"], 4, orders, both + b"C\x05" + ended(3, 0)[:-4])
        wants(self.folder, [closed, closed, "known kept 0 Done"], 4, orders, both + b"C\x05" + ended(3, 0))
        # One that ended otherwise isn't shown as closed, whatever was closed after it.
        wants(self.folder, ["known kept 4 Doubt", closed, "new"], 3, orders,
              HEADER + ended(1, 4) + ended(2, 5) + b"C\x05")

    def test_a_cut_end_does_not_count(self):
        """A journal that ends within a record is taken without it."""
        rows = [(DONE_JOURNAL[:-1], PRESENT, "known begun", 2), (CLOSED[:-1], PRESENT, "known kept 5 DoubtOpen", 2),
                (DONE_JOURNAL + b"B\x00", PRESENT, "known kept 0 Done", 2), (ABSENT_BEGAN[:-1], ABSENT, "new", 0),
                (OLD_ABSENT_BEGAN[:-1], ABSENT, "new", 0), (OLD_DONE_JOURNAL[:-1], PRESENT, "known begun", 2)]
        for journal, orders, word, free in rows:
            wants(self.folder, [word], free, orders, journal)

    def test_an_empty_journal(self):
        """No bytes at all, or the header alone: all is new, from 0 on."""
        for journal in (b"", HEADER):
            wants(self.folder, ["new", "new"], 0, [numbered(0), numbered(7)], journal)
            self.assertEqual(asked(self.folder, [], journal), (0, "accepted 0 refused 0\nfree 0\n", ""))

    def test_free_is_above_the_greatest(self):
        """Numbers don't rise, and the greatest one that there may be has none above it."""
        rows = [([9, 3], 10), ([3, 9], 10), ([0], 1), ([GREATEST - 1], GREATEST), ([GREATEST], "none"),
                ([GREATEST, 0], "none")]
        for numbers, free in rows:
            journal = HEADER + b"".join(absent_records(number) for number in numbers)
            wants(self.folder, [], free, [], journal)
            wants(self.folder, ["known kept 3 Silent"], free, [numbered(numbers[0], 9)], journal)

    def test_refused_items_have_no_word(self):
        """A refused item's line stands as without a journal, and the status is 1."""
        orders = [{"order": 5, "unit": 64, "gtin": GTIN}, numbered(1), {"order": 1}]
        status, lines, words = asked(self.folder, orders, DONE_JOURNAL)
        wanted = "item 1 fault 1 Unit\n" + item(2, numbered(1), "known kept 0 Done") + "item 3 fault 9 Shape\n"
        self.assertEqual((status, lines), (1, wanted + "accepted 1 refused 2\nfree 2\n"))
        self.assertEqual(words.startswith("item 1 order 5: unit: the number 64"), True)

    def test_notes_stay(self):
        """An earlier item with a number is reported as without a journal; each is compared with the journal alone."""
        orders = [numbered(2), numbered(2, 6)]
        status, lines, words = asked(self.folder, orders, DONE_JOURNAL)
        self.assertEqual((status, lines), (0, told(orders, ["new", "new"], 2)))
        self.assertEqual(words, run(["-"], json.dumps(orders).encode())[2])
        self.assertEqual("item 2 order 2: " in words, True)

    def test_a_full_journal(self):
        """With 100000 orders no further one is taken; with one less it is. Those that are there are known."""
        records = [absent_records(number) for number in range(FULL)]
        orders = [numbered(FULL, 9), numbered(FULL - 1, 9), numbered(5, 9), numbered(6)]
        kept = "known kept 3 Silent"
        wants(self.folder, ["full", kept, kept, "known reused"], FULL, orders, HEADER + b"".join(records))
        wants(self.folder, ["new", "new", kept, "known reused"], FULL - 1, orders, HEADER + b"".join(records[:-1]))
        # An order that is begun in a full journal goes on, and another one is full.
        begun = HEADER + b"".join(records)[:-2]
        wants(self.folder, ["full", "known begun", kept, "known reused"], FULL, orders, begun)
        # Those of older journals take no room.
        own = HEADER + absent_records(FULL + 1)
        wants(self.folder, ["new", kept, kept, "known reused"], FULL + 2, orders, own, HEADER + b"".join(records))


class OlderTest(BenchTest):
    """Older journals beside the journal."""

    def test_older_journals(self):
        """Orders of older journals are known too, and their units were closed."""
        orders = [numbered(1), numbered(2), numbered(3), numbered(4)]
        journal, older = HEADER + ended(3, 0), (CLOSED, HEADER + ended(2, 4))
        words = ["known kept 5 DoubtOpen closed", "known kept 4 Doubt", "known kept 0 Done", "new"]
        wants(self.folder, words, 4, orders, journal, *older)
        wants(self.folder, words, 4, orders, journal, *reversed(older))
        wants(self.folder, words, 4, orders, in_version_1(journal), *(in_version_1(data) for data in older))
        wants(self.folder, ["known reused"], 6, [numbered(1, 6)], HEADER + ended(5, 0), CLOSED)
        wants(self.folder, ["known kept 0 Done"], "none", PRESENT, b"", DONE_JOURNAL, HEADER + absent_records(GREATEST))

    def test_older_journals_that_can_not_be_used(self):
        """They are judged as by a drive, and told alike; nothing else is written."""
        name = self.folder / "older_0.journal"
        rows = [
            (DONE_JOURNAL[:-1], f"the older journal's end is cut: {name}: drive it once more"),
            (DONE_JOURNAL[:-2], f"the older journal isn't at rest: {name}: an order isn't ended, or a unit is left"),
            (DOUBT_OPEN, f"the older journal isn't at rest: {name}: an order isn't ended, or a unit is left"),
            (b"DB", f"the older journal is none: {name}: journal fault 7 Header"),
        ]
        for older, words in rows:
            self.assertEqual(asked(self.folder, PRESENT, HEADER, older), (1, "fault 15 Older\n", f"error: {words}\n"))
        name = self.folder / "older_1.journal"
        common = f"error: order 1 stands in two journals: {name}, and an older one\n"
        self.assertEqual(asked(self.folder, PRESENT, HEADER, DONE_JOURNAL, DONE_JOURNAL),
                         (1, "fault 15 Older\n", common))
        (self.folder / "absent").mkdir()
        for path, words in ((self.folder / "nothing", MISSING), (self.folder / "absent", "it is no regular file")):
            ended = run(["-", "--journal", self.folder / "bench.journal", "--older", path], b"[]")
            self.assertEqual(ended,
                             (2, "fault 21 File\n", f"error: the older journal can't be used: {path}: {words}\n"))

    def test_a_number_in_common_with_an_older_one(self):
        """The journal's own name is printed, as by a drive."""
        common = f"error: order 1 stands in two journals: {self.folder / 'bench.journal'}, and an older one\n"
        for journal in (DONE_JOURNAL, ABSENT_JOURNAL, OLD_ABSENT_BEGAN):
            self.assertEqual(asked(self.folder, PRESENT, journal, DONE_JOURNAL), (1, "fault 15 Older\n", common))
            self.assertEqual(asked(self.folder, PRESENT, journal, OLD_DONE_JOURNAL), (1, "fault 15 Older\n", common))

    def test_older_beside_no_journal(self):
        """Older journals have to stand beside one."""
        orders = self.folder / "orders.json"
        orders.write_text(json.dumps(PRESENT))
        ended = run([orders, "--older", self.folder / "older.journal"])
        self.assertEqual(ended, (1, "", "error: --older stands beside --journal: name that too\n"))


class UnusedTest(BenchTest):
    """Journals that can't be used, or only be read."""

    def test_a_journal_that_can_not_be_used(self):
        """Its fault is all that stands on standard output, and a word tells which file it is."""
        path = self.folder / "bench.journal"
        words = f"error: the journal can't be used: {path}\n"
        rows = [(b"DB", 1, "journal fault 7 Header"), (HEADER + b"X", 1, "journal fault 3 Record at 4"),
                (HEADER + b"E\x00", 1, "journal fault 4 Sequence at 4"),
                (DONE_JOURNAL + DONE_JOURNAL[4:], 1, f"journal fault 5 Repeated at {len(DONE_JOURNAL)}"),
                (bytes(MOST_JOURNAL + 1), 1, "fault 13 TooBig")]
        for journal, status, line in rows:
            self.assertEqual(asked(self.folder, PRESENT, journal), (status, line + "\n", words))
            with open(path, "rb") as records:
                command = [settings["program"], "journal", "-"]
                alone = subprocess.run(command, stdin=records, capture_output=True, timeout=PATIENCE)
            self.assertEqual((alone.returncode, alone.stdout.decode()), (status, line + "\n"))

    def test_a_journal_that_is_not_there(self):
        """A name that is mistyped never says that all is new; a pipe isn't waited for."""
        (self.folder / "folder").mkdir()
        os.mkfifo(self.folder / "pipe")
        for name, cause in (("nothing", MISSING), ("folder", "it is no regular file"),
                            ("pipe", "it is no regular file")):
            ended = run(["-", "--journal", self.folder / name], json.dumps(PRESENT).encode())
            self.assertEqual(ended,
                             (2, "fault 21 File\n",
                              f"error: the journal can't be used: {self.folder / name}: {cause}\n"))
        ended = run(["-", "--journal", "-"], json.dumps(PRESENT).encode())
        self.assertEqual(ended, (2, "fault 21 File\n", f"error: the journal can't be used: -: {MISSING}\n"))

    def test_the_orders_are_told_as_without_a_journal(self):
        """A fault of the orders as a whole is reported as before, and the journal is read first."""
        (self.folder / "bench.journal").write_bytes(DONE_JOURNAL)
        for given, line in ((b"{", "fault 11 Json"), (b"{}", "fault 12 Document")):
            status, lines, words = run(["-", "--journal", self.folder / "bench.journal"], given)
            self.assertEqual((status, lines, words), (1, line + "\n", run(["-"], given)[2]))
        (self.folder / "bench.journal").write_bytes(b"DB")
        self.assertEqual(run(["-", "--journal", self.folder / "bench.journal"], b"{")[1], "journal fault 7 Header\n")

    def test_no_lock_is_waited_for(self):
        """While a drive has the journal it is read all the same; an older one may not be in use."""
        path = self.folder / "bench.journal"
        path.write_bytes(DONE_JOURNAL)
        with open(path, "r+b") as held:
            fcntl.flock(held, fcntl.LOCK_EX)
            wanted = (0, told(PRESENT, ["known kept 0 Done"], 2), "")
            self.assertEqual(run(["-", "--journal", path], json.dumps(PRESENT).encode()), wanted)
            ended = run(["-", "--journal", self.folder / "own.journal", "--older", path], b"[]")
            self.assertEqual(ended,
                             (2, "fault 21 File\n", f"error: the older journal can't be used: {path}: it is in use\n"))

    def test_a_journal_that_may_only_be_read(self):
        """No right to write it is needed."""
        path = self.folder / "bench.journal"
        path.write_bytes(DONE_JOURNAL)
        path.chmod(0o400)
        wanted = (0, told(PRESENT, ["known kept 0 Done"], 2), "")
        self.assertEqual(run(["-", "--journal", path], json.dumps(PRESENT).encode()), wanted)


def first_reply(desk, number):
    """Drive a desk's orders over a unit that is there, and give the first reply to an order."""
    ended = desk.over(simulated_link.Bus([simulated_link.Unit(5)]))
    lines = [line for line in ended.told.splitlines() if line.startswith(f"reply {number} ")]
    assert lines, ended
    return ended.sent, lines[0].partition(f"reply {number} ")[2]


class RepliesTest(BenchTest):
    """The replies of a drive on the same orders."""

    def test_a_drive_replies_so(self):
        """Each word is what `drive` replies first to the order by itself; what is kept or refused sends nothing."""
        full = HEADER + b"".join(absent_records(number) for number in range(10, FULL + 10))
        rows = [(DONE_JOURNAL, numbered(1), "known kept 0 Done"),
                (CLOSED, numbered(1), "known kept 5 DoubtOpen closed"),
                (DOUBT_OPEN, numbered(1), "known kept 5 DoubtOpen"), (DONE_JOURNAL, numbered(1, 9), "known reused"),
                (DONE_JOURNAL, numbered(2), "new"), (b"", numbered(1), "new"), (full, numbered(1), "full"),
                (full, numbered(10, 9), "known kept 3 Silent"), (full, numbered(10), "known reused")]
        for journal, order, word in rows:
            status, lines, _ = asked(self.folder, [order], journal)
            self.assertEqual((status, lines.split("\n")[7]), (0, word))
            sent, reply = first_reply(desk_of(self.folder, [order], journal), order["order"])
            due = {"new": "taken"}.get(word, word.removeprefix("known ").removesuffix(" closed"))
            self.assertEqual((reply, bool(sent)), (due, word == "new"))

    def test_a_drive_goes_on_with_what_is_begun(self):
        """An order that was begun is carried on before anything is replied, and is kept then."""
        for journal in (DONE_JOURNAL[:-4], DONE_JOURNAL[:-2], in_version_1(DONE_JOURNAL[:-2])):
            wants(self.folder, ["known begun"], 2, PRESENT, journal)
            sent, _ = first_reply(desk_of(self.folder, PRESENT, journal), 1)
            self.assertEqual(bool(sent), True)
            wants(self.folder, ["known kept 0 Done"], 2, PRESENT, (self.folder / "bench.journal").read_bytes())

    def test_a_drive_behind_older_ones_replies_so(self):
        """The same with an older journal."""
        for order, word, due in ((numbered(1), "known kept 0 Done", "kept 0 Done"),
                                 (numbered(1, 6), "known reused", "reused"), (numbered(2), "new", "taken")):
            wants(self.folder, [word], 2, [order], HEADER, DONE_JOURNAL)
            desk = desk_of(self.folder, [order], HEADER)
            desk.options = ["--older", self.folder / "older_0.journal"]
            self.assertEqual(first_reply(desk, order["order"])[1], due)

    def test_after_a_drive_all_is_known(self):
        """The orders of a drive are known to the next check, and the free number is above them."""
        desk = desk_of(self.folder, ABSENT)
        self.assertEqual(desk.give(SILENCE).status, 0)
        wants(self.folder, ["known kept 3 Silent"], 2, ABSENT, desk.held())
        self.assertEqual(desk.held() == ABSENT_JOURNAL, True)
        wants(self.folder, ["known kept 3 Silent"], 2, ABSENT, OLD_ABSENT_JOURNAL)


if __name__ == "__main__":
    sys.exit(beside.main(__doc__, ["test_known"], sys.argv[1:]))
