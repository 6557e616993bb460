"""Tests of `drive --older`: journals that are full or retired, whose orders get their kept replies."""

import fcntl
import json
import os

from base import BenchTest, preloaded, want
from drive_desk import (
    ABSENT,
    ABSENT_BEGAN,
    ABSENT_FRAMES,
    ABSENT_JOURNAL,
    ABSENT_RECORDS,
    DONE_JOURNAL,
    DONE_RECORDS,
    DONE_TOLD,
    FAULT_21,
    GTIN,
    KEPT_DONE,
    KEPT_SILENT,
    LEFT_JOURNAL,
    MOST_JOURNAL,
    OLD_ABSENT_BEGAN,
    OLD_DONE_JOURNAL,
    PRESENT,
    SILENCE,
    absent_records,
    desk_of,
    last_line,
)
from drive_fixtures import Live, blank_bus, following, kept, lines_of, piped, reporting, unkept
from driven import HEADER, Ended

SECOND = [{"order": 2, "unit": 9, "gtin": GTIN}]
SECOND_TOLD = "reply 2 taken\nreply 2 kept 3 Silent\n"
FAULT_15 = (1, b"", "fault 15 Older")
OPENED = DONE_JOURNAL[:-2]
FULL = 100000


def behind(desk, *journals):
    """Have a desk's runs name older journals of these bytes; give their paths."""
    paths = []
    for count, journal in enumerate(journals):
        paths.append(desk.folder / f"older_{count}.journal")
        paths[-1].write_bytes(journal)
    desk.options = [word for path in paths for word in ("--older", path)]
    return paths


def desks(folder, orders, journal=None):
    """Give a desk that drives all the orders of a file, and one that follows them line by line."""
    for make in (desk_of, following):
        place = folder / make.__name__
        place.mkdir(exist_ok=True)
        (place / "bench.journal").unlink(missing_ok=True)
        yield make(place, orders, journal)


def behind_words(desk, *journals):
    """Give the words that name older journals of these bytes, and leave a desk's options as they are."""
    options = desk.options
    behind(desk, *journals)
    words, desk.options = desk.options, options
    return words


class OlderTest(BenchTest):
    """Answers from an older journal."""

    def test_an_order_of_an_older_journal_is_not_carried_out_again(self):
        for older in (DONE_JOURNAL, OLD_DONE_JOURNAL):
            for desk in desks(self.folder, PRESENT * 2):
                behind(desk, older)
                self.assertEqual((older, desk.give(b"")), (older, Ended(0, b"", desk.ready + KEPT_DONE * 2)))
                self.assertEqual(desk.held(), HEADER)

    def test_a_number_of_an_older_journal_with_other_contents(self):
        for orders in ([{"order": 1, "unit": 6, "gtin": GTIN}], [{"order": 1, "unit": 5, "year": 24}], ABSENT):
            for desk in desks(self.folder, orders):
                behind(desk, DONE_JOURNAL)
                self.assertEqual(desk.give(b""), Ended(0, b"", desk.ready + "reply 1 reused\n"))
                self.assertEqual(desk.held(), HEADER)

    def test_all_else_goes_to_the_journal_alone(self):
        for desk in desks(self.folder, [*PRESENT, *SECOND, *PRESENT]):
            older, = behind(desk, DONE_JOURNAL)
            self.assertEqual(desk.give(SILENCE),
                             Ended(0, ABSENT_FRAMES, desk.ready + KEPT_DONE + SECOND_TOLD + KEPT_DONE))
            self.assertEqual((desk.held(), older.read_bytes()), (HEADER + absent_records(2), DONE_JOURNAL))
            # By itself the journal is one, and knows nothing of the older one.
            desk.options = []
            desk.write_orders([*SECOND, *ABSENT])
            told = desk.ready + "reply 2 kept 3 Silent\nreply 1 taken\n" + KEPT_SILENT
            self.assertEqual(desk.give(SILENCE), Ended(0, ABSENT_FRAMES, told))

    def test_several_older_journals(self):
        for desk in desks(self.folder, [*PRESENT, *SECOND, {"order": 3, "unit": 9, "gtin": GTIN}]):
            behind(desk, DONE_JOURNAL, HEADER, b"", HEADER + absent_records(2))
            told = desk.ready + KEPT_DONE + "reply 2 kept 3 Silent\nreply 3 taken\nreply 3 kept 3 Silent\n"
            self.assertEqual(desk.give(SILENCE), Ended(0, ABSENT_FRAMES, told))
            self.assertEqual(desk.held(), HEADER + absent_records(3))

    def test_what_the_journal_still_asks_for_is_done_first(self):
        for desk in desks(self.folder, PRESENT, HEADER + absent_records(2)[:-2]):
            behind(desk, DONE_JOURNAL)
            self.assertEqual(desk.give(SILENCE),
                             Ended(0, ABSENT_FRAMES, "reply 2 kept 3 Silent\n" + desk.ready + KEPT_DONE))
            self.assertEqual(desk.held(), HEADER + absent_records(2))

    def test_a_journal_is_retired_and_the_next_one_begun(self):
        bus = blank_bus(5)
        desk = desk_of(self.folder, PRESENT)
        self.assertEqual(desk.over(bus).told, DONE_TOLD)
        retired = self.folder / "retired.journal"
        desk.journal.rename(retired)
        desk.options = ["--older", retired]
        self.assertEqual((desk.over(bus).told, desk.held()), (KEPT_DONE, HEADER))
        desk.write_orders([{"order": 2, "unit": 5, "gtin": GTIN}])
        self.assertEqual(desk.over(bus).told, "reply 2 taken\nreply 2 kept 0 Done\n")
        self.assertEqual(desk.held(), HEADER + DONE_RECORDS[:8] + b"\2" + DONE_RECORDS[9:])

    def test_reports_of_orders_that_older_journals_have(self):
        moment = 1700000000
        older = HEADER + absent_records(1, moment)
        for desk in desks(self.folder, [*ABSENT, *PRESENT, *SECOND]):
            path = reporting(desk, "--require-done", "--moment", "7")
            path.unlink(missing_ok=True)
            desk.options += behind_words(desk, older)
            self.assertEqual(desk.give(SILENCE).status, 1)
            self.assertEqual(lines_of(path),
                             [kept(1, 9, 3, "before", 0, 0, moment), unkept(1, 5, "reused", moment=moment),
                              kept(2, 9, 3, "now", 16, 8, 7)])

    def test_full_journals(self):
        full = HEADER + b"".join(absent_records(number) for number in range(10, 10 + FULL))
        first, last = {"order": 10, "unit": 9, "gtin": GTIN}, {"order": FULL + 9, "unit": 5, "year": 9}
        told = f"reply 10 kept 3 Silent\n{SECOND_TOLD}reply {FULL + 9} reused\n"
        for desk in desks(self.folder, [first, *SECOND, last]):
            behind(desk, full)
            self.assertEqual(desk.give(SILENCE), Ended(0, ABSENT_FRAMES, desk.ready + told))
            self.assertEqual(desk.held(), HEADER + absent_records(2))
        for desk in desks(self.folder, [*SECOND, *PRESENT], full):
            behind(desk, DONE_JOURNAL)
            self.assertEqual(desk.give(b""), Ended(0, b"", desk.ready + "reply 2 full\n" + KEPT_DONE))
            self.assertEqual(desk.held(), full)


def refused(folder, words, *journals, held=None):
    """Runs with these older journals are refused with these words, send nothing, and leave the journal as it is."""
    for desk in desks(folder, PRESENT, held):
        behind(desk, *journals)
        ended = desk.give(b"")
        want((ended.status, ended.sent), (1, b""))
        lines = ended.told.splitlines()
        want((len(lines), lines[-1]), (2, "fault 15 Older"))
        assert words in lines[0] and lines[0].startswith("error: "), (words, lines)
        want(desk.journal.read_bytes() if desk.journal.exists() else None, held)


class RefusedOlderTest(BenchTest):
    """Older journals that can't be used."""

    def test_an_older_journal_that_is_not_at_rest(self):
        for journal in (ABSENT_BEGAN, OLD_ABSENT_BEGAN, OPENED, LEFT_JOURNAL):
            refused(self.folder, "isn't at rest", journal)
            refused(self.folder, "isn't at rest", HEADER + absent_records(2), journal, held=HEADER)

    def test_an_older_journal_whose_end_is_cut(self):
        half_ended, half_begun = DONE_JOURNAL + absent_records(2)[:-1], DONE_JOURNAL + absent_records(2)[:9]
        for journal in (OPENED + b"E", half_ended, half_begun, DONE_JOURNAL[:20], OLD_DONE_JOURNAL[:20], HEADER + b"B"):
            refused(self.folder, "end is cut", journal)
            refused(self.folder, "end is cut", HEADER + absent_records(2), journal, held=HEADER)
        # Driven once more it ends whole, and may be named.
        desk = desk_of(self.folder, [], half_begun)
        self.assertEqual(desk.give(b"").status, 0)
        older = self.folder / "driven_once_more"
        desk.journal.rename(older)
        desk = desk_of(self.folder, PRESENT)
        desk.options = ["--older", older]
        self.assertEqual(desk.give(b""), Ended(0, b"", KEPT_DONE))

    def test_an_older_journal_that_is_none(self):
        for journal, number in [(b"x", 3), (DONE_JOURNAL + b"x", 3), (DONE_JOURNAL + b"E\0", 4), (b"DB", 7),
                                (b"DB1\3", 7), (DONE_JOURNAL + DONE_RECORDS, 5), (DONE_JOURNAL[:-1] + b"\6", 3),
                                (b"[]", 3)]:
            refused(self.folder, f"journal fault {number} ", journal, held=ABSENT_JOURNAL)
        refused(self.folder, "too big", HEADER + bytes(MOST_JOURNAL))

    def test_a_number_in_two_journals(self):
        for journals in ([DONE_JOURNAL] * 2, [DONE_JOURNAL, OLD_DONE_JOURNAL], [DONE_JOURNAL, ABSENT_JOURNAL],
                         [HEADER + absent_records(2), DONE_JOURNAL, HEADER + absent_records(3) + ABSENT_RECORDS]):
            refused(self.folder, "order 1 stands in two journals", *journals, held=HEADER + absent_records(4))
        refused(self.folder, "order 1 stands in two journals: ", DONE_JOURNAL, held=DONE_JOURNAL)
        refused(self.folder, "order 7 stands in two journals", HEADER + absent_records(7),
                held=HEADER + absent_records(7)[:-2])

    def test_the_number_0_in_two_journals(self):
        zero, words = HEADER + absent_records(0), "order 0 stands in two journals"
        refused(self.folder, words, zero, held=zero)
        refused(self.folder, words, zero, held=zero[:-2])
        for journals in ([zero, zero], [zero, DONE_JOURNAL, HEADER + absent_records(5) + absent_records(0)]):
            refused(self.folder, words, *journals)
            refused(self.folder, words, *journals, held=HEADER + absent_records(2))

    def test_the_journal_itself_named_as_an_older_one(self):
        desk = desk_of(self.folder, SECOND, ABSENT_JOURNAL)
        desk.options = ["--older", desk.journal]
        self.assertEqual((last_line(desk.give(b"")), desk.held()), (FAULT_15, ABSENT_JOURNAL))

    def test_a_file_that_is_no_older_journal(self):
        for desk in desks(self.folder, PRESENT):
            pipe = desk.folder / "pipe"
            os.mkfifo(pipe)
            for path, words in [(desk.folder / "none", "No such file"), (desk.folder, "no regular file"),
                                (pipe, "no regular file"), ("/dev/null", "no regular file")]:
                desk.options = ["--older", path]
                ended = desk.give(b"")
                self.assertEqual((path, last_line(ended)), (path, FAULT_21))
                assert str(path) in ended.told and words in ended.told, (words, ended)
                assert not desk.journal.exists()

    def test_an_older_journal_that_a_drive_has_open(self):
        for desk in desks(self.folder, PRESENT):
            older, = behind(desk, DONE_JOURNAL)
            with open(older, "rb") as file:
                fcntl.flock(file, fcntl.LOCK_EX)
                ended = desk.give(b"")
            self.assertEqual((last_line(ended), desk.journal.exists()), (FAULT_21, False))
            assert "in use" in ended.told, ended
            self.assertEqual(desk.give(b"").told, desk.ready + KEPT_DONE)

    def test_all_older_journals_are_opened_before_one_is_read(self):
        for desk in desks(self.folder, PRESENT):
            _, second = behind(desk, ABSENT_BEGAN, DONE_JOURNAL)
            with open(second, "rb") as file:
                fcntl.flock(file, fcntl.LOCK_EX)
                ended = desk.give(b"")
            self.assertEqual((last_line(ended), desk.journal.exists()), (FAULT_21, False))
            assert str(second) in ended.told and "in use" in ended.told, ended
            second.unlink()
            ended = desk.give(b"")
            self.assertEqual((last_line(ended), desk.journal.exists()), (FAULT_21, False))
            assert str(second) in ended.told and "No such file" in ended.told, ended

    def test_a_pipe_of_orders_is_opened_behind_the_older_journals(self):
        # Nobody opens the pipe to write to it here, so that a run which opened it would wait and not end.
        desk = piped(self.folder)
        for journals in ([ABSENT_BEGAN], [b"x"], [DONE_JOURNAL, OLD_ABSENT_BEGAN], [DONE_JOURNAL, OLD_DONE_JOURNAL]):
            behind(desk, *journals)
            self.assertEqual((journals, last_line(desk.give(b""))), (journals, FAULT_15))
            assert not desk.journal.exists()
        desk.options = ["--older", desk.folder / "none"]
        self.assertEqual((last_line(desk.give(b"")), desk.journal.exists()), (FAULT_21, False))
        # Behind one that can be used it is opened, and its orders are answered.
        behind(desk, DONE_JOURNAL)
        live = Live(desk, blank_bus(5))
        os.write(live.pipe, json.dumps(PRESENT[0]).encode() + b"\n")
        self.assertEqual((live.told(1), live.end()), (KEPT_DONE, Ended(0, b"", "")))
        self.assertEqual(desk.held(), HEADER)

    def test_refused_orders_leave_the_journal_alone(self):
        desk = desk_of(self.folder, [{"order": 2, "unit": 9, "gtin": "1"}], OLD_ABSENT_BEGAN)
        behind(desk, HEADER + absent_records(7))
        self.assertEqual((desk.give(b""), desk.held()), (Ended(1, b"", "item 1 fault 4 Gtin\n"), OLD_ABSENT_BEGAN))


class StopsTest(BenchTest):
    """Kills, and memory that is refused."""

    def test_kills_behind_an_older_journal(self):
        for make in (desk_of, following):
            for count in range(1, 17):
                for moment in ("sent", "carried"):
                    place = self.folder / f"{make.__name__}_{count}_{moment}"
                    place.mkdir()
                    desk = make(place, [*PRESENT, *SECOND])
                    behind(desk, DONE_JOURNAL)
                    bus = blank_bus(5)
                    desk.over(bus, (count, moment))
                    ended = desk.over(bus)
                    self.assertEqual((ended.status, desk.held()), (0, HEADER + absent_records(2)))
                    assert ended.told.endswith("reply 2 kept 3 Silent\n") and KEPT_DONE in ended.told, ended

    def test_each_allocation_refused(self):
        kept_silent = "reply 2 kept 3 Silent\n"
        told_again = [KEPT_DONE + SECOND_TOLD, KEPT_DONE + kept_silent, kept_silent + KEPT_DONE + kept_silent]
        ran_out = 0
        for number in range(1, 100000):
            desk = desk_of(self.folder, [*PRESENT, *SECOND])
            behind(desk, DONE_JOURNAL, HEADER + absent_records(3))
            preload = {"LD_PRELOAD": str(preloaded("refuse_alloc")), "REFUSED_ALLOCATION": str(number)}
            ended = desk.give(SILENCE, preload)
            told = ended.told.replace("an allocation was refused\n", "")
            if told == ended.told:
                break
            # Before the command line is read it isn't known that the output is a link.
            places = told[-16:], number <= 20 and ended.sent.decode()
            ended_by_want = ended.status == 2 and "fault 20 Memory\n" in places
            assert ended_by_want or (ended.status, told) == (0, KEPT_DONE + SECOND_TOLD), (number, ended)
            assert not ended_by_want or desk.give(SILENCE).told in told_again
            self.assertEqual(desk.held(), HEADER + absent_records(2))
            desk.journal.unlink()
            ran_out += ended_by_want
        assert ran_out > 20, "hardly a refused allocation ended as want of memory"
