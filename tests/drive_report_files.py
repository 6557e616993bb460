"""Tests of the file of `--report`: what it may hold, how it grows run by run, and what becomes of a torn line."""

import fcntl
import json
import os
import resource

from base import BenchTest
from drive_desk import (
    ABSENT,
    ABSENT_BEGAN,
    DONE_JOURNAL,
    DONE_TOLD,
    KEPT_DONE,
    OLD_DONE_JOURNAL,
    PRESENT,
    SILENCE,
    absent_records,
    desk_of,
    last_line,
)
from drive_fixtures import UNTOLD, Verifying, blank_bus, kept, lines_of, reporting, text_of
from driven import FIELDS, HEADER, Ended, Following, line_from

FOREIGN = "line {} there is none of a report: name another file, or take that line out"
TAKEN = "the command has this file for something else"
IN_USE = "another command writes it"
BEFORE = kept(1, 5, 0, "before", 0, 0)
# A line of each kind, of the third run.
LAST = {**BEFORE, "run": 3}
END = {"answer": "zz", "fault": 3, "frame": "C301", "name": "Line", "run": 3}
FOUND = {"byte": None, "differs": [], "found": "same", "location": None, "order": 1, "run": 3, "unit": 5}
# The same as the version before wrote them.
EARLIER_FOUND = {key: FOUND[key] for key in FOUND if key != "differs"}
EARLIER_LAST = {key: LAST[key] for key in LAST if key != "cause"}


def most_differences():
    """Give all fields, each with the longest texts that a unit may have and an order may want."""
    found = []
    for it in FIELDS:
        longest = {"identification": "00" * it["bytes"], "text": "text " + '"' * it["bytes"]}
        text = longest.get(it["form"]) or max("raw " + "00" * it["bytes"], "unknown", key=len)
        found.append({"field": it["key"], "has": text, "wants": text})
    return found


class ReportFilesTest(BenchTest):
    """Reports of more than one run, and files that are none."""

    def test_runs_are_counted(self):
        desk = desk_of(self.folder, PRESENT)
        desk.journal.unlink(missing_ok=True)
        path = reporting(desk)
        bus = blank_bus(5)
        wanted = []
        commands = [desk, desk, Verifying(desk.program, self.folder, PRESENT)]
        for command in commands:
            command.options = desk.options
            self.assertEqual(command.over(bus).status, 0)
        wanted = [{**kept(1, 5, 0, "now", 112, 0), "run": 1}, {**BEFORE, "run": 2}, FOUND]
        self.assertEqual(path.read_text(), text_of(*wanted))
        # A command that has nothing to tell is no run.
        desk.write_orders([])
        self.assertEqual((desk.over(bus).status, path.read_text()), (0, text_of(*wanted)))
        stream = Following(desk.program, self.folder, PRESENT + PRESENT)
        stream.options = desk.options
        self.assertEqual(stream.over(bus).status, 0)
        self.assertEqual(path.read_text(), text_of(*wanted, {**BEFORE, "run": 4}, {**BEFORE, "run": 4}))
        # No run comes after the last count.
        path.write_text(text_of({**LAST, "run": 2 ** 64 - 2}))
        desk.write_orders(PRESENT)
        for _ in range(2):
            self.assertEqual(desk.over(bus).status, 0)
        self.assertEqual([json.loads(line)["run"] for line in path.read_text().splitlines()],
                         [2 ** 64 - 2, 2 ** 64 - 1, 2 ** 64 - 1])

    def test_a_report_of_an_earlier_version(self):
        desk = desk_of(self.folder, PRESENT, DONE_JOURNAL)
        path = reporting(desk)
        earlier = text_of(*({key: line[key] for key in line if key != "run"}
                            for line in (EARLIER_LAST, END, EARLIER_FOUND)))
        path.write_text(earlier)
        for runs in ([1], [1, 2]):
            self.assertEqual(desk.over(blank_bus(5)).status, 0)
            self.assertEqual(path.read_text(), earlier + text_of(*({**BEFORE, "run": run} for run in runs)))
        # One that has a run already, and no fields.
        path.write_text(earlier + text_of(EARLIER_FOUND))
        self.assertEqual(desk.over(blank_bus(5)).status, 0)
        self.assertEqual(path.read_text(), earlier + text_of(EARLIER_FOUND, {**BEFORE, "run": 4}))

    def test_a_line_is_torn_at_each_byte(self):
        desk = desk_of(self.folder, PRESENT, DONE_JOURNAL)
        path = reporting(desk)
        before = text_of({**LAST, "run": 6})
        for line in (LAST, END, FOUND):
            torn = text_of({**line, "run": 7})
            for zeros in ("", "\0", "\0" * 5000):
                for count in range(len(torn)):
                    path.write_text(before + torn[:count] + zeros)
                    # A line of which just the line feed is missing is a whole one; else it is cut away.
                    whole = count == len(torn) - 1
                    wanted = before + (torn if whole else "") + text_of({**BEFORE, "run": 8 if whole else 7})
                    self.assertEqual((zeros, count, desk.give(b"").status, path.read_text()), (zeros, count, 0, wanted))
            self.assertEqual((desk.give(b"").status, path.read_text()), (0, wanted + text_of({**BEFORE, "run": 9})))

    def test_what_a_cut_may_leave(self):
        desk = desk_of(self.folder, PRESENT, DONE_JOURNAL)
        path = reporting(desk)
        good = text_of({**LAST, "run": 6})
        for held, left in [("", "\0"), ("", "\0" * 5000), ("", "{"), (good, '{"code":' + "0" * 2040),
                           (good + "\n", ""), (good + "\n" + good, "\0\0"), ("\n", "{\"cau")]:
            path.write_text(held + left)
            # A run that has nothing to report leaves it.
            desk.write_orders([])
            self.assertEqual((left, desk.give(b"").status, path.read_text()), (left, 0, held + left))
            desk.write_orders(PRESENT)
            wanted = held + text_of({**BEFORE, "run": 7 if good in held else 1})
            self.assertEqual((left, desk.give(b"").status, path.read_text()), (left, 0, wanted))

    def test_a_torn_line_in_the_middle(self):
        desk = desk_of(self.folder, PRESENT, DONE_JOURNAL)
        path = reporting(desk)
        held = text_of(LAST) + text_of(LAST)[:50] + "\n"
        for text, run in [(held, 4), (held + text_of({**LAST, "run": 9}), 10), (held * 200, 4), ("{\n", 1)]:
            path.write_text(text)
            self.assertEqual(desk.give(b"").status, 0)
            self.assertEqual(path.read_text(), text + text_of({**BEFORE, "run": run}))

    def test_the_longest_lines(self):
        desk = desk_of(self.folder, PRESENT, DONE_JOURNAL)
        path = reporting(desk)
        most = 2 ** 64 - 1
        long = {"cause": {"byte": 255, "location": 0x77, "was": "other"}, "code": 255, "ended": "before",
                "frames": most, "misses": most, "moment": most, "name": "DoubtOpen", "order": most,
                "reply": "kept 5 DoubtOpen", "run": 1, "unit": 63}
        answer = {**END, "answer": "\\xFF" * 9, "name": "TooLong", "run": 1}
        found = {"byte": 255, "differs": most_differences(), "found": "other", "location": 0x77, "order": most,
                 "run": 1, "unit": 63}
        self.assertEqual(len(text_of({**found, "run": most})), 1277)
        text = text_of(long, answer, found) * 500
        path.write_text(text)
        self.assertEqual((desk.give(b"").status, path.read_text()), (0, text + text_of({**BEFORE, "run": 2})))

    def test_a_full_disk_tears_a_line(self):
        for more in (0, 1, 60, len(text_of({**BEFORE, "run": 2})) - 1):
            desk = desk_of(self.folder, PRESENT, DONE_JOURNAL)
            path = reporting(desk)
            held = text_of({**BEFORE, "run": 1})
            path.write_text(held)
            limit = len(held) + more

            def limited(limit=limit):
                resource.setrlimit(resource.RLIMIT_FSIZE, (limit, limit))

            ended = desk.give(b"", preexec_fn=limited, restore_signals=False)
            untold = f"error: the report can't be written: {path}: "
            self.assertEqual((more, ended.status, ended.told[:len(KEPT_DONE + untold)]), (more, 2, KEPT_DONE + untold))
            line = text_of({**BEFORE, "run": 2})
            self.assertEqual((more, path.read_text()), (more, held + line[:more]))
            whole = more == len(line) - 1
            wanted = held + (line if whole else "") + text_of({**BEFORE, "run": 3 if whole else 2})
            self.assertEqual((more, desk.give(b"").status, path.read_text()), (more, 0, wanted))

    def test_two_commands_over_one_report(self):
        for name in ("one", "other"):
            (self.folder / name).mkdir()
        first, second = desk_of(self.folder / "one", ABSENT), desk_of(self.folder / "other", PRESENT, DONE_JOURNAL)
        first.options = second.options = ["--report", self.folder / "report"]
        running = first.start()
        try:
            # Its first frame comes after the opening of the report.
            self.assertEqual(line_from(running.stdout), b"C301\n")
            self.assertEqual(second.give(b""), Ended(2, b"", KEPT_DONE + UNTOLD.format(self.folder / "report", IN_USE)))
            running.communicate(SILENCE, 20)
        finally:
            running.kill()
        self.assertEqual((running.returncode, lines_of(self.folder / "report")), (0, [kept(1, 9, 3, "now", 16, 8)]))
        self.assertEqual((second.give(b"").status, lines_of(self.folder / "report", 2)), (0, [BEFORE]))

    def test_a_pipe_that_somebody_reads(self):
        desk = desk_of(self.folder, PRESENT, DONE_JOURNAL)
        path = reporting(desk)
        os.mkfifo(path)
        reader = os.open(path, os.O_RDONLY | os.O_NONBLOCK)
        try:
            for _ in range(2):
                self.assertEqual(desk.give(b""), Ended(0, b"", KEPT_DONE))
                self.assertEqual(os.read(reader, 4096).decode(), text_of({**BEFORE, "run": 1}))
        finally:
            os.close(reader)

    def test_a_pipe_that_nobody_reads(self):
        desk = desk_of(self.folder, PRESENT, DONE_JOURNAL)
        path = reporting(desk)
        os.mkfifo(path)
        for command in (desk, Verifying(desk.program, self.folder, PRESENT)):
            command.options = desk.options
            ended = command.over(blank_bus(5))
            untold = UNTOLD.format(path, "broken pipe")
            self.assertEqual((ended.status, ended.told.splitlines()[-1] + "\n"), (2, untold))
        # Where there is nothing to tell, nobody is missed.
        desk.write_orders([])
        self.assertEqual(desk.give(b""), Ended(0, b"", ""))

    def test_reports_that_can_not_be_written(self):
        # Of the folder and of the file in one that isn't there only the beginning is known.
        places = {"/dev/full": "no storage space\n", self.folder: "", self.folder / "none" / "report": ""}
        for place, cause in places.items():
            for orders, answers, told in [(PRESENT, None, DONE_TOLD),
                                          (ABSENT, b"", "reply 1 taken\ndrive fault 4 End\n")]:
                desk = desk_of(self.folder, orders)
                desk.journal.unlink(missing_ok=True)
                desk.options = ["--report", place]
                ended = desk.over(blank_bus(5)) if answers is None else desk.give(answers)
                untold = f"error: the report can't be written: {place}: {cause}"
                self.assertEqual((place, ended.status, ended.told[:len(told + untold)]), (place, 2, told + untold))
                self.assertEqual((place, ended.told[len(told):].count("\n")), (place, 1))
        self.assertEqual(desk.held(), ABSENT_BEGAN)

    def test_files_that_are_no_report(self):
        desk = desk_of(self.folder, PRESENT, DONE_JOURNAL)
        report = reporting(desk)
        good = text_of(LAST)
        foreign = [
            # Orders line by line, a scenario, a bank, other JSON, and no JSON.
            '{"order":1}\n', '{"submit":{}}\n', '{"limit":1}', "77 FF\n", "[]\n", "null", " \n", "\0\n",
            "\ufeff" + good,
            # One key less, one more, another one, and one of another kind.
            text_of({key: LAST[key] for key in LAST if key != "unit"}), text_of({**LAST, "more": 1}),
            text_of({**{key: LAST[key] for key in LAST if key != "unit"}, "more": 1}), text_of({**FOUND, "code": 0}),
            text_of({**EARLIER_FOUND, "differ": []}), text_of({**EARLIER_LAST, "causes": None}),
            text_of({key: FOUND[key] for key in FOUND if key != "run"}),
            '{"code":0}\n', '{"answer":"--"}\n', '{"byte":1}\n',
            # A run that is no count, and lines that are too long or begin otherwise.
            text_of({**LAST, "run": "3"}), text_of({**LAST, "run": -1}), text_of({**LAST, "run": 1.5}),
            text_of({**LAST, "run": None}), '{"code":' + " " * 2041 + "\n", '{"codes":', '{ "code":', "{}\n", '{"ab',
            "}\n",
            # A line that is too long for a report, as of another program's file, and zeros that other bytes follow.
            good.rstrip("\n") + " " * 2048, '{"code":200,"data":"' + "a" * 5000 + '"}', '{"code":' + "0" * 2041,
            good.rstrip("\n") + "\0 ",
        ]
        for text in foreign:
            for held in (text, good + text, good + text.rstrip("\n") + "\n" + good):
                report.write_text(held)
                number = 1 + held.startswith(good) * (held != text)
                self.assertEqual((held, desk.over(blank_bus(5))),
                                 (held, Ended(2, b"", KEPT_DONE + UNTOLD.format(report, FOREIGN.format(number)))))
                self.assertEqual(report.read_text(), held)
        report.write_bytes(good.encode() + b"\xff\n")
        self.assertEqual(desk.over(blank_bus(5)).status, 2)

    def test_files_of_the_command_are_no_report(self):
        desk = desk_of(self.folder, PRESENT, DONE_JOURNAL)
        older, other = self.folder / "older", self.folder / "other"
        older.write_bytes(HEADER + absent_records(7))
        other.hardlink_to(desk.journal)
        for place in (desk.journal, desk.orders, older, other):
            held = place.read_bytes()
            desk.options = ["--older", older, "--report", place]
            self.assertEqual((place, desk.over(blank_bus(5))),
                             (place, Ended(2, b"", KEPT_DONE + UNTOLD.format(place, TAKEN))))
            self.assertEqual(place.read_bytes(), held)
        for place in (self.folder / "link", self.folder / "to_none"):
            place.symlink_to(older if place.name == "link" else self.folder / "none")
            desk.options = ["--report", place]
            self.assertEqual(desk.over(blank_bus(5)),
                             Ended(2, b"", KEPT_DONE + UNTOLD.format(place, "it is a link: name the file itself")))
        assert not (self.folder / "none").exists()
        desk.options = ["--report", "-"]
        self.assertEqual(desk.over(blank_bus(5)),
                         Ended(2, b"", KEPT_DONE + UNTOLD.format("-", "it is standard output, where the frames go")))
        self.assertEqual((desk.held(), older.read_bytes()), (DONE_JOURNAL, HEADER + absent_records(7)))
        scenario = Verifying(desk.program, self.folder, PRESENT)
        scenario.options = ["--report", scenario.orders]
        held = scenario.orders.read_bytes()
        self.assertEqual(last_line(scenario.over(blank_bus(5)))[2], UNTOLD.format(scenario.orders, TAKEN).rstrip("\n"))
        self.assertEqual(scenario.orders.read_bytes(), held)

    def test_a_report_never_takes_the_place_of_a_journal(self):
        for start in (None, b"", OLD_DONE_JOURNAL, DONE_JOURNAL):
            for name in ("journal.new", "journal", "./journal", "./journal.new"):
                desk = desk_of(self.folder, PRESENT)
                for left in (desk.journal, desk.journal.with_name(desk.journal.name + ".new")):
                    left.unlink(missing_ok=True)
                if start is not None:
                    desk.journal.write_bytes(start)
                place = f"{desk.journal.parent}/{name.replace('journal', desk.journal.name)}"
                desk.options = ["--report", place]
                ended = desk.over(blank_bus(5))
                self.assertEqual((start, name, last_line(ended)[2]),
                                 (start, name, UNTOLD.format(place, TAKEN).rstrip("\n")))
                self.assertEqual((start, desk.held()[:4]), (start, HEADER[:4]))
                desk.options = []
                self.assertEqual(desk.over(blank_bus(5)).told, KEPT_DONE)

    def test_a_report_in_the_way_of_a_journal_behind_a_link(self):
        desk = desk_of(self.folder, PRESENT)
        real = self.folder / "real"
        real.mkdir()
        (real / "journal").write_bytes(OLD_DONE_JOURNAL)
        desk.journal.unlink(missing_ok=True)
        desk.journal.symlink_to(real / "journal")
        desk.options = ["--report", real / "journal.new"]
        ended = desk.over(blank_bus(5))
        self.assertEqual((ended.status, ended.sent, last_line(ended)[2]), (2, b"", "fault 21 File"))
        self.assertEqual((real / "journal").read_bytes(), OLD_DONE_JOURNAL)
        desk.options = []
        self.assertEqual(desk.over(blank_bus(5)).told, KEPT_DONE)

    def test_a_report_stays_where_there_is_nothing_to_add(self):
        desk = desk_of(self.folder, PRESENT)
        desk.journal.unlink(missing_ok=True)
        path = reporting(desk)
        self.assertEqual(desk.over(blank_bus(5)).status, 0)
        held, orders = path.read_bytes(), desk.orders.read_bytes()
        desk.orders.write_text("[")
        self.assertEqual((desk.over(blank_bus(5)).status, path.read_bytes()), (1, held))
        desk.orders.unlink()
        self.assertEqual((desk.over(blank_bus(5)).status, path.read_bytes()), (2, held))
        desk.orders.write_bytes(orders)
        desk.options = [*desk.options, "--older", self.folder / "none"]
        self.assertEqual((desk.over(blank_bus(5)).status, path.read_bytes()), (2, held))
        desk.options = desk.options[:2]
        with open(desk.journal, "rb") as journal:
            fcntl.flock(journal, fcntl.LOCK_EX)
            self.assertEqual((desk.over(blank_bus(5)).status, path.read_bytes()), (2, held))
        with open(path, "rb") as report:
            fcntl.flock(report, fcntl.LOCK_EX)
            self.assertEqual(desk.over(blank_bus(5)),
                             Ended(2, b"", KEPT_DONE + UNTOLD.format(path, "another command writes it")))
            self.assertEqual(path.read_bytes(), held)
        desk.orders.write_text("[]")
        self.assertEqual((desk.over(blank_bus(5)).status, path.read_bytes()), (0, held))
