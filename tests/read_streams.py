"""Tests of `read`, `verify` and `scan` over streams that are known byte for byte, end, fail, are closed or full."""

import os
import subprocess

import driven
from base import BenchTest, preloaded, want
from drive_desk import ABSENT, PRESENT, last_line, unread, unwritten
from driven import Ended
from read_desk import (
    ANSWERS_17,
    GIVEN_17,
    SAME,
    SENT_17,
    SILENT,
    TEXT_17,
    TOLD_17,
    VERIFY_GIVEN,
    VERIFY_SENT,
    as_lines,
    desk_for,
)
from read_plan import carried

COMMANDS = ("read", "verify", "scan")
# The frames, lines and status of each command if nobody answers.
NOBODY_SENT = b"C301\n0B9C\n" * 8
SCAN_SENT = b"".join((b"C301\n%02X9C\n" % (2 * unit + 1)) * 8 for unit in range(64))
NOBODY = {
    "read": Ended(1, NOBODY_SENT, SILENT),
    "verify": Ended(1, NOBODY_SENT, "order 1 unit 5 silent\n"),
    "scan": Ended(0, SCAN_SENT, "units 0\n"),
}
SILENCE = b"--\n" * 1024
MOST_ORDERS = 16777216
LINES = {"123456789": "6 TooLong", "12345678": "3 Line", "-5": "3 Line", "": "3 Line", "-": "3 Line", "---": "3 Line",
         "0G": "3 Line", " 05": "3 Line", "5": "3 Line", "\r": "3 Line", "--\r\r": "3 Line", "12345678\r": "6 TooLong",
         "1234567\r": "3 Line", "x" * 5000: "6 TooLong", "\0\0": "3 Line", "\xff\xfe": "3 Line"}


def want_no_file(desk):
    """Raise where HEXFILE, or the file that is to take its place, is there."""
    want((desk.text(), desk.new().exists()), (None, False))


def failing_errors():
    """Give standard errors that can't be written, by a name."""
    reading, writing = os.pipe()
    os.close(reading)
    return {"full": os.open("/dev/full", os.O_WRONLY), "closed by its reader": writing}


class StreamsTest(BenchTest):
    """Streams that are known byte for byte, that end, fail or are closed."""

    def test_nobody(self):
        for command in COMMANDS:
            desk = desk_for(self.folder, command)
            self.assertEqual((command, desk.give(SILENCE)), (command, NOBODY[command]))
            want_no_file(desk)

    def test_answers_that_are_known(self):
        desk = desk_for(self.folder, "read")
        self.assertEqual((desk.give(GIVEN_17), desk.text()), (Ended(0, SENT_17, TOLD_17), TEXT_17))
        self.assertEqual(desk_for(self.folder, "verify").give(as_lines(VERIFY_GIVEN)), Ended(0, VERIFY_SENT, SAME))

    def test_answers_as_they_may_be_spelled(self):
        # Answers to DTR0 and DTR1 are passed over, digits may be small, and a carriage return may stand there.
        spelled = [f"{answer.lower()}\r\n" if number % 2 else f"{answer}\n" for number, answer in enumerate(ANSWERS_17)]
        for passed_over in ("--", "01", "FF", "00"):
            given = "".join(spelled).replace("--", passed_over).encode()
            desk = desk_for(self.folder, "read")
            self.assertEqual((desk.give(given), desk.text()), (Ended(0, SENT_17, TOLD_17), TEXT_17))

    def test_each_other_answer(self):
        # A wanted answer that is another one ends the try; it is read again, and then the link ends.
        for number, answer in enumerate(ANSWERS_17):
            for other in ("--", "02" if answer != "02" else "03"):
                given = "".join(it + "\n" for it in [*ANSWERS_17[:number], other] + 4 * ["--"]).encode()
                desk = desk_for(self.folder, "read")
                ended, wanted = desk.give(given), desk.wanted(carried(given))
                self.assertEqual((number, ended), (number, Ended(*wanted[:3])))
                want_no_file(desk)

    def test_a_link_that_ends_at_each_byte(self):
        for length in range(len(GIVEN_17)):
            desk = desk_for(self.folder, "read")
            self.assertEqual((length, desk.give(GIVEN_17[:length])),
                             (length, Ended(1, SENT_17[:5 * (length // 3 + 1)], "drive fault 4 End\n")))
            want_no_file(desk)
        for command in COMMANDS:
            for length in (0, 1, 2, 3, 5, 16, 47):
                self.assertEqual((command, length, desk_for(self.folder, command).give(SILENCE[:length])),
                                 (command, length,
                                  Ended(1, NOBODY[command].sent[:5 * (length // 3 + 1)], "drive fault 4 End\n")))

    def test_what_was_told_before_the_link_ended(self):
        given = SILENCE[:48] + as_lines("-- 01 -- 00 10 01 01") + SILENCE[:9]
        sent = SCAN_SENT[:80] + b"C301\n039C\nA300\n0398\n03C5\n0398\n039C\n" + b"C301\n059C\n" * 2
        self.assertEqual(desk_for(self.folder, "scan").give(given),
                         Ended(1, sent, "unit 1 last 10\ndrive fault 4 End\n"))
        desk = desk_for(self.folder, "verify", [*PRESENT, {**PRESENT[0], "order": 2}])
        self.assertEqual(desk.give(as_lines(VERIFY_GIVEN) + b"--"),
                         Ended(1, VERIFY_SENT + b"C301\n", SAME + "drive fault 4 End\n"))

    def test_lines_that_are_no_answer(self):
        for line, fault in LINES.items():
            given = line.encode("latin-1") + b"\n"
            for command in COMMANDS:
                desk = desk_for(self.folder, command)
                self.assertEqual((line, command, desk.give(given + SILENCE)),
                                 (line, command, Ended(1, b"C301\n", f"drive fault {fault}\n")))
                want_no_file(desk)
            for number in (1, 4, 6, 28):
                given = GIVEN_17[:3 * number] + line.encode("latin-1") + b"\n" + SILENCE
                desk = desk_for(self.folder, "read")
                self.assertEqual((line, number, desk.give(given)),
                                 (line, number, Ended(1, SENT_17[:5 * number + 5], f"drive fault {fault}\n")))
                want_no_file(desk)

    def test_more_answers_than_frames(self):
        desk = desk_for(self.folder, "read")
        self.assertEqual((desk.give(GIVEN_17 + b"garbage that nobody reads"), desk.text()),
                         (Ended(0, SENT_17, TOLD_17), TEXT_17))

    def test_orders_that_are_refused(self):
        bad = {"order": 2, "unit": 9, "gtin": "1"}
        cases = [([*ABSENT, bad], "item 2 fault 4 Gtin"), ([{**bad, "unit": 64}], "item 1 fault 1 Unit"),
                 ([bad, *ABSENT, {"order": 3, "unit": 9}], "item 1 fault 4 Gtin\nitem 3 fault 8 Empty")]
        for orders, lines in cases:
            self.assertEqual((orders, desk_for(self.folder, "verify", orders).give(SILENCE)),
                             (orders, Ended(1, b"", lines + "\n")))
        for orders, line in [("[", "fault 11 Json"), ("{}", "fault 12 Document"), ("", "fault 11 Json")]:
            self.assertEqual((orders, last_line(desk_for(self.folder, "verify", orders).give(SILENCE))),
                             (orders, (1, b"", line)))
        desk = desk_for(self.folder, "verify")
        for size, line in [(MOST_ORDERS, "fault 11 Json"), (MOST_ORDERS + 1, "fault 13 TooBig")]:
            os.truncate(desk.orders, size)
            self.assertEqual((size, last_line(desk.give(SILENCE, timeout=3 * driven.PATIENCE))), (size, (1, b"", line)))
        desk.orders.unlink()
        self.assertEqual(last_line(desk.give(SILENCE)), (2, b"", "fault 21 File"))
        desk.orders.mkdir()
        self.assertEqual(last_line(desk.give(SILENCE)), (2, b"", "fault 21 File"))
        desk.orders.rmdir()
        self.assertEqual(desk_for(self.folder, "verify", []).give(SILENCE),
                         Ended(1, b"", "error: nothing was done: ORDERS has no orders\n"))

    def test_units_that_are_none(self):
        for unit in ("64", "-1", "256", "05x", "", "0x5", "5.0", " 5", "18446744073709551621"):
            desk = desk_for(self.folder, "read")
            desk.unit = unit
            ended = desk.give(SILENCE)
            self.assertEqual((unit, ended.status, ended.sent), (unit, 1, b""))
            assert ended.told and "silent" not in ended.told, (unit, ended)
            want_no_file(desk)

    def test_standard_output_that_fails(self):
        for command in COMMANDS:
            desk = desk_for(self.folder, command)
            with open("/dev/full", "wb") as full:
                self.assertEqual((command, desk.give(SILENCE, stdout=full)),
                                 (command, Ended(2, None, unwritten("no storage space"))))
            for is_restored in (True, False):
                reading, writing = os.pipe()
                os.close(reading)
                ended = desk.give(SILENCE, stdout=writing, restore_signals=is_restored)
                os.close(writing)
                self.assertEqual((command, ended), (command, Ended(2, None, unwritten("broken pipe"))))
            want_no_file(desk)

    def test_standard_input_that_is_a_folder(self):
        for command in COMMANDS:
            desk = desk_for(self.folder, command)
            inside = os.open(self.folder, os.O_RDONLY)
            running = desk.start(stdin=inside)
            os.close(inside)
            found = running.communicate(timeout=driven.PATIENCE)
            self.assertEqual((command, running.returncode, *found),
                             (command, 2, b"C301\n", unread("is a directory").encode()))
            want_no_file(desk)

    def test_standard_error_that_fails(self):
        for command, given in [("read", GIVEN_17), ("verify", as_lines(VERIFY_GIVEN)), ("scan", SILENCE),
                               ("read", SILENCE), ("verify", SILENCE), ("read", b""), ("verify", b""), ("scan", b"")]:
            for how, error in failing_errors().items():
                desk = desk_for(self.folder, command)
                ended = desk.give(given, stderr=error)
                os.close(error)
                self.assertEqual((command, how, ended.status), (command, how, 2))
                self.assertEqual((command, how, ended.sent), (command, how, desk.wanted(carried(given)).sent))
                self.assertEqual((desk.text(), desk.new().exists()), (TEXT_17 if given is GIVEN_17 else None, False))

    def test_standard_error_that_takes_no_line_of_a_scan(self):
        # The first line that can't be written ends the run: no frame is sent whose result nobody can read.
        given = as_lines("-- 01 -- 00 10 01 01") * 64
        for how, error in failing_errors().items():
            ended = desk_for(self.folder, "scan").give(given, stderr=error)
            os.close(error)
            self.assertEqual((how, ended.status, ended.sent), (how, 2, b"C301\n019C\nA300\n0198\n01C5\n0198\n019C\n"))

    def test_streams_that_are_closed_at_the_start(self):
        for command, given in [("read", GIVEN_17), ("verify", as_lines(VERIFY_GIVEN)), ("scan", SILENCE)]:
            for closed in [{0}, {1}, {2}, {0, 1}, {0, 2}, {1, 2}, {0, 1, 2}]:
                desk = desk_for(self.folder, command)
                ended = desk.give(given, preexec_fn=lambda: [os.close(stream) for stream in closed])
                case = command, closed
                most = desk.wanted(carried(given)).sent
                most = b"" if 1 in closed else most[:5] if 0 in closed else most
                assert ended.status == 2 and most.startswith(ended.sent), (case, ended)
                self.assertEqual((case, desk.text() in (None, TEXT_17), desk.new().exists()), (case, True, False))
                assert command != "verify" or desk.orders.read_text() == driven.json.dumps(PRESENT), case
                if 2 not in closed:
                    self.assertEqual((case, ended.told.splitlines()[-1:]), (case, ["drive fault 2 Link"]))

    def test_a_frame_is_sent_only_once_the_last_one_is_answered(self):
        for command, given in [("read", GIVEN_17), ("verify", as_lines(VERIFY_GIVEN)), ("scan", SILENCE[:60])]:
            desk = desk_for(self.folder, command)
            running = desk.start()
            for line in given.splitlines(keepends=True):
                # More than one line at once is refused here.
                driven.line_from(running.stdout)
                running.stdin.write(line)
            running.stdin.close()
            self.assertEqual(running.stdout.read(), b"C301\n" if command == "scan" else b"")
            self.assertEqual((command, running.wait(driven.PATIENCE)), (command, 1 if command == "scan" else 0))
            running.stdout.close()
            running.stderr.close()

    def test_show_takes_what_read_wrote(self):
        desk = desk_for(self.folder, "read")
        desk.give(GIVEN_17)
        for words, given in [([desk.bank], ""), (["-"], TEXT_17)]:
            shown = subprocess.run([desk.program, "show", *words], input=given, capture_output=True, text=True)
            self.assertEqual((shown.returncode, shown.stderr), (0, ""))
            self.assertEqual(shown.stdout.splitlines()[:3], ["last 10", "indicator A1", "lock FF"])
            assert "identification 898A8B8C8D8E8F90" in shown.stdout.splitlines(), shown

    def test_each_allocation_refused(self):
        for command, given in [("read", GIVEN_17), ("verify", as_lines(VERIFY_GIVEN)), ("scan", SILENCE)]:
            desk, ran_out = desk_for(self.folder, command), 0
            wanted = desk.wanted(carried(given))
            for number in range(1, 10000):
                desk.bank.unlink(missing_ok=True)
                preload = {"LD_PRELOAD": str(preloaded("refuse_alloc")), "REFUSED_ALLOCATION": str(number)}
                ended = driven.Desk.give(desk, given, preload)
                told = ended.told.replace("an allocation was refused\n", "")
                if told == ended.told:
                    break
                if ended.status == 0:
                    self.assertEqual((command, number, ended.sent, told, desk.text()), (command, number, *wanted[1:]))
                    continue
                # Before the words are read it isn't known that the command has a link.
                line = told if "fault" in told else ended.sent.decode()
                self.assertEqual((command, number, ended.status, line.splitlines()[-1]),
                                 (command, number, 2, "fault 20 Memory"))
                assert ended.sent in (b"", wanted.sent) or number <= 8, (command, number, ended)
                self.assertEqual((command, number, desk.text() in (None, wanted.text)), (command, number, True))
                ran_out += 1
            assert ran_out, f"no refused allocation ended as want of memory: {command}"
            self.assertEqual((command, ended, desk.text()), (command, Ended(*wanted[:3]), wanted.text))
