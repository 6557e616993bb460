"""Tests of `drive` whose streams are known byte for byte: those of an absent unit."""

import os
import pty
import select
import subprocess

from base import BenchTest
from drive_desk import (
    ABSENT,
    ABSENT_BEGAN,
    ABSENT_FRAMES,
    ABSENT_JOURNAL,
    FAULT_21,
    GTIN,
    KEPT_SILENT,
    SILENCE,
    absent_records,
    desk_of,
    goes_on,
    last_line,
)
from driven import HEADER, Ended


class StreamsTest(BenchTest):
    """Streams that are known byte for byte."""

    def test_absent_unit(self):
        desk = desk_of(self.folder, ABSENT)
        self.assertEqual(desk.give(SILENCE), Ended(0, ABSENT_FRAMES, "reply 1 taken\n" + KEPT_SILENT))
        self.assertEqual(desk.held(), ABSENT_JOURNAL)
        self.assertEqual(desk.give(b""), Ended(0, b"", KEPT_SILENT))
        self.assertEqual(desk.held(), ABSENT_JOURNAL)

    def test_a_terminal_is_no_link(self):
        desk, bank = desk_of(self.folder, ABSENT), self.folder / "bank.hex"
        desk.journal.unlink(missing_ok=True)
        told = ("error: the frames go to standard output, which is a terminal: start this over an adapter"
                " (docs/LINK.md)\n")
        for words in [("drive", desk.orders, desk.journal), ("drive", "--follow", desk.orders, desk.journal),
                      ("read", "5", bank), ("verify", desk.orders), ("scan",), ("address",)]:
            master, terminal = pty.openpty()
            ended = subprocess.run([desk.program, *words], stdin=terminal, stdout=terminal, stderr=subprocess.PIPE,
                                   text=True, timeout=9)
            printed = select.select([master], [], [], 0.1)[0]
            os.close(terminal)
            os.close(master)
            self.assertEqual((words[0], ended.returncode, ended.stderr, printed), (words[0], 1, told, []))
            self.assertEqual((desk.journal.exists(), bank.exists()), (False, False))

    def test_link_that_ends(self):
        for count in range(16):
            desk = desk_of(self.folder, ABSENT, b"")
            told = "reply 1 taken\ndrive fault 4 End\n"
            self.assertEqual(desk.give(SILENCE[:3 * count]), Ended(1, ABSENT_FRAMES[:5 * (count + 1)], told))
            self.assertEqual(desk.held(), ABSENT_BEGAN)
            self.assertEqual(desk.give(SILENCE[:3 * count] + b"--"),
                             Ended(1, ABSENT_FRAMES[:5 * (count + 1)], "drive fault 4 End\n"))
        goes_on(desk)

    def test_lines_that_are_no_answer(self):
        lines = {"123456789": "6 TooLong", "12345678": "3 Line", "-5": "3 Line", "": "3 Line", "-": "3 Line",
                 "---": "3 Line", "0G": "3 Line", " 05": "3 Line", "5": "3 Line", "\r": "3 Line", "--\r\r": "3 Line",
                 "12345678\r": "6 TooLong", "1234567\r": "3 Line", "x" * 5000: "6 TooLong", "\0\0": "3 Line",
                 "\xff\xfe": "3 Line"}
        for line, fault in lines.items():
            desk = desk_of(self.folder, ABSENT, b"")
            told = f"reply 1 taken\ndrive fault {fault}\n"
            self.assertEqual((line, desk.give(line.encode("latin-1") + b"\n" + SILENCE)),
                             (line, Ended(1, b"C301\n", told)))
            self.assertEqual(desk.held(), ABSENT_BEGAN)
        goes_on(desk)

    def test_answers_as_they_may_be_spelled(self):
        told = "reply 1 taken\n" + KEPT_SILENT
        for answers in [b"--\r\n" * 16, b"FF\n--\n" * 8, b"ff\r\nFF\n" * 8, b"00\n02\r\n" * 8]:
            self.assertEqual(desk_of(self.folder, ABSENT, b"").give(answers), Ended(0, ABSENT_FRAMES, told))
        self.assertEqual(desk_of(self.folder, ABSENT, b"").give(b"--\n01\n" + SILENCE[:-6]).sent[:20],
                         b"C301\n139C\nA300\n1398\n")

    def test_journal_of_a_stopped_run(self):
        desk = desk_of(self.folder, [], ABSENT_BEGAN)
        self.assertEqual(desk.give(SILENCE), Ended(0, ABSENT_FRAMES, KEPT_SILENT))
        self.assertEqual(desk.held(), ABSENT_JOURNAL)
        for orders in (ABSENT, ABSENT + [{"order": 1, "unit": 9, "gtin": GTIN}]):
            desk = desk_of(self.folder, orders, ABSENT_BEGAN)
            self.assertEqual(desk.give(SILENCE), Ended(0, ABSENT_FRAMES, KEPT_SILENT * (1 + len(orders))))
            self.assertEqual(desk.held(), ABSENT_JOURNAL)

    def test_other_orders_after_a_stopped_run(self):
        second = {"order": 2, "unit": 9, "gtin": GTIN}
        desk = desk_of(self.folder, [{**ABSENT[0], "unit": 10}, second, *ABSENT], ABSENT_BEGAN)
        told = KEPT_SILENT + "reply 1 reused\nreply 2 taken\nreply 2 kept 3 Silent\n" + KEPT_SILENT
        self.assertEqual(desk.give(SILENCE * 2), Ended(0, ABSENT_FRAMES * 2, told))
        self.assertEqual(desk.held(), ABSENT_JOURNAL + absent_records(2))

    def test_journal_of_a_run_that_was_stopped_at_its_writes(self):
        opened = ABSENT_BEGAN + b"O\x09"
        write, read = b"1381\n1381\nC301\n139C\n" * 8, b"C301\n139C\n" * 8
        desk = desk_of(self.folder, ABSENT, opened)
        self.assertEqual(desk.give(b"--\n" * 80), Ended(0, write * 2 + read, "reply 1 kept 5 DoubtOpen\n" * 2))
        self.assertEqual(desk.held(), opened + b"E\5")
        desk.write_orders([{"order": 2, "unit": 6, "year": 24}, *ABSENT])
        told = "reply 2 taken\nreply 2 blocked 9\nreply 1 kept 5 DoubtOpen\n"
        self.assertEqual(desk.give(b"--\n" * 48), Ended(0, write + read, told))
        self.assertEqual(desk.held(), opened + b"E\5")

    def test_journal_cut_anywhere(self):
        for length in (0, *range(len(HEADER), len(ABSENT_JOURNAL))):
            desk = desk_of(self.folder, ABSENT, ABSENT_JOURNAL[:length])
            told = "reply 1 taken\n" if length < len(ABSENT_BEGAN) else KEPT_SILENT
            self.assertEqual((length, desk.give(SILENCE)), (length, Ended(0, ABSENT_FRAMES, told + KEPT_SILENT)))
            self.assertEqual(desk.held(), ABSENT_JOURNAL)

    def test_cut_journal_of_no_orders(self):
        for length in (0, *range(len(HEADER), len(ABSENT_BEGAN))):
            desk = desk_of(self.folder, [], ABSENT_BEGAN[:length])
            self.assertEqual(desk.give(b""), Ended(0, b"", ""))
            self.assertEqual(desk.held(), HEADER)

    def test_moments(self):
        told = "reply 1 taken\n" + KEPT_SILENT
        for moment, digits in {"1700000000": "000000006553F100", "0": "0000000000000000",
                               "18446744073709551615": "FFFFFFFFFFFFFFFF"}.items():
            desk = desk_of(self.folder, ABSENT, b"")
            desk.options = ["--moment", moment]
            self.assertEqual((moment, desk.give(SILENCE)), (moment, Ended(0, ABSENT_FRAMES, told)))
            journal = ABSENT_JOURNAL[:13] + bytes.fromhex(digits) + ABSENT_JOURNAL[21:]
            self.assertEqual(desk.held(), journal)
            for options in (["--moment", "1700000009"], []):
                desk.options = options
                self.assertEqual((moment, desk.give(b"")), (moment, Ended(0, b"", KEPT_SILENT)))
                self.assertEqual(desk.held(), journal)

    def test_a_moment_is_that_of_the_orders_that_begin(self):
        desk = desk_of(self.folder, [{**ABSENT[0], "order": number} for number in (1, 3, 1, 2)], ABSENT_BEGAN)
        desk.options = ["--moment", "1700000000"]
        later = [f"reply {number} taken\nreply {number} kept 3 Silent\n" for number in (3, 2)]
        told = KEPT_SILENT + KEPT_SILENT + later[0] + KEPT_SILENT + later[1]
        self.assertEqual(desk.give(SILENCE * 3), Ended(0, ABSENT_FRAMES * 3, told))
        self.assertEqual(desk.held(), ABSENT_JOURNAL + absent_records(3, 1700000000) + absent_records(2, 1700000000))
        desk.write_orders([{**ABSENT[0], "order": 3, "unit": 10}])
        self.assertEqual(desk.give(b""), Ended(0, b"", "reply 3 reused\n"))

    def test_moments_that_are_none(self):
        for moment in ("-1", "18446744073709551616", "1.0", "1e9", "x", "", " 1", "0x10"):
            desk = desk_of(self.folder, ABSENT)
            desk.options = [f"--moment={moment}"]
            ended = desk.give(SILENCE)
            self.assertEqual((moment, ended.status, ended.sent), (moment, 1, b""))
            assert "reply" not in ended.told and not desk.journal.exists(), (moment, ended)

    def test_orders_that_are_refused(self):
        bad = {"order": 2, "unit": 9, "gtin": "1"}
        cases = [([*ABSENT, bad], "item 2 fault 4 Gtin"), ([{**bad, "unit": 64}], "item 1 fault 1 Unit"),
                 ("[", "fault 11 Json"), ("{}", "fault 12 Document")]
        for orders, line in cases:
            desk = desk_of(self.folder, orders)
            self.assertEqual((orders, last_line(desk.give(SILENCE))), (orders, (1, b"", line)))
            assert not desk.journal.exists() or desk.held() == b"", orders
        desk.orders.unlink()
        self.assertEqual(last_line(desk.give(SILENCE)), FAULT_21)
