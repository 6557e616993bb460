"""Tests of `drive` on files that are no journals, and on streams that end, are closed or are full."""

import os
import pathlib
import resource
import signal
import subprocess

import driven
from base import BenchTest, want
from drive_desk import (
    ABSENT,
    ABSENT_BEGAN,
    ABSENT_FRAMES,
    ABSENT_JOURNAL,
    ABSENT_RECORDS,
    FAULT_21,
    KEPT_SILENT,
    MOST_JOURNAL,
    OLD_ABSENT_BEGAN,
    OLD_ABSENT_JOURNAL,
    SILENCE,
    as_nobody,
    desk_of,
    fill,
    goes_on,
    last_line,
    new_of,
    put_journal,
    unread,
    unwritten,
)
from driven import HEADER, Ended, Following


def check_refused(folder, files):
    """Raise unless each of the files, by its digits, is refused by its fault and stays as it is."""
    for digits, fault in files.items():
        desk = desk_of(folder, ABSENT, bytes.fromhex(digits))
        want((digits, last_line(desk.give(SILENCE))), (digits, (1, b"", "journal fault " + fault)))
        want((desk.held(), new_of(desk).exists()), (bytes.fromhex(digits), False))


def full_page():
    """Give a journal of 4096 bytes, in which 176 orders of a byte or two were silent."""
    pairs = [b"\1\x13\x18"] * 154 + [b"\2\x13\x18\x14\x35"] * 22
    groups = [b"B" + number.to_bytes(8, "big") + bytes(8) + b"\x09" + those + b"E\3"
              for number, those in enumerate(pairs, 1000)]
    journal = HEADER + b"".join(groups)
    want(len(journal), 4096)
    return journal


class PlacesTest(BenchTest):
    """Files that are no journal, and places without rights or room."""

    def test_journal_that_is_a_folder(self):
        desk = desk_of(self.folder, ABSENT)
        desk.journal.mkdir()
        self.assertEqual(last_line(desk.give(SILENCE)), FAULT_21)

    def test_a_journal_that_has_to_be_there(self):
        desk = desk_of(self.folder, ABSENT)
        desk.options = ["--require-journal"]
        for held, why in [(None, "there is no journal"), (b"", "the journal has no byte")]:
            put_journal(desk, held)
            told = f"error: {why}, and none is to be made: {desk.journal}\nfault 21 File\n"
            self.assertEqual(desk.give(SILENCE), Ended(2, b"", told))
            self.assertEqual((desk.journal.exists(), new_of(desk).exists()), (held is not None, False))
        for held in (HEADER, ABSENT_BEGAN, OLD_ABSENT_BEGAN, ABSENT_JOURNAL):
            put_journal(desk, held)
            self.assertEqual((held, desk.give(SILENCE).status, desk.held()), (held, 0, ABSENT_JOURNAL))
        stream = Following(desk.program, self.folder, ABSENT)
        stream.options = desk.options
        stream.journal.unlink()
        ended = stream.give(SILENCE)
        self.assertEqual((ended.status, ended.sent, stream.journal.exists()), (2, b"", False))

    def test_journal_that_is_a_named_pipe(self):
        desk = desk_of(self.folder, ABSENT)
        os.mkfifo(desk.journal)
        told = f"error: the journal is a named pipe: {desk.journal}\nfault 21 File\n"
        self.assertEqual(desk.give(SILENCE, timeout=5), Ended(2, b"", told))

    def test_orders_and_journal_in_one_file(self):
        for orders in (ABSENT, []):
            for make in (os.symlink, os.link, None):
                desk = desk_of(self.folder, orders)
                if make:
                    make(desk.orders, desk.journal)
                else:
                    desk.journal = desk.orders
                told = f"error: ORDERS and JOURNAL are one file: {desk.journal}\nfault 21 File\n"
                self.assertEqual((make, desk.give(SILENCE)), (make, Ended(2, b"", told)))
                self.assertEqual((desk.orders.read_text(), new_of(desk).exists()), (driven.json.dumps(orders), False))
                if make:
                    desk.journal.unlink()

    def test_a_folder_whose_name_is_no_text(self):
        odd = os.path.join(os.fsencode(self.folder), b"\xff")
        os.mkdir(odd)
        desk = desk_of(self.folder, ABSENT)
        desk.journal = pathlib.Path("bench.journal")
        place = os.path.join(odd, b"bench.journal")
        for start in (ABSENT_BEGAN + b"E", ABSENT_BEGAN, OLD_ABSENT_BEGAN, b""):
            with open(place, "wb") as file:
                file.write(start)
            ended = desk.give(SILENCE, cwd=odd)
            self.assertEqual(last_line(ended), FAULT_21)
            assert ended.told.startswith("error: the file can't be used: bench.journal: "), ended
            with open(place, "rb") as file:
                self.assertEqual((file.read(), os.listdir(odd)), (start, [b"bench.journal"]))

    def test_a_folder_that_can_not_be_read(self):
        inner = self.folder / "inner"
        inner.mkdir()
        desk = desk_of(self.folder, ABSENT)
        desk.journal = inner / "bench.journal"
        for start in (ABSENT_BEGAN + b"E", ABSENT_BEGAN, OLD_ABSENT_BEGAN, b""):
            desk.journal.write_bytes(start)
            desk.journal.chmod(0o666)
            inner.chmod(0o333)
            ended = as_nobody(desk)
            inner.chmod(0o755)
            self.assertEqual(last_line(ended), FAULT_21)
            assert ended.told.startswith(f"error: the file can't be used: {inner}: "), ended
            self.assertEqual((desk.held(), os.listdir(inner)), (start, ["bench.journal"]))

    def test_journal_in_a_folder_that_is_not_there(self):
        desk = desk_of(self.folder, ABSENT)
        desk.journal = self.folder / "none" / "bench.journal"
        self.assertEqual(last_line(desk.give(SILENCE)), FAULT_21)

    def test_journal_without_rights(self):
        for mode in (0o000, 0o444):
            desk = desk_of(self.folder, ABSENT, ABSENT_BEGAN)
            desk.journal.chmod(mode)
            self.assertEqual((mode, last_line(as_nobody(desk))), (mode, FAULT_21))
            desk.journal.chmod(0o600)
            self.assertEqual(desk.held(), ABSENT_BEGAN)
            goes_on(desk)
            desk.journal.unlink()

    def test_folder_without_rights(self):
        inner = self.folder / "inner"
        inner.mkdir(0o555)
        cause = "Permission denied (os error 13)"
        told = f"error: no file can be made in the folder: {inner}: {cause}\nfault 21 File\n"
        desk = desk_of(self.folder, ABSENT)
        desk.journal = inner / "bench.journal"
        self.assertEqual(as_nobody(desk), Ended(2, b"", told))
        assert not desk.journal.exists()
        for start in (b"", OLD_ABSENT_BEGAN):
            inner.chmod(0o755)
            desk.journal.write_bytes(start)
            desk.journal.chmod(0o666)
            inner.chmod(0o555)
            self.assertEqual((start, as_nobody(desk)), (start, Ended(2, b"", told)))
            self.assertEqual((desk.held(), os.listdir(inner)), (start, ["bench.journal"]))
        desk.journal.chmod(0o444)
        told = f"error: the file can't be used: {desk.journal}: {cause}\nfault 21 File\n"
        self.assertEqual(as_nobody(desk), Ended(2, b"", told))

    def test_journal_that_is_too_big(self):
        desk = desk_of(self.folder, ABSENT, b"")
        for size, line in [(MOST_JOURNAL, "journal fault 3 Record at 0"), (MOST_JOURNAL + 1, "fault 13 TooBig"),
                           (1 << 40, "fault 13 TooBig")]:
            os.truncate(desk.journal, size)
            self.assertEqual((size, last_line(desk.give(SILENCE))), (size, (1, b"", line)))
            self.assertEqual(desk.journal.stat().st_size, size)

    def test_files_that_are_no_journal(self):
        began, head = ABSENT_RECORDS[:-2].hex(), HEADER.hex()
        before_unit = ABSENT_RECORDS[:17].hex()
        check_refused(self.folder, {
            head + "41": "3 Record at 4", head + "4500": "4 Sequence at 4", head + began * 2: "4 Sequence at 35",
            head + ABSENT_RECORDS.hex() * 2: "5 Repeated at 37",
            head + ABSENT_RECORDS.hex() + "4F09": "4 Sequence at 37",
            head + began + "4F08": "4 Sequence at 35", head + before_unit + "40": "3 Record at 4",
            head + before_unit + "0900": "3 Record at 4", head + began + head: "3 Record at 35",
            head * 2: "3 Record at 4", head + OLD_ABSENT_BEGAN.hex(): "3 Record at 4"})

    def test_files_of_version_1_that_are_no_journal(self):
        began, records = OLD_ABSENT_BEGAN.hex(), OLD_ABSENT_JOURNAL.hex()
        check_refused(self.folder, {
            "41": "3 Record at 0", "4500": "4 Sequence at 0", began * 2: "4 Sequence at 23",
            records * 2: "5 Repeated at 25", records + "4F09": "4 Sequence at 25", began + "4F08": "4 Sequence at 23",
            "42000000000000000140": "3 Record at 0", began + HEADER.hex(): "3 Record at 23",
            ABSENT_RECORDS.hex(): "3 Record at 0"})

    def test_files_with_another_header(self):
        digits = ["44", "4442", "444231", "44423103", "44423101", "44423100", "44000000",
                  "444231FF" + ABSENT_RECORDS.hex(), "4442" + ABSENT_RECORDS.hex(), "44" * 40]
        check_refused(self.folder, {these: "7 Header" for these in digits})

    def test_journal_on_a_full_file_system(self):
        desk, room = desk_of(self.folder, ABSENT), self.folder / "room"
        room.mkdir()
        if subprocess.run(["mount", "-t", "tmpfs", "-o", "size=16k", "none", room], capture_output=True).returncode:
            self.skipTest("a small file system can't be mounted")
        try:
            desk.journal = room / "bench.journal"
            for start, told, end in [(b"", "fault 21 File", ABSENT_JOURNAL),
                                     (OLD_ABSENT_BEGAN, "fault 21 File", ABSENT_JOURNAL),
                                     (full_page(), "drive fault 1 Journal", full_page() + ABSENT_RECORDS)]:
                desk.journal.write_bytes(start)
                fill(room / "filler")
                ended = desk.give(SILENCE)
                self.assertEqual(last_line(ended), (2, b"", told))
                cause = f"error: the file can't be used: {desk.journal}: no storage space"
                assert told == "fault 21 File" or ended.told.splitlines()[-2] == cause, ended
                self.assertEqual(desk.held(), start)
                (room / "filler").unlink()
                goes_on(desk, end)
        finally:
            subprocess.run(["umount", room], check=True)

    def test_a_second_drive_is_kept_out(self):
        desk = desk_of(self.folder, ABSENT)
        first = desk.start()
        try:
            for number in range(16):
                self.assertEqual(driven.line_from(first.stdout), ABSENT_FRAMES[5 * number:5 * number + 5])
                if number in (0, 7, 15):
                    self.assertEqual(last_line(desk.give(SILENCE)), FAULT_21)
                    self.assertEqual(desk.held(), ABSENT_BEGAN)
                first.stdin.write(b"--\n")
            self.assertEqual((first.wait(driven.PATIENCE), first.stderr.read().decode()),
                             (0, "reply 1 taken\n" + KEPT_SILENT))
        finally:
            first.kill()
            for pipe in (first.stdin, first.stdout, first.stderr):
                pipe.close()
        self.assertEqual(desk.give(b""), Ended(0, b"", KEPT_SILENT))
        self.assertEqual(desk.held(), ABSENT_JOURNAL)

    def test_a_limit_of_file_sizes(self):
        for size in (0, 1, 3, 4, 5, 14, 34, 35, 36):
            for is_restored in (True, False):
                desk = desk_of(self.folder, ABSENT, b"")

                def limit():
                    resource.setrlimit(resource.RLIMIT_FSIZE, (size, size))

                ended = desk.give(SILENCE, preexec_fn=limit, restore_signals=is_restored)
                # The launcher has the signal ignored. A parent that restores it has the program killed, as by
                # any other.
                line = "reply 1 taken" if size >= len(HEADER) else ""
                if not is_restored:
                    line = "drive fault 1 Journal" if line else "fault 21 File"
                sent = b"" if size < len(ABSENT_BEGAN) else ABSENT_FRAMES
                self.assertEqual((size, last_line(ended)), (size, (-signal.SIGXFSZ if is_restored else 2, sent, line)))
                held = desk.held()
                assert len(held) in (0, *range(len(HEADER), size + 1)) and ABSENT_JOURNAL.startswith(held), (size, held)
                goes_on(desk)


class StreamsTest(BenchTest):
    """Streams that end, are closed or are full."""

    def test_standard_output_closed_by_its_reader(self):
        for count in range(1, 6):
            for is_restored in (True, False):
                desk = desk_of(self.folder, ABSENT, b"")
                command = desk.start(restore_signals=is_restored)
                for number in range(count):
                    if number:
                        command.stdin.write(b"--\n")
                    driven.line_from(command.stdout)
                command.stdout.close()
                command.stdin.write(b"--\n")
                told = command.stderr.read().decode()
                self.assertEqual((count, command.wait(driven.PATIENCE), told),
                                 (count, 2, "reply 1 taken\n" + unwritten("broken pipe")))
                command.stdin.close()
                command.stderr.close()
                self.assertEqual(desk.held(), ABSENT_BEGAN)
                goes_on(desk)

    def test_standard_output_closed_before_the_first_frame(self):
        for is_restored in (True, False):
            desk = desk_of(self.folder, ABSENT, b"")
            reading, writing = os.pipe()
            os.close(reading)
            ended = desk.give(SILENCE, stdout=writing, restore_signals=is_restored)
            os.close(writing)
            self.assertEqual(ended, Ended(2, None, "reply 1 taken\n" + unwritten("broken pipe")))
            self.assertEqual(desk.held(), ABSENT_BEGAN)
            goes_on(desk)

    def test_standard_output_that_is_full(self):
        desk = desk_of(self.folder, ABSENT)
        with open("/dev/full", "wb") as full:
            self.assertEqual(desk.give(SILENCE, stdout=full),
                             Ended(2, None, "reply 1 taken\n" + unwritten("no storage space")))
        self.assertEqual(desk.held(), ABSENT_BEGAN)
        goes_on(desk)

    def test_standard_input_that_is_a_folder(self):
        desk = desk_of(self.folder, ABSENT)
        inside = os.open(self.folder, os.O_RDONLY)
        command = desk.start(stdin=inside)
        os.close(inside)
        sent, told = command.communicate(timeout=driven.PATIENCE)
        self.assertEqual((command.returncode, sent, told.decode()),
                         (2, b"C301\n", "reply 1 taken\n" + unread("is a directory")))
        goes_on(desk)

    def test_standard_error_that_fails(self):
        for how in ("full", "closed by its reader"):
            desk = desk_of(self.folder, ABSENT, b"")
            reading, writing = os.pipe()
            os.close(reading)
            if how == "full":
                os.close(writing)
                writing = os.open("/dev/full", os.O_WRONLY)
            self.assertEqual((how, desk.give(SILENCE, stderr=writing)[:2]), (how, (2, b"")))
            os.close(writing)
            self.assertEqual(desk.held(), HEADER)
            goes_on(desk)

    def test_streams_that_are_closed_at_the_start(self):
        for closed in [{0}, {1}, {2}, {0, 1}, {0, 2}, {1, 2}, {0, 1, 2}]:
            for orders, start in [(ABSENT, None), (ABSENT, b""), ([], ABSENT_BEGAN), (ABSENT, ABSENT_JOURNAL[:10]),
                                  (ABSENT, OLD_ABSENT_BEGAN)]:
                desk = desk_of(self.folder, orders, start)
                ended = desk.give(SILENCE, preexec_fn=lambda: [os.close(stream) for stream in closed])
                case = closed, orders, start
                data = desk.held() if desk.journal.exists() else b""
                assert data in (b"", start, ABSENT_BEGAN) or ABSENT_JOURNAL.startswith(data), (case, ended, data)
                most = b"" if 1 in closed else ABSENT_FRAMES[:5] if 0 in closed else ABSENT_FRAMES
                assert ended.status in (1, 2) and most.startswith(ended.sent), (case, ended)
                self.assertEqual(desk.orders.read_text(), driven.json.dumps(orders))
                desk.write_orders(ABSENT)
                goes_on(desk)
                desk.journal.unlink()


class PathsTest(BenchTest):
    """Paths by which a journal may be named."""

    def test_a_path_that_is_a_link(self):
        desk = desk_of(self.folder, ABSENT, b"")
        real = desk.journal
        desk.journal = self.folder / "link.journal"
        desk.journal.symlink_to(real)
        self.assertEqual(desk.give(SILENCE).status, 0)
        self.assertEqual((real.read_bytes(), desk.journal.is_symlink()), (ABSENT_JOURNAL, True))

    def test_a_journal_in_the_working_folder(self):
        desk = desk_of(self.folder, ABSENT)
        journal, desk.journal = desk.journal, pathlib.Path(desk.journal.name)
        self.assertEqual(desk.give(SILENCE, cwd=self.folder), Ended(0, ABSENT_FRAMES, "reply 1 taken\n" + KEPT_SILENT))
        self.assertEqual(journal.read_bytes(), ABSENT_JOURNAL)
