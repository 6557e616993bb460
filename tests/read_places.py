"""Tests of what `read` does to HEXFILE and beside it: files of each kind, each call spoiled, and killed at each."""

import errno
import os
import pathlib
import resource
import shutil
import signal
import stat
import subprocess

import driven
from base import BenchTest, in_cases, preloaded, settings, want
from call_fixtures import calls_in
from drive_desk import NOBODY, fill, last_line
from driven import Ended
from read_desk import GIVEN_17, SENT_17, SILENT, TEXT_17, TOLD_17, Reading

SILENCE = b"--\n" * 16
FOREIGN = "what stands in the way was not left by a reading of a unit"
BEFORE = "AC DC 05\n"
# Bytes that a reading that was stopped may leave in HEXFILE.new, and some that it can't have left.
LEFT = ["", TEXT_17[:1], TEXT_17[:30], TEXT_17, "FF FF\n", "10 A1 FF\r\n", "10\ta1 ff\n", "00 " * 255, "0" * 4096]
NOT_LEFT = ["x", "10,A1", "G0", "\0", "0" * 4097, "DB1\x02"]


def mode_of(path):
    """Give the bits of a file's mode."""
    return stat.S_IMODE(path.stat().st_mode)


def goes_on(desk):
    """Run the command once more, with nothing in the way: it reads the unit."""
    want((desk.give(GIVEN_17), desk.text(), desk.new().exists()), (Ended(0, SENT_17, TOLD_17), TEXT_17, False))


def refused(desk):
    """Run the command where something foreign stands in the way of the new file, which has to say so."""
    want(desk.give(GIVEN_17), Ended(2, SENT_17, f"error: {FOREIGN}: {desk.new()}\nfault 21 File\n"))


def as_nobody(desk):
    """Run the command without the rights of root, from a copy that anybody may run."""
    if os.geteuid() != 0:
        return desk.give(GIVEN_17)
    desk.program = shutil.copy(settings["program"], desk.folder)
    desk.program = pathlib.Path(desk.program)
    desk.program.chmod(0o755)
    return desk.give(GIVEN_17, user=NOBODY, group=NOBODY, extra_groups=[])


class PlacesTest(BenchTest):
    """Files of each kind in the place of HEXFILE."""

    def test_a_new_file(self):
        desk = Reading(self.folder)
        goes_on(desk)
        self.assertEqual(mode_of(desk.bank) & ~0o666, 0)
        self.assertEqual(os.listdir(self.folder), ["bank.hex"])

    def test_a_file_that_was_there(self):
        for mode in (0o640, 0o600, 0o755):
            for before in (b"", BEFORE.encode(), TEXT_17.encode(), b"0\t" * 2048):
                desk = Reading(self.folder)
                desk.bank.write_bytes(before)
                desk.bank.chmod(mode)
                inode = desk.bank.stat().st_ino
                goes_on(desk)
                # Another file has taken its place: who has opened the old one reads that to its end.
                self.assertEqual((mode, mode_of(desk.bank), desk.bank.stat().st_ino != inode), (mode, mode, True))
                desk.bank.unlink()

    def test_a_file_that_is_no_text_of_a_bank(self):
        told = "error: what is there is no text of a bank: {}\nfault 21 File\n"
        for before in (bytes(range(256)), driven.HEADER, b"[]", b"B" + bytes(40), b"0" * 4097, b"unit 5\n"):
            desk = Reading(self.folder)
            desk.bank.write_bytes(before)
            self.assertEqual((before, desk.give(GIVEN_17)), (before, Ended(2, SENT_17, told.format(desk.bank))))
            self.assertEqual((desk.bank.read_bytes(), desk.new().exists()), (before, False))

    def test_an_old_file_stays_whole_for_its_reader(self):
        desk = Reading(self.folder)
        desk.bank.write_text(BEFORE)
        with open(desk.bank) as old:
            goes_on(desk)
            self.assertEqual(old.read(), BEFORE)

    def test_another_name_of_the_file_keeps_the_old_one(self):
        desk = Reading(self.folder)
        desk.bank.write_text(BEFORE)
        other = self.folder / "other.hex"
        os.link(desk.bank, other)
        goes_on(desk)
        self.assertEqual(other.read_text(), BEFORE)

    def test_a_silent_unit_leaves_all_as_it_is(self):
        for before, new in [(None, None), (BEFORE, None), (BEFORE, TEXT_17), (None, "no digits")]:
            desk = Reading(self.folder)
            for path, text in [(desk.bank, before), (desk.new(), new)]:
                path.unlink(missing_ok=True)
                if text is not None:
                    path.write_text(text)
            self.assertEqual(desk.give(SILENCE), Ended(1, b"C301\n0B9C\n" * 8, SILENT))
            self.assertEqual((desk.text(), desk.new().read_text() if desk.new().exists() else None), (before, new))

    def test_a_symbolic_link(self):
        desk = Reading(self.folder)
        real = self.folder / "real.hex"
        for target in (real, "real.hex"):
            real.write_text(BEFORE)
            desk.bank.symlink_to(target)
            goes_on(desk)
            self.assertEqual((desk.bank.is_symlink(), real.read_text()), (True, TEXT_17))
            self.assertEqual(sorted(os.listdir(self.folder)), ["bank.hex", "real.hex"])
            desk.bank.unlink()

    def test_a_link_that_leads_nowhere(self):
        desk = Reading(self.folder)
        desk.bank.symlink_to(self.folder / "nowhere.hex")
        ended = desk.give(GIVEN_17)
        assert ended.status in (0, 2) and (desk.text() == TEXT_17) == (ended.status == 0), (ended, desk.text())
        self.assertEqual(desk.new().exists(), False)

    def test_a_new_file_that_was_left(self):
        for left in LEFT:
            for before in (None, BEFORE):
                desk = Reading(self.folder)
                desk.bank.unlink(missing_ok=True)
                if before:
                    desk.bank.write_text(before)
                    desk.bank.chmod(0o640)
                desk.new().write_text(left)
                goes_on(desk)
                self.assertEqual((left, mode_of(desk.bank) if before else 0o640), (left, 0o640))

    def test_a_new_file_that_is_foreign(self):
        for text in NOT_LEFT:
            for before in (None, BEFORE):
                desk = Reading(self.folder)
                if before:
                    desk.bank.write_text(before)
                desk.new().write_bytes(text.encode())
                refused(desk)
                self.assertEqual((text, desk.new().read_bytes(), desk.text()), (text, text.encode(), before))
                desk.bank.unlink(missing_ok=True)
                desk.new().unlink()

    def test_a_new_file_that_is_no_regular_file_of_its_own(self):
        desk = Reading(self.folder)
        other = self.folder / "other.hex"
        other.write_text(TEXT_17)
        for make in (lambda: desk.new().symlink_to(other), lambda: os.link(other, desk.new()), desk.new().mkdir,
                     lambda: os.mkfifo(desk.new()), lambda: desk.new().symlink_to(self.folder / "nowhere")):
            make()
            refused(desk)
            self.assertEqual((other.read_text(), desk.text(), os.path.lexists(desk.new())), (TEXT_17, None, True))
            (os.rmdir if desk.new().is_dir() else os.unlink)(desk.new())
        goes_on(desk)

    def test_a_folder(self):
        desk = Reading(self.folder)
        desk.bank.mkdir()
        ended = desk.give(GIVEN_17)
        self.assertEqual(last_line(ended), (2, SENT_17, "fault 21 File"))
        assert ended.told.startswith(f"error: the file can't be used: {desk.bank}: "), ended
        self.assertEqual((os.listdir(desk.bank), desk.new().exists()), ([], False))

    def test_a_named_pipe(self):
        desk = Reading(self.folder)
        os.mkfifo(desk.bank)
        told = f"error: HEXFILE is a named pipe: {desk.bank}\nfault 21 File\n"
        self.assertEqual(desk.give(GIVEN_17, timeout=5), Ended(2, SENT_17, told))
        self.assertEqual((desk.bank.is_fifo(), desk.new().exists()), (True, False))

    def test_devices(self):
        for name, status, told in [("/dev/null", 0, TOLD_17), ("/dev/full", 2, "fault 21 File\n")]:
            desk = Reading(self.folder)
            desk.bank = pathlib.Path(name)
            ended = desk.give(GIVEN_17)
            self.assertEqual((name, ended.status, ended.sent, ended.told.splitlines(keepends=True)[-1]),
                             (name, status, SENT_17, told))
            self.assertEqual((desk.bank.is_char_device(), desk.new().exists()), (True, False))

    def test_names_in_the_working_folder(self):
        desk = Reading(self.folder)
        bank, desk.bank = desk.bank, pathlib.Path("bank.hex")
        self.assertEqual(desk.give(GIVEN_17, cwd=self.folder), Ended(0, SENT_17, TOLD_17))
        self.assertEqual(bank.read_text(), TEXT_17)

    def test_a_place_that_is_not_there(self):
        desk = Reading(self.folder)
        (self.folder / "file").write_text("")
        for name in (self.folder / "none" / "bank.hex", self.folder / "file" / "bank.hex", self.folder / ("x" * 300)):
            desk.bank = name
            self.assertEqual(last_line(desk.give(GIVEN_17)), (2, SENT_17, "fault 21 File"))
        desk.words = lambda: [desk.program, "read", "5", ""]
        self.assertEqual(last_line(desk.give(GIVEN_17)), (2, SENT_17, "fault 21 File"))
        self.assertEqual(os.listdir(self.folder), ["file"])

    def test_a_folder_without_rights(self):
        self.folder.chmod(0o755)
        desk = Reading(self.folder)
        for before in (None, BEFORE):
            if before:
                desk.bank.write_text(before)
            told = f"error: no file can be made in the folder: {self.folder}: Permission denied (os error 13)\n"
            self.assertEqual(as_nobody(desk), Ended(2, SENT_17, told + "fault 21 File\n"))
            self.assertEqual((desk.text(), desk.new().exists()), (before, False))

    def test_a_full_file_system(self):
        desk, room = Reading(self.folder), self.folder / "room"
        room.mkdir()
        if subprocess.run(["mount", "-t", "tmpfs", "-o", "size=16k", "none", room], capture_output=True).returncode:
            self.skipTest("a small file system can't be mounted")
        try:
            desk.bank = room / "bank.hex"
            for before in (None, BEFORE):
                if before:
                    desk.bank.write_text(before)
                fill(room / "filler")
                self.assertEqual(last_line(desk.give(GIVEN_17)), (2, SENT_17, "fault 21 File"))
                self.assertEqual(desk.text(), before)
                (room / "filler").unlink()
                goes_on(desk)
                desk.bank.unlink()
        finally:
            subprocess.run(["umount", room], check=True)

    def test_a_limit_of_file_sizes(self):
        for size in (0, 1, 30, len(TEXT_17) - 1):
            for is_restored in (True, False):
                for before in (None, BEFORE):
                    desk = Reading(self.folder)
                    desk.bank.unlink(missing_ok=True)
                    if before:
                        desk.bank.write_text(before)

                    def limit():
                        resource.setrlimit(resource.RLIMIT_FSIZE, (size, size))

                    ended = desk.give(GIVEN_17, preexec_fn=limit, restore_signals=is_restored)
                    self.assertEqual((size, ended.status, desk.text()),
                                     (size, -signal.SIGXFSZ if is_restored else 2, before))
                    goes_on(desk)


def shim(desk, act=None, log=None):
    """Give the variables that preload the shim, to which HEXFILE is the journal."""
    variables = {"LD_PRELOAD": preloaded("drive_shim"), "DRIVE_SHIM_JOURNAL": desk.bank,
                 "DRIVE_SHIM_ORDERS": desk.orders, "DRIVE_SHIM_ACT": act, "DRIVE_SHIM_LOG": log}
    return {name: str(value) for name, value in variables.items() if value is not None}


def calls_of(desk, start):
    """Read the unit with the shim and nothing spoiled; give the calls."""
    put(desk, start)
    log = desk.folder / "calls.log"
    want(desk.give(GIVEN_17, shim(desk, log=log)), Ended(0, SENT_17, TOLD_17))
    want(desk.text(), TEXT_17)
    return calls_in(log)


def put(desk, start):
    """Put HEXFILE and HEXFILE.new in their places, or none."""
    for path, text in zip((desk.bank, desk.new()), start):
        path.unlink(missing_ok=True)
        if text is not None:
            path.write_text(text)


STARTS = [(None, None), (BEFORE, None), (None, "10 A1"), (BEFORE, TEXT_17)]


def each_call_spoiled(folder, effect, value=0, starts=STARTS):
    """Read the unit with each call spoiled in turn; give the desk, the call, what stood there and how it ended."""
    desk = Reading(folder)
    for start in starts:
        for call in calls_of(desk, start):
            is_short = effect == "short" and call.kind not in ("read", "write")
            is_interrupted = value == errno.EINTR and call.kind in ("rename", "stat")
            if call.result < 0 or call.kind == "close" or is_short or is_interrupted:
                continue
            put(desk, start)
            yield desk, call, start, desk.give(GIVEN_17, shim(desk, call.act(effect, value)))


def check_whole(desk, call, start, ended):
    """Raise unless HEXFILE is as it was or whole, and HEXFILE.new what the next reading takes over."""
    assert desk.text() in (start[0], TEXT_17), (call, ended, desk.text())
    left = desk.new().read_text() if desk.new().exists() else ""
    assert left == start[1] or TEXT_17.startswith(left), (call, ended, left)


class CallsTest(BenchTest):
    """Each call failing, cut short, or the last one, and readings beside each other."""

    @in_cases(2)
    def test_each_call_failing(self, case):
        for desk, call, start, ended in each_call_spoiled(self.folder, "fail", (errno.EIO, errno.ENOSPC)[case]):
            lines = {"in": ["drive fault 2 Link"], "out": ["drive fault 2 Link"], "err": [""]}
            assert ended.status == 2 and last_line(ended)[2] in lines.get(call.target, ["fault 21 File"]), (call, ended)
            assert SENT_17.startswith(ended.sent), (call, ended)
            is_at_the_start = call.target == "folder" and ended.sent == b""
            assert call.target in ("in", "out") or ended.sent == SENT_17 or is_at_the_start, (call, ended)
            check_whole(desk, call, start, ended)
            assert call.target not in ("in", "out") or desk.text() == start[0], (call, ended)
            goes_on(desk)

    def test_interrupted_calls_change_nothing(self):
        for desk, call, _, ended in each_call_spoiled(self.folder, "fail", errno.EINTR):
            self.assertEqual((call, ended, desk.text()), (call, Ended(0, SENT_17, TOLD_17), TEXT_17))

    def test_short_calls_change_nothing(self):
        for desk, call, _, ended in each_call_spoiled(self.folder, "short"):
            self.assertEqual((call, ended, desk.text()), (call, Ended(0, SENT_17, TOLD_17), TEXT_17))
        desk = Reading(self.folder)
        for kind, target in [("write", "new"), ("write", "out"), ("write", "err"), ("write", "any"), ("read", "any")]:
            put(desk, (BEFORE, "10 A1"))
            ended = desk.give(GIVEN_17, shim(desk, f"{kind} {target} 0 short"))
            self.assertEqual((kind, target, ended, desk.text()), (kind, target, Ended(0, SENT_17, TOLD_17), TEXT_17))

    @in_cases(2)
    def test_kills_at_each_call(self, case):
        for desk, call, start, ended in each_call_spoiled(self.folder, ("kill", "killed")[case]):
            self.assertEqual((call, ended.status), (call, -signal.SIGKILL))
            check_whole(desk, call, start, ended)
            goes_on(desk)

    def test_kills_within_a_write(self):
        for length in range(1, len(TEXT_17)):
            for start in STARTS:
                desk = Reading(self.folder)
                put(desk, start)
                ended = desk.give(GIVEN_17, shim(desk, f"write new 1 torn {length}"))
                self.assertEqual((ended.status, desk.text(), desk.new().read_text()),
                                 (-signal.SIGKILL, start[0], TEXT_17[:length]))
                goes_on(desk)

    def test_the_file_is_on_the_disk_before_it_is_told(self):
        desk = Reading(self.folder)
        for start in STARTS:
            calls = [(call.kind, call.target) for call in calls_of(desk, start)]
            written = [at for at, call in enumerate(calls) if call == ("write", "new")]
            synced, named = calls.index(("sync", "new")), calls.index(("rename", "new"))
            folder_synced, told = calls.index(("sync", "folder")), calls.index(("write", "err"))
            assert written[-1] < synced < named < folder_synced < told, calls
            assert not any(target in ("journal", "old") and kind in ("write", "cut") for kind, target in calls), calls
            # Nothing is done to a file before the unit has been read.
            last = max(at for at, call in enumerate(calls) if call[1] in ("in", "out"))
            assert not any(target in ("journal", "new") for _, target in calls[:last]), calls

    def test_two_readings_at_once(self):
        # The first stops once it has the new file: the second one is refused, and then the first one goes on.
        desk = Reading(self.folder)
        desk.bank.write_text(BEFORE)
        first = desk.start(shim(desk, "sync new 1 pause"))
        try:
            first.stdin.write(GIVEN_17)
            first.stdin.close()
            self.assertEqual(os.waitid(os.P_PID, first.pid, os.WSTOPPED | os.WEXITED | os.WNOWAIT).si_code,
                             os.CLD_STOPPED)
            told = f"error: the file is in use by another reading of a unit: {desk.new()}\nfault 21 File\n"
            self.assertEqual((desk.give(GIVEN_17), desk.text()), (Ended(2, SENT_17, told), BEFORE))
            first.send_signal(signal.SIGCONT)
            sent, said, status = first.stdout.read(), first.stderr.read().decode(), first.wait(driven.PATIENCE)
            self.assertEqual((Ended(status, sent, said), desk.text()), (Ended(0, SENT_17, TOLD_17), TEXT_17))
        finally:
            first.kill()
            first.stdout.close()
            first.stderr.close()
