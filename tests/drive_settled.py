"""Tests that nothing is reported of a journal before it is on the disk: of an older one, by `journal`, by `check`.

A drive is killed between the write of a record and its sync. A command that reads that record acts on it, and a loss of
power takes it away again, if nobody has synced the file. So a loss of power is played by what the shim's log has of
syncs.
"""

import errno
import os
import subprocess

from base import BenchTest, settings, want
from call_fixtures import calls_in, calls_of, shim
from drive_desk import DONE_JOURNAL, FAULT_21, KEPT_DONE, PRESENT, desk_of, last_line
from drive_fixtures import blank_bus
from driven import HEADER, PATIENCE, Ended

UNSYNCED = DONE_JOURNAL[:-2]
TOLD_IDLE = "version 2\nB order 1 unit 5 at 0 bytes 6\nO unit 5\nE 0 Done\ncounts 39 of 39 orders 1 standing idle\n"
# A file that can't be synced has nothing to lose.
NO_SYNC = (errno.EINVAL, errno.EROFS)


def half_settled(folder):
    """Give the desk of a drive that was killed between the write of its last record and the sync of that."""
    desk = desk_of(folder, PRESENT)
    calls, _ = calls_of(desk, lambda variables: desk.over(blank_bus(5), environment=variables))
    last = [call for call in calls if (call.kind, call.target) == ("sync", "journal")][-1]
    desk.journal.unlink()
    desk.over(blank_bus(5), environment=shim(desk, last.act("kill")))
    want(desk.held(), DONE_JOURNAL)
    return desk


def is_settled(calls):
    """Tell whether the older file was synced after it was read, and before anything was sent or printed."""
    told = [at for at, call in enumerate(calls) if call.kind == "write" and call.target in ("out", "err")]
    read = max(at for at, call in enumerate(calls) if (call.kind, call.target) == ("read", "older"))
    between = calls[read:min(told)]
    return any((call.kind, call.target, call.result) == ("sync", "older", 0) for call in between)


def behind(folder, older):
    """Give a desk whose drives have this older journal; its order is that of the older one."""
    place = folder / "behind"
    place.mkdir(exist_ok=True)
    desk = desk_of(place, PRESENT)
    desk.options = ["--older", older]
    return desk


def driven(folder, older, environment, **_streams):
    """Drive with the older journal."""
    return behind(folder, older).give(b"", environment)


def listed(_folder, older, environment, name=None, **streams):
    """Tell the older journal by the command `journal`."""
    words = [settings["program"], "journal", name or older]
    ended = subprocess.run(words, env={**os.environ, **environment}, capture_output=True, timeout=PATIENCE, check=False,
                           **streams)
    return Ended(ended.returncode, ended.stdout, ended.stderr.decode())


def checked(folder, older, environment, **_streams):
    """Tell what the older journal says of its order, by the command `check --journal`."""
    words = [settings["program"], "check", behind(folder, older).orders, "--journal", older]
    ended = subprocess.run(words, env={**os.environ, **environment}, capture_output=True, timeout=PATIENCE, check=False)
    return Ended(ended.returncode, ended.stdout, ended.stderr.decode())


COMMANDS = (driven, listed, checked)


def is_told(ended):
    """Tell whether a command took the order for done."""
    places = ended.told, ended.sent.decode()
    return ended.status == 0 and any(
        it in place for place in places for it in (KEPT_DONE, "standing idle\n", "\nknown kept 0 Done\n"))


def spoiled(folder, command, desk, act):
    """Run a command with this call on the older file spoiled; its own journal must not be made."""
    variables = {**shim(desk, act), "DRIVE_SHIM_OLDER": str(desk.journal)}
    return command(folder, desk.journal, variables)


class SettledTest(BenchTest):
    """The records that count are on the disk."""

    def test_a_loss_of_power_takes_nothing_away_that_was_told(self):
        for command in COMMANDS:
            with self.subTest(command.__name__):
                folder = self.folder / command.__name__
                folder.mkdir()
                desk = half_settled(folder)
                log = folder / "calls.log"
                variables = {**shim(desk, log=log), "DRIVE_SHIM_OLDER": str(desk.journal)}
                self.assertTrue(is_told(command(folder, desk.journal, variables)))
                # The power goes, and with it what wasn't synced; then another luminaire is at that address.
                desk.journal.write_bytes(DONE_JOURNAL if is_settled(calls_in(log)) else UNSYNCED)
                bus = blank_bus(5)
                desk.write_orders([])
                self.assertEqual(desk.over(bus), Ended(0, b"", ""))

    def test_all_older_journals_are_synced(self):
        desk = half_settled(self.folder)
        for first, second in ((desk.journal, None), (None, desk.journal)):
            other = self.folder / "other.journal"
            other.write_bytes(HEADER)
            place = behind(self.folder, other)
            log = self.folder / "calls.log"
            place.options = ["--older", first or other, "--older", second or other]
            ended = place.give(b"", {**shim(place, log=log), "DRIVE_SHIM_OLDER": str(desk.journal)})
            self.assertEqual((ended.status, ended.told), (0, KEPT_DONE))
            self.assertTrue(is_settled(calls_in(log)))

    def test_a_sync_that_fails(self):
        words = {
            driven: ("error: the older journal can't be used: {}: Input/output error (os error 5)\nfault 21 File\n", b""),
            listed: ("error: the input can't be read: {}\n", b"fault 21 File\n"),
            checked: ("error: the journal can't be used: {}: Input/output error (os error 5)\n", b"fault 21 File\n"),
        }
        for command in COMMANDS:
            folder = self.folder / command.__name__
            folder.mkdir()
            desk = desk_of(folder, PRESENT, DONE_JOURNAL)
            ended = spoiled(folder, command, desk, f"sync older 1 fail {errno.EIO}")
            told, sent = words[command]
            self.assertEqual(ended, Ended(2, sent, told.format(desk.journal)))
            self.assertEqual((desk.held(), (folder / "behind" / "bench.journal").exists()), (DONE_JOURNAL, False))
            # The same command does its work once the sync succeeds.
            self.assertTrue(is_told(command(folder, desk.journal, {})))

    def test_what_cannot_be_synced(self):
        for command in COMMANDS:
            for cause in NO_SYNC:
                folder = self.folder / f"{command.__name__}_{cause}"
                folder.mkdir()
                desk = desk_of(folder, PRESENT, DONE_JOURNAL)
                self.assertTrue(is_told(spoiled(folder, command, desk, f"sync older 1 fail {cause}")))

    def test_a_journal_through_a_pipe(self):
        for name in ("-", "/dev/stdin"):
            ended = listed(self.folder, None, {}, name=name, input=DONE_JOURNAL)
            self.assertEqual(ended, Ended(0, TOLD_IDLE.encode(), ""))
        read, write = os.pipe()
        os.write(write, DONE_JOURNAL)
        os.close(write)
        ended = listed(self.folder, None, {}, name=f"/dev/fd/{read}", pass_fds=(read,))
        os.close(read)
        self.assertEqual(ended, Ended(0, TOLD_IDLE.encode(), ""))

    def test_a_journal_on_standard_input(self):
        desk = desk_of(self.folder, PRESENT, DONE_JOURNAL)
        fails = shim(desk, f"sync any 1 fail {errno.EIO}")
        for name in ("-", "/dev/stdin"):
            for environment, wanted in (({}, Ended(0, TOLD_IDLE.encode(), "")), (fails, Ended(
                    2, b"fault 21 File\n", "error: the input can't be read: standard input\n"))):
                with open(desk.journal, "rb") as journal:
                    ended = listed(self.folder, None, environment, name=name, stdin=journal)
                self.assertEqual(ended, wanted)

    def test_what_is_no_journal_is_told_all_the_same(self):
        desk = desk_of(self.folder, PRESENT, b"x")
        self.assertEqual(last_line(driven(self.folder, desk.journal, {}))[0], 1)
        self.assertEqual(listed(self.folder, desk.journal, {}).sent, b"journal fault 3 Record at 0\n")
        self.assertEqual(last_line(spoiled(self.folder, driven, desk, f"sync older 1 fail {errno.EIO}")), FAULT_21)
