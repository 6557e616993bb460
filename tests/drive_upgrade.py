"""Tests of how `drive` brings a journal into version 2: the result, and each call of it spoiled."""

import errno
import os
import pathlib
import pty
import signal
import stat
import time

import driven
from base import BenchTest, in_cases, want
from call_fixtures import acts_on, calls_of, check_named, check_order, shim
from drive_desk import (
    ABSENT,
    ABSENT_BEGAN,
    ABSENT_FRAMES,
    ABSENT_JOURNAL,
    DONE_JOURNAL,
    FAULT_21,
    GTIN,
    GTIN_BYTES,
    KEPT_SILENT,
    OLD_ABSENT_BEGAN,
    OLD_ABSENT_JOURNAL,
    OLD_DONE_JOURNAL,
    SILENCE,
    absent_records,
    as_nobody,
    desk_of,
    goes_on,
    last_line,
    new_of,
    put_journal,
)
from drive_fixtures import BLANK, many_orders
from driven import HEADER, Ended, in_version_2, judge, records_of, simulated_link

# Unit 5 was left by the first order and closed for the second one.
ORDERS = [{"order": 1, "unit": 5, "gtin": GTIN}, {"order": 2, "unit": 6, "gtin": GTIN}]
OLD_JOURNAL = bytes.fromhex("42 0000000000000001 05 06 0303 04A4 05CE 06EF 07AD 08AB 4F05 4505 4305"
                            "42 0000000000000002 06 06 0303 04A4 05CE 06EF 07AD 08AB 4F06 4500")
JOURNAL = HEADER + bytes.fromhex("42 0000000000000001 0000000000000000 05 06 0303 04A4 05CE 06EF 07AD 08AB"
                                 "4F05 4505 4305"
                                 "42 0000000000000002 0000000000000000 06 06 0303 04A4 05CE 06EF 07AD 08AB 4F06 4500")
# The replies, if this many bytes of the old journal count.
DONE_BOTH = ["1 kept 0 Done", "2 taken", "2 kept 0 Done"]
LEFT_FIRST = ["1 kept 5 DoubtOpen", "2 taken", "2 kept 0 Done"]
REPLIES = {
    0: ["1 taken", *DONE_BOTH], 23: ["1 kept 0 Done", *DONE_BOTH], 25: ["1 kept 0 Done", *DONE_BOTH],
    27: LEFT_FIRST, 29: LEFT_FIRST, 52: ["2 kept 0 Done", "1 kept 5 DoubtOpen", "2 kept 0 Done"],
    54: ["2 kept 0 Done", "1 kept 5 DoubtOpen", "2 kept 0 Done"], 56: ["1 kept 5 DoubtOpen", "2 kept 0 Done"],
}
# Prefixes of the old journal, one for each standing, most of them with a record that is cut.
LENGTHS = (0, 24, 26, 28, 40, 53, 55, 56)
# A Began that is cut off so late that a journal with it gets shorter as it is written anew.
LONG_TAIL = b"B" + bytes(8) + bytes([5, 20]) + bytes(it for place in range(0x13, 0x27) for it in (place, 0))[:-1]
ABSENT_STARTS = (None, b"", OLD_ABSENT_BEGAN, OLD_ABSENT_BEGAN + b"E", OLD_ABSENT_JOURNAL)
SHARES = 4  # of a long test, each a case


def stand(unit, count, is_open):
    """Have a unit stand as an order with a GTIN leaves it: with `count` bytes written, and open or not."""
    unit.banks[1][3:3 + count] = GTIN_BYTES[:count]
    if is_open:
        unit.banks[1][driven.LOCK_BYTE] = simulated_link.OPEN
        unit.registers, unit.is_enabled = [3 + count, 1, 0], True


def bus_for(journal):
    """Make a bus with both units as they may stand once a journal has come so far as this prefix of the old one."""
    counted, units = records_of(journal)[1], [simulated_link.Unit(5), simulated_link.Unit(6)]
    if counted >= 25:
        stand(units[0], 2, counted < 29)
    if counted >= 54:
        stand(units[1], 6 if counted == 56 else 3, counted == 54)
    return simulated_link.Bus(units)


def end_of(desk, bus):
    """Run both orders over a bus; give how it ended, the journal, whether `.new` is left, and the units' bytes."""
    ended = desk.over(bus)
    banks = [bytes(unit.banks[1]) for unit in bus.units]
    judge(bus, {5: BLANK, 6: BLANK}, desk.held())
    return ended, desk.held(), new_of(desk).exists(), banks


class UpgradeTest(BenchTest):
    """The new form of an older journal."""

    def test_worked_journals(self):
        longest = [(place, place ^ 0xA5) for place in [*range(0x03, 0x11), *range(0x13, 0x78)]]
        pairs = bytes([5, len(longest)]) + b"".join(bytes(pair) for pair in longest) + b"O\x05E\x00"
        number = (2 ** 64 - 2).to_bytes(8, "big")
        for start, journal, told in [(None, HEADER, ""), (b"", HEADER, ""), (OLD_DONE_JOURNAL, DONE_JOURNAL, ""),
                                     (OLD_DONE_JOURNAL[:24], DONE_JOURNAL[:35], "drive fault 4 End\n"),
                                     (OLD_JOURNAL, JOURNAL, ""), (OLD_JOURNAL[:22], HEADER, ""),
                                     (b"B" + number + pairs, HEADER + b"B" + number + bytes(8) + pairs, "")]:
            self.assertEqual((start, in_version_2(start or b"")), (start, journal))
            desk = desk_of(self.folder, [])
            put_journal(desk, start)
            for _ in range(2):
                ended = desk.give(b"")
                self.assertEqual((start, ended.status, ended.told), (start, 1 if told else 0, told))
                self.assertEqual((start, desk.held(), new_of(desk).exists()), (start, journal, False))

    def test_each_prefix_goes_on_as_in_version_2(self):
        for length in range(len(OLD_JOURNAL) + 1):
            start = OLD_JOURNAL[:length]
            desk = desk_of(self.folder, ORDERS, start)
            end = end_of(desk, bus_for(start))
            self.assertEqual((length, end[0].told.splitlines()),
                             (length, [f"reply {it}" for it in REPLIES[records_of(start)[1]]]))
            assert end[0].status == 0 and end[1].startswith(in_version_2(start)) and not end[2], (length, end)
            put_journal(desk, in_version_2(start))
            self.assertEqual((length, end), (length, end_of(desk, bus_for(start))))
        self.assertEqual(end, (Ended(0, b"", end[0].told), JOURNAL, False, end[3]))

    def test_an_old_order_has_moment_0(self):
        desk = desk_of(self.folder, [*ABSENT, {**ABSENT[0], "order": 2}], OLD_ABSENT_BEGAN)
        desk.options = ["--moment", "1700000000"]
        told = KEPT_SILENT * 2 + "reply 2 taken\nreply 2 kept 3 Silent\n"
        self.assertEqual(desk.give(SILENCE * 2), Ended(0, ABSENT_FRAMES * 2, told))
        self.assertEqual(desk.held(), ABSENT_JOURNAL + absent_records(2, 1700000000))

    def test_a_full_old_journal(self):
        again, more = {"order": 7, "unit": 9, "year": 24}, {"order": 100000, "unit": 9, "year": 24}
        records = many_orders(*range(100000))
        desk = desk_of(self.folder, [again, more, again], driven.in_version_1(HEADER + records))
        self.assertEqual(desk.journal.stat().st_size, 1500000)
        told = "reply 7 kept 3 Silent\nreply 100000 full\nreply 7 kept 3 Silent\n"
        self.assertEqual(desk.give(b""), Ended(0, b"", told))
        assert desk.held() == HEADER + records
        desk.journal.write_bytes(driven.in_version_1(HEADER + records + many_orders(100000)))
        self.assertEqual(last_line(desk.give(b"")), (1, b"", "journal fault 6 Full at 1500000"))
        self.assertEqual((desk.journal.stat().st_size, new_of(desk).exists()), (1500015, False))


def opening_in(calls):
    """Give the calls that come before the first frame: from the first on the journal to the last on its folder."""
    keys = [(call.kind, call.target) for call in calls]
    first = keys.index(("open", "journal"))
    last = len(keys) - 1 - keys[::-1].index(("sync", "folder"))
    return [call for call in calls[first:last + 1] if call.kind != "close" and call.result >= 0]


def check_upgrade(calls, journal):
    """Raise unless a journal of these bytes was written beside the old one, and took its place in the right order."""
    keys = [(call.kind, call.target) for call in calls]
    renamed = keys.index(("rename", "new"))
    written = [place for place, key in enumerate(keys) if key == ("write", "new")]
    for kind in ("open", "cut", "mode", "lock"):
        assert keys.index((kind, "new")) < written[0], (kind, keys)
    assert written[-1] < keys.index(("sync", "new")) < renamed < keys.index(("sync", "folder"), renamed), keys
    want(b"".join(bytes.fromhex(calls[place].detail) for place in written), journal)
    assert keys.index(("lock", "journal")) < keys.index(("read", "journal")), keys
    before = [kind for kind, target in keys[:renamed] if target == "journal"]
    assert not {"write", "cut", "close"} & set(before), before
    frames = [place for place, key in enumerate(keys) if key == ("write", "out")]
    assert frames == [] or keys.index(("sync", "folder"), renamed) < frames[0], keys


def upgrades(folder):
    """Give for some prefixes of the old journal the desk, the prefix, the calls that come first, and the right end."""
    desk = desk_of(folder, ORDERS)
    for start in (OLD_JOURNAL[:length] for length in LENGTHS):
        desk.journal.write_bytes(start)
        bus = bus_for(start)
        calls, _ = calls_of(desk, lambda variables: desk.over(bus, environment=variables))
        put_journal(desk, start)
        yield desk, start, opening_in(calls), end_of(desk, bus_for(start))


class UpgradeCallsTest(BenchTest):
    """The calls of an upgrade, in their order and spoiled."""

    def test_an_upgrade_is_on_the_disk_before_frames(self):
        desk = desk_of(self.folder, ABSENT)
        for start in ABSENT_STARTS:
            put_journal(desk, start)
            calls, _ = calls_of(desk, lambda variables: desk.give(SILENCE, variables))
            check_order(calls, ABSENT_JOURNAL, start or b"")
            check_upgrade(calls, in_version_2(start or b""))
        desk.write_orders(ORDERS)
        for length in LENGTHS:
            put_journal(desk, OLD_JOURNAL[:length])
            bus = bus_for(OLD_JOURNAL[:length])
            calls, _ = calls_of(desk, lambda variables: desk.over(bus, environment=variables))
            check_order(calls, desk.held(), OLD_JOURNAL[:length])
            check_upgrade(calls, in_version_2(OLD_JOURNAL[:length]))

    @in_cases(SHARES)
    def test_kills_amid_an_upgrade(self, case):
        for desk, start, calls, end in upgrades(self.folder):
            for act in [act for act in acts_on(calls) if "torn" not in act][case::SHARES]:
                put_journal(desk, start)
                bus = bus_for(start)
                self.assertEqual((act, desk.over(bus, environment=shim(desk, act))),
                                 (act, Ended(-signal.SIGKILL, b"", "")))
                assert desk.held() in (start, in_version_2(start)), (act, desk.held())
                self.assertEqual((act, end_of(desk, bus)), (act, end))

    def test_an_upgrade_that_is_torn(self):
        for start, orders in [(OLD_ABSENT_BEGAN, ABSENT), (OLD_JOURNAL, ORDERS)]:
            desk = desk_of(self.folder, orders, in_version_2(start))
            end = desk.give(SILENCE), desk.held()
            for length in range(1, len(in_version_2(start))):
                put_journal(desk, start)
                ended = desk.give(SILENCE, shim(desk, f"write new 1 torn {length}"))
                self.assertEqual((length, ended, desk.held()), (length, Ended(-signal.SIGKILL, b"", ""), start))
                self.assertEqual((length, (desk.give(SILENCE), desk.held())), (length, end))

    @in_cases(2)
    def test_failures_amid_an_upgrade(self, case):
        for desk, start, calls, end in upgrades(self.folder):
            is_renamed = False
            for call in calls:
                put_journal(desk, start)
                bus = bus_for(start)
                act = call.act("fail", (errno.EIO, errno.ENOSPC)[case])
                ended = desk.over(bus, environment=shim(desk, act))
                self.assertEqual((call, last_line(ended)), (call, FAULT_21))
                check_named(desk, call, ended)
                self.assertEqual((call, desk.held()), (call, in_version_2(start) if is_renamed else start))
                self.assertEqual((call, end_of(desk, bus)), (call, end))
                is_renamed = is_renamed or call.kind == "rename"

    def test_what_a_stopped_drive_left(self):
        desk = desk_of(self.folder, ABSENT)
        for start in ABSENT_STARTS:
            whole = in_version_2(start or b"")
            for length in range(len(whole) + 1):
                put_journal(desk, start)
                new_of(desk).write_bytes(whole[:length])
                new_of(desk).chmod(0o600)
                goes_on(desk)


def check_in_the_way(desk, start, others=()):
    """Raise unless what stands where the journal is to be written anew is refused by name, and all stays as it is."""
    new = new_of(desk)
    before = [path.read_bytes() for path in others]
    kind, names = new.lstat().st_mode, sorted({*os.listdir(desk.folder), desk.journal.name})
    told = f"error: what stands in the way was not left by a drive of this journal: {new}\nfault 21 File\n"
    want((start, desk.give(SILENCE)), (start, Ended(2, b"", told)))
    want((desk.held(), [path.read_bytes() for path in others]), (start or b"", before))
    want((new.lstat().st_mode, sorted(os.listdir(desk.folder))), (kind, names))


class InTheWayTest(BenchTest):
    """Obstacles to an upgrade, and the rights that it leaves."""

    def test_what_no_drive_left(self):
        desk = desk_of(self.folder, ABSENT)
        for start in ABSENT_STARTS:
            whole = in_version_2(start or b"")
            for left in (whole + b"B", whole[:-1] + b"\xff", DONE_JOURNAL, many_orders(*range(50)), OLD_JOURNAL,
                         b"\xff" * 5000, b"\0" * len(whole)):
                put_journal(desk, start)
                new_of(desk).write_bytes(left)
                check_in_the_way(desk, start, [new_of(desk)])

    def test_what_is_no_file_of_its_own_where_it_would_be_written(self):
        desk, other = desk_of(self.folder, ABSENT), self.folder / "other.journal"
        for start in ABSENT_STARTS:
            for held in (b"", HEADER, DONE_JOURNAL):
                for make in (os.symlink, os.link):
                    put_journal(desk, start)
                    other.write_bytes(held)
                    make(other, new_of(desk))
                    check_in_the_way(desk, start, [other])
            for make in (os.mkfifo, lambda path: os.symlink(self.folder / "none", path)):
                put_journal(desk, start)
                make(new_of(desk))
                check_in_the_way(desk, start)

    def test_orders_where_the_journal_would_be_written(self):
        desk = desk_of(self.folder, ABSENT)
        orders = desk.orders
        for start in (b"", OLD_ABSENT_BEGAN):
            for make in (os.symlink, os.link):
                put_journal(desk, start)
                make(orders, new_of(desk))
                check_in_the_way(desk, start, [orders])
            put_journal(desk, start)
            desk.orders = new_of(desk)
            desk.write_orders(ABSENT)
            check_in_the_way(desk, start, [desk.orders])
            desk.orders = orders

    def test_a_folder_stands_where_it_would_be_written(self):
        desk = desk_of(self.folder, ABSENT)
        for start in (b"", OLD_ABSENT_BEGAN):
            put_journal(desk, start)
            new_of(desk).mkdir()
            check_in_the_way(desk, start)
            new_of(desk).rmdir()
            goes_on(desk)

    def test_a_folder_in_which_nothing_can_be_made(self):
        desk = desk_of(self.folder, ABSENT)
        for start, end in [(b"", FAULT_21), (OLD_ABSENT_BEGAN, FAULT_21), (ABSENT_BEGAN, (0, ABSENT_FRAMES))]:
            put_journal(desk, start)
            desk.journal.chmod(0o666)
            self.folder.chmod(0o555)
            self.assertEqual((start, last_line(as_nobody(desk))[:len(end)]), (start, end))
            self.folder.chmod(0o755)
            self.assertEqual(desk.held(), ABSENT_JOURNAL if start == ABSENT_BEGAN else start)
            goes_on(desk)

    def test_the_permission_bits_stay(self):
        desk = desk_of(self.folder, ABSENT)
        for mode in (0o600, 0o640, 0o604, 0o666, 0o700, 0o777):
            for start in (b"", OLD_ABSENT_BEGAN, ABSENT_BEGAN):
                put_journal(desk, start)
                desk.journal.chmod(mode)
                self.assertEqual(desk.give(SILENCE, umask=0o077).status, 0)
                self.assertEqual((start, stat.S_IMODE(desk.journal.stat().st_mode)), (start, mode))
                self.assertEqual(desk.held(), ABSENT_JOURNAL)
        put_journal(desk, None)
        self.assertEqual(desk.give(SILENCE, umask=0o027).status, 0)
        self.assertEqual(stat.S_IMODE(desk.journal.stat().st_mode), 0o640)


def wait_until_stopped(command):
    """Wait until a program has stopped itself."""
    end = time.monotonic() + driven.PATIENCE
    events = os.WSTOPPED | os.WEXITED | os.WNOWAIT | os.WNOHANG
    while (found := os.waitid(os.P_PID, command.pid, events)) is None:
        assert time.monotonic() < end, "it doesn't stop"
        time.sleep(0.001)
    want(found.si_code, os.CLD_STOPPED)


def give_around(desk, act, run):
    """Stop the program at a call, do what `run` does, and have the program go on; give the ends of both."""
    command = desk.start(shim(desk, act))
    try:
        wait_until_stopped(command)
        found = run()
        command.send_signal(signal.SIGCONT)
        sent, told = command.communicate(SILENCE, driven.PATIENCE)
    finally:
        command.kill()
    return Ended(command.returncode, sent, told.decode()), found


class TwoDrivesTest(BenchTest):
    """Two drives at once."""

    @in_cases(2)
    def test_one_of_two_drives_runs(self, case):
        effect, desk = ("pause", "paused")[case], desk_of(self.folder, ABSENT)
        for start in (None, b"", OLD_ABSENT_BEGAN, ABSENT_BEGAN):
            put_journal(desk, start)
            calls, _ = calls_of(desk, lambda variables: desk.give(SILENCE, variables))
            has_lock = False
            for call in opening_in(calls):
                has_lock = has_lock or effect == "paused" and call.kind == "lock"
                put_journal(desk, start)
                first, second = give_around(desk, call.act(effect), lambda: desk.give(SILENCE))
                runs, other = (first, second) if has_lock or first.sent else (second, first)
                self.assertEqual((start, call, runs[:2]), (start, call, (0, ABSENT_FRAMES)))
                # One that comes to the lock once the other has ended may come to its file, or to one that is gone.
                may_end = (FAULT_21,) if has_lock else (FAULT_21, (0, b"", KEPT_SILENT.strip()))
                assert last_line(other) in may_end, (start, call, other)
                self.assertEqual((desk.held(), new_of(desk).exists()), (ABSENT_JOURNAL, False))
                has_lock = has_lock or call.kind == "lock"

    def test_a_drive_that_opened_the_old_file_is_kept_out(self):
        desk, longer = desk_of(self.folder, ABSENT), OLD_ABSENT_BEGAN + LONG_TAIL
        assert len(longer) > len(ABSENT_BEGAN)
        for start in (b"", OLD_ABSENT_BEGAN, longer, longer[:len(ABSENT_BEGAN)]):
            put_journal(desk, start)
            first, changed = None, time.time_ns() - 10 ** 10
            os.utime(desk.journal, ns=(changed, changed))

            def begin():
                nonlocal first
                first = desk.start()
                self.assertEqual(driven.line_from(first.stdout), ABSENT_FRAMES[:5])
                # Neither its time nor, in the last case, its length tells the new file from the old one.
                os.utime(desk.journal, ns=(changed, changed))

            try:
                second, _ = give_around(desk, "lock journal 1 pause", begin)
                self.assertEqual(last_line(second), FAULT_21)
                self.assertEqual(desk.held(), ABSENT_BEGAN)
                self.assertEqual(first.communicate(SILENCE, driven.PATIENCE)[0], ABSENT_FRAMES[5:])
            finally:
                first.kill()
            self.assertEqual((first.returncode, desk.held()), (0, ABSENT_JOURNAL))


class NamesTest(BenchTest):
    """Journals under other names, and such as are no regular files."""

    def test_a_link_stays_one(self):
        (self.folder / "inner").mkdir()
        real = self.folder / "inner" / "real.journal"
        desk = desk_of(self.folder, ABSENT)
        desk.journal = self.folder / "link.journal"
        desk.journal.symlink_to("other.journal")
        (self.folder / "other.journal").symlink_to("inner/real.journal")
        names = ["inner", "link.journal", "orders.json", "other.journal"]
        for start in ABSENT_STARTS:
            real.unlink(missing_ok=True)
            if start is not None:
                real.write_bytes(start)
            calls, _ = calls_of(desk, lambda variables: desk.give(SILENCE, variables))
            check_order(calls, ABSENT_JOURNAL, start or b"")
            self.assertEqual((real.read_bytes(), os.readlink(desk.journal)), (ABSENT_JOURNAL, "other.journal"))
            self.assertEqual((sorted(os.listdir(self.folder)), os.listdir(self.folder / "inner")),
                             (names, ["real.journal"]))

    def test_the_new_file_stands_beside_the_old_one(self):
        (self.folder / "inner").mkdir()
        real = self.folder / "inner" / "real.journal"
        desk = desk_of(self.folder, ABSENT)
        desk.journal = self.folder / "link.journal"
        desk.journal.symlink_to(real)
        for start in (b"", OLD_ABSENT_BEGAN):
            real.write_bytes(start)
            self.assertEqual(desk.give(SILENCE, shim(desk, "rename new 1 kill")), Ended(-signal.SIGKILL, b"", ""))
            self.assertEqual(real.with_name("real.journal.new").read_bytes(), in_version_2(start))
            self.assertEqual((real.read_bytes(), new_of(desk).exists()), (start, False))
            goes_on(desk)
            self.assertEqual(os.listdir(self.folder / "inner"), ["real.journal"])

    def test_what_is_no_regular_file_is_refused(self):
        near, far = pty.openpty()
        desk = desk_of(self.folder, ABSENT)
        for name in ("/dev/null", "/dev/zero", "/dev/full", os.ttyname(far)):
            desk.journal = pathlib.Path(name)
            self.assertEqual(desk.give(SILENCE),
                             Ended(2, b"", f"error: the journal is a character device: {name}\nfault 21 File\n"))
        os.close(near)
        os.close(far)

    def test_a_stream_is_refused(self):
        desk = desk_of(self.folder, ABSENT)
        desk.journal = pathlib.Path("-")
        told = "error: the journal has to be a file, and no stream: -\nfault 21 File\n"
        self.assertEqual(desk.give(SILENCE, cwd=self.folder), Ended(2, b"", told))
        self.assertEqual(os.listdir(self.folder), ["orders.json"])
        desk.words = lambda: [desk.program, "drive", desk.orders, "./-"]
        self.assertEqual(desk.give(SILENCE, cwd=self.folder).status, 0)
        self.assertEqual((self.folder / "-").read_bytes(), ABSENT_JOURNAL)
