"""Tests of `drive` by the calls that it makes: in which order, and each of them failing, cut short or the last one."""

import errno
import signal

from base import BenchTest, in_cases, preloaded, want
from call_fixtures import acts_of, calls_of, check_named, check_order, kill_at_each, shim
from drive_desk import (
    ABSENT,
    ABSENT_BEGAN,
    ABSENT_FRAMES,
    ABSENT_JOURNAL,
    OLD_ABSENT_BEGAN,
    OUT_LINES,
    PRESENT,
    SILENCE,
    desk_of,
    goes_on,
    last_line,
    put_journal,
)
from drive_fixtures import BLANK, DOUBTFUL, LOSSY, SCENES, Scene
from driven import groups_of, records_of

SHARES = 4  # of a long test, each a case


class CallsTest(BenchTest):
    """The order in which the calls are made."""

    def test_records_are_synced_before_frames(self):
        for name, scene in [("gtin", Scene(PRESENT, [(5, BLANK, ())], {})), ("lossy", LOSSY), ("doubtful", DOUBTFUL)]:
            (self.folder / name).mkdir()
            desk, bus = desk_of(self.folder / name, scene.orders), scene.bus()
            calls, ended = calls_of(desk, lambda variables: desk.over(bus, environment=variables))
            self.assertEqual(ended.status, 0)
            check_order(calls, desk.held())
            self.assertEqual(ended.told.count(" kept "), len(scene.orders))

    def test_a_cut_is_synced_before_frames(self):
        for start in (ABSENT_BEGAN + b"E", ABSENT_BEGAN[:14]):
            desk = desk_of(self.folder, ABSENT, start)
            calls, _ = calls_of(desk, lambda variables: desk.give(SILENCE, variables))
            check_order(calls, ABSENT_JOURNAL, start)
            kinds = [call.kind for call in calls if call.target == "journal"]
            assert "sync" in kinds[kinds.index("cut"):kinds.index("write")], kinds

    def test_what_was_loaded_is_synced_before_frames(self):
        desk = desk_of(self.folder, ABSENT, ABSENT_BEGAN)
        calls, _ = calls_of(desk, lambda variables: desk.give(SILENCE, variables))
        first = next(place for place, call in enumerate(calls) if (call.kind, call.target) == ("write", "out"))
        for target in ("journal", "folder"):
            assert any((call.kind, call.target) == ("sync", target) for call in calls[:first]), calls[:first]
        assert not any(call.target == "new" for call in calls), calls
        check_order(calls, ABSENT_JOURNAL, ABSENT_BEGAN)


def faults_of(call):
    """Give the lines of which one belongs to a call that fails."""
    if call.target == "out" or call.target == "in":
        return ("drive fault 2 Link",)
    if call.target == "err":
        return OUT_LINES
    is_of_record = call.target == "journal" and call.kind in ("write", "sync") and call.is_of_record
    return ("drive fault 1 Journal",) if is_of_record else ("fault 21 File",)


def absent_calls(desk, start):
    """Give the calls of the absent unit's run from a journal of these bytes, or from none."""
    put_journal(desk, start)
    calls, ended = calls_of(desk, lambda variables: desk.give(SILENCE, variables))
    want((ended.status, desk.held()), (0, ABSENT_JOURNAL))
    has_written = False
    for call in calls:
        has_written = has_written or (call.kind, call.target) == ("write", "journal")
        call.is_of_record = has_written
    return [call for call in calls if call.kind != "close"]


def may_be(call, effect, value):
    """Whether a call may be so: only reads and writes are short, and no signal interrupts a rename or a stat."""
    if effect == "short":
        return call.kind in ("read", "write")
    return value != errno.EINTR or call.kind not in ("rename", "stat")


def each_call_spoiled(folder, effect, value):
    """Run the absent unit with each call spoiled in turn; give the desk, the call and how the run ended."""
    desk = desk_of(folder, ABSENT)
    for start in (None, ABSENT_BEGAN + b"E"):
        for call in absent_calls(desk, start):
            if call.result < 0 or not may_be(call, effect, value):
                continue
            put_journal(desk, start)
            yield desk, call, desk.give(SILENCE, shim(desk, call.act(effect, value)))


def refuse_each_allocation(desk, start, numbers):
    """Run the absent unit with one of its allocations refused, each in turn; tell how many ended as want of memory."""
    ran_out = 0
    for number in numbers:
        put_journal(desk, start)
        preload = {"LD_PRELOAD": str(preloaded("refuse_alloc")), "REFUSED_ALLOCATION": str(number)}
        ended = desk.give(SILENCE, preload)
        told = ended.told.replace("an allocation was refused\n", "")
        if told == ended.told:
            break
        if ended.status == 0:
            want((ended.sent, desk.held()), (ABSENT_FRAMES, ABSENT_JOURNAL))
        else:
            # Before the command line is read it isn't known that the command is `drive`, and the output is a link.
            line = ended.sent.decode() if number <= 8 and ended.sent else told
            want((number, ended.status, line.splitlines()[-1]), (number, 2, "fault 20 Memory"))
            assert number <= 8 or not ended.sent, (number, ended.sent)
            assert groups_of(desk.held()) == groups_of(start), (number, desk.held())
            ran_out += 1
        goes_on(desk)
    return ran_out


class SpoiledCallsTest(BenchTest):
    """Calls that fail, are cut short, or are the last one."""

    @in_cases(2)
    def test_each_call_failing(self, case):
        for desk, call, ended in each_call_spoiled(self.folder, "fail", (errno.EIO, errno.ENOSPC)[case]):
            status, sent, line = last_line(ended)
            assert status == 2 and line in faults_of(call), (call, ended)
            check_named(desk, call, ended)
            assert ABSENT_FRAMES.startswith(sent), (call, sent)
            assert sent == b"" or call.target in ("in", "out", "err") or call.is_of_record, (call, sent)
            assert not desk.journal.exists() or records_of(desk.held()), call
            goes_on(desk)

    def test_interrupted_calls_change_nothing(self):
        for desk, call, ended in each_call_spoiled(self.folder, "fail", errno.EINTR):
            self.assertEqual((call, ended.status, ended.sent), (call, 0, ABSENT_FRAMES))
            self.assertEqual(desk.held(), ABSENT_JOURNAL)

    def test_short_calls_change_nothing(self):
        for desk, call, ended in each_call_spoiled(self.folder, "short", 0):
            self.assertEqual((call, ended.status, ended.sent), (call, 0, ABSENT_FRAMES))
            self.assertEqual(desk.held(), ABSENT_JOURNAL)
        for kind, target in [("write", "journal"), ("write", "new"), ("write", "out"), ("write", "err"),
                             ("write", "any"), ("read", "any")]:
            for start in (b"", ABSENT_BEGAN + b"E", OLD_ABSENT_BEGAN + b"E"):
                desk = desk_of(self.folder, ABSENT, start)
                ended = desk.give(SILENCE, shim(desk, f"{kind} {target} 0 short"))
                self.assertEqual((kind, target, ended.status, ended.sent), (kind, target, 0, ABSENT_FRAMES))
                self.assertEqual(desk.held(), ABSENT_JOURNAL)

    @in_cases(2)
    def test_kills_at_each_call(self, case):
        for desk, call, ended in each_call_spoiled(self.folder, ("kill", "killed")[case], 0):
            self.assertEqual((call, ended.status), (call, -signal.SIGKILL))
            assert ABSENT_FRAMES.startswith(ended.sent), (call, ended)
            goes_on(desk)

    @in_cases(SHARES)
    def test_kills_at_each_record_and_reply(self, case):
        for name, scene in SCENES.items():
            desk = desk_of(self.folder, scene.orders)
            kill_at_each(desk, name, acts_of(desk, scene)[case::SHARES * min(scene.step, 7)])

    @in_cases(4)
    def test_each_allocation_refused(self, case):
        start = (b"", OLD_ABSENT_BEGAN)[case // 2]
        ran_out = refuse_each_allocation(desk_of(self.folder, ABSENT), start, range(1 + case % 2, 100000, 2))
        assert ran_out, "no refused allocation ended as want of memory"
