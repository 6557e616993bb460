"""The calls that `drive` makes: their log, the order that they have to be in, and runs that are killed at one."""

import signal

from base import preloaded, want
from drive_desk import new_of
from drive_fixtures import CHANGED_BY_KILLS, SCENES, finish
from driven import groups_of, judge, kept_lines


class Call:
    """A call from the shim's log, with its number among those of its kind and target."""

    def __init__(self, line, numbers):
        self.kind, self.target, result, self.detail = line.split(" ", 3)
        self.result = int(result)
        key = self.kind, self.target
        self.number = numbers[key] = numbers.get(key, 0) + 1

    def act(self, effect, value=0):
        """Spell what is to become of this call."""
        return f"{self.kind} {self.target} {self.number} {effect} {value}"

    def __repr__(self):
        return f"{self.kind} {self.target} {self.number}"


def shim(desk, act=None, log=None):
    """Give the variables that preload the shim."""
    variables = {"LD_PRELOAD": preloaded("drive_shim"), "DRIVE_SHIM_ORDERS": desk.orders,
                 "DRIVE_SHIM_JOURNAL": desk.journal, "DRIVE_SHIM_ACT": act, "DRIVE_SHIM_LOG": log}
    return {name: str(value) for name, value in variables.items() if value is not None}


def calls_in(log):
    """Read the shim's log, but what concerns none of drive's files and pipes, and remove it."""
    numbers = {}
    calls = [Call(line, numbers) for line in log.read_text().splitlines()]
    log.unlink()
    return [call for call in calls if call.target != "other"]


def calls_of(desk, run):
    """Do a run with the shim and nothing spoiled; give its calls and how it ended."""
    log = desk.folder / "calls.log"
    ended = run(shim(desk, log=log))
    return calls_in(log), ended


def check_order(calls, journal, start=b""):
    """Raise unless all was synced before what stands on it, and each frame was answered before the next."""
    unsynced, locked, is_answer_due = {"journal", "folder"} if start else {"folder"}, set(), False
    written = {"journal": start, "new": b""}
    for call in calls:
        if call.kind in ("write", "cut"):
            assert call.target != "old", call
        if call.kind in ("write", "cut") and call.target in written:
            unsynced.add(call.target)
            written[call.target] = changed(written[call.target], call)
        elif call.kind == "sync":
            assert call.result == 0, call
            unsynced.discard(call.target)
        elif call.kind == "lock" and call.result == 0:
            locked.add(call.target)
        elif call.kind == "rename":
            want((call.result, call.target, call.detail), (0, "new", "journal"))
            assert "new" not in unsynced and {"new", "journal"} <= locked, (call, unsynced, locked)
            written["journal"] = written["new"]
            unsynced = {"folder"}
        elif call.kind == "write" and call.target == "out":
            assert not unsynced and not is_answer_due and "journal" in locked, (call, unsynced)
            check_ground(bytes.fromhex(call.detail), written["journal"])
            is_answer_due = True
        elif call.kind == "write" and call.target == "err":
            told, kept = bytes.fromhex(call.detail).decode(), kept_lines(written["journal"])
            assert " kept " not in told or not unsynced and told.strip() in kept, (told, written)
        elif call.kind == "read" and call.target == "in":
            is_answer_due = False
    want((unsynced, written["journal"]), (set(), journal))


def changed(data, call):
    """Give what stands in a file after a write at its end or a cut."""
    return data + bytes.fromhex(call.detail) if call.kind == "write" else data[:int(call.detail, 16)]


def check_ground(line, written):
    """Raise unless an order is begun or a unit left where a frame is sent, and opened or left where it may write."""
    assert len(line) == 5, line
    last = groups_of(written)[-1]
    may_write = line.endswith(b"81\n") or line.startswith(b"C7")
    assert last.may_leave_enabled() or last.code is None and not may_write, (line, last)


def check_named(desk, call, ended):
    """Raise unless a file's fault has a line before it that names the file on which the call failed."""
    files = {"orders": [desk.orders], "journal": [desk.journal], "new": [new_of(desk)],
             "folder": [desk.journal.parent, "/"]}
    if call.target in files and ended.told.endswith("fault 21 File\n"):
        line = ended.told.splitlines()[-2]
        assert line.startswith("error: ") and any(f": {it}: " in line for it in files[call.target]), (call, ended)


def acts_on(calls):
    """Give the acts that kill before, after and in the midst of each call on the journal's files and of each reply."""
    for call in calls:
        if call.target in ("journal", "new", "old", "folder", "orders", "err"):
            yield call.act("kill")
            yield call.act("killed")
        if call.kind == "write" and call.target in ("journal", "new"):
            yield from (call.act("torn", length) for length in range(1, len(call.detail) // 2))
        if (call.kind, call.target) == ("write", "out") and call.number % 20 == 1:
            yield from (call.act("torn", length) for length in range(1, 5))


def acts_of(desk, scene):
    """Give the acts at which a run of a scene, from no journal, can be killed."""
    desk.journal.unlink(missing_ok=True)
    bus = scene.bus()
    calls, _ = calls_of(desk, lambda variables: desk.over(bus, environment=variables))
    return list(acts_on(calls))


def kill_at_each(desk, name, acts):
    """Kill a run of the scene of this name at each of these acts; units and journal are right, and a run ends it."""
    scene = SCENES[name]
    for act in acts:
        desk.journal.unlink(missing_ok=True)
        bus = scene.bus()
        try:
            ended = desk.over(bus, environment=shim(desk, act))
            want(ended.status, -signal.SIGKILL)
            judge(bus, scene.banks(), desk.held() if desk.journal.exists() else b"")
            finish(desk, scene, bus, None if name in CHANGED_BY_KILLS else scene.codes)
        except Exception as fault:
            raise AssertionError(f"{name}, with the act {act}") from fault
