"""Tests of how much memory `drive`, `read`, `verify`, `scan` and `address` hold at once over small inputs."""

import resource
from typing import NamedTuple

from address_runs import NONE_SENT, NONE_TOLD, Addressing
from base import BenchTest, preloaded
from drive_desk import ABSENT, ABSENT_FRAMES, GTIN, KEPT_SILENT, SILENCE, absent_records, desk_of
from drive_fixtures import following
from driven import HEADER, Ended, Following
from read_desk import GIVEN_17, SAME, SENT_17, TEXT_17, TOLD_17, VERIFY_GIVEN, VERIFY_SENT, as_lines, desk_for

KIBIBYTE = 1024
MOST_STACK = 512 * KIBIBYTE
# The most bytes that a run may hold at once if it reads no file as a whole, if it reads one of them, and if it has an
# order for each unit: each limit is over what such runs hold now, by less than a bank of each of the 64 units.
NO_FILE, ONE_FILE, ALL_UNITS = 58 * KIBIBYTE, 150 * KIBIBYTE, 224 * KIBIBYTE
TAKEN = "reply 1 taken\n" + KEPT_SILENT
ORDERS = [{"order": unit + 1, "unit": unit, "gtin": GTIN} for unit in range(64)]
ALL_SILENT = Ended(
    0,
    b"".join(b"C301\n%02X9C\n" % (2 * unit + 1) * 8 for unit in range(64)),
    "".join(TAKEN.replace("reply 1", f"reply {unit + 1}") for unit in range(64)),
)
ALL_THE_SAME = Ended(
    0,
    b"".join(VERIFY_SENT.replace(b"0B", b"%02X" % (2 * unit + 1)) for unit in range(64)),
    "".join(f"order {unit + 1} unit {unit} same\n" for unit in range(64)),
)
ALL_FOUND = Ended(
    0,
    b"".join(SENT_17[:35].replace(b"0B", b"%02X" % (2 * unit + 1)) for unit in range(64)),
    "".join(f"unit {unit} last 10\n" for unit in range(64)) + "units 64\n",
)


class Limited(NamedTuple):
    """A run, how many bytes it may have allocated at once, and how it has to end."""

    desk: object
    answers: bytes
    most: int
    ended: Ended


def behind_an_older_journal(desk):
    """Have a desk drive over a journal of ten orders with an older one, with a report."""
    older = desk.folder / "older.journal"
    older.write_bytes(HEADER + absent_records(20))
    desk.journal.write_bytes(HEADER + b"".join(absent_records(number) for number in range(2, 12)))
    desk.options = ["--older", older, "--report", desk.folder / "report"]
    return desk


def ready(ended):
    """Give how a run ends that says `ready` before all else."""
    return ended._replace(told=Following.ready + ended.told)


def limited_runs(folder):
    """Give the runs that have a limit, by a name, each in a folder of its own."""

    def place(name):
        (folder / name).mkdir(parents=True)
        return folder / name

    silent = Ended(0, ABSENT_FRAMES, TAKEN)
    behind = behind_an_older_journal(desk_of(place("behind"), ABSENT))
    given = as_lines(VERIFY_GIVEN)
    all_found = as_lines("-- 01 -- 00 10 01 01") * 64
    return {
        "drive": Limited(desk_of(place("drive"), ABSENT), SILENCE, ONE_FILE, silent),
        "drive --older": Limited(behind, SILENCE, ONE_FILE, silent),
        "drive of all": Limited(desk_of(place("all"), ORDERS), SILENCE * 64, ALL_UNITS, ALL_SILENT),
        "drive --follow": Limited(following(place("follow"), ABSENT), SILENCE, NO_FILE, ready(silent)),
        "drive --follow of all": Limited(following(place("lines"), ORDERS), SILENCE * 64, NO_FILE, ready(ALL_SILENT)),
        "read": Limited(desk_for(place("read"), "read"), GIVEN_17, NO_FILE, Ended(0, SENT_17, TOLD_17)),
        "verify": Limited(desk_for(place("verify"), "verify"), given, ONE_FILE, Ended(0, VERIFY_SENT, SAME)),
        "verify of all": Limited(desk_for(place("same"), "verify", ORDERS), given * 64, ALL_UNITS, ALL_THE_SAME),
        "scan": Limited(desk_for(place("scan"), "scan"), all_found, NO_FILE, ALL_FOUND),
        "address": Limited(Addressing(), SILENCE * 4, NO_FILE, Ended(0, NONE_SENT, NONE_TOLD)),
    }


def limit_stack():
    """Limit the stack of this process and of what it starts."""
    resource.setrlimit(resource.RLIMIT_STACK, (MOST_STACK, MOST_STACK))


def ended_within(run, most):
    """Give how a run ends where it can't allocate more bytes at once than these."""
    preload = {"LD_PRELOAD": str(preloaded("refuse_alloc")), "MOST_ALLOCATED": str(most)}
    return run.desk.give(run.answers, preload, preexec_fn=limit_stack)


class MemoryTest(BenchTest):
    """The memory that is held at once."""

    def test_small_inputs_take_little_memory(self):
        for name, run in limited_runs(self.folder / "whole").items():
            self.assertEqual((name, ended_within(run, run.most)), (name, run.ended))
            assert name != "read" or run.desk.text() == TEXT_17
        # Within half of it none of them comes to its end, so that the limit is one.
        for name, run in limited_runs(self.folder / "half").items():
            ended = ended_within(run, run.most // 2)
            assert ended.status == 2 and "an allocation was refused\n" in ended.told, (name, ended)
