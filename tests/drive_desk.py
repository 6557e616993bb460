"""The base of the tests of `drive`: its worked example, a unit that isn't there, and how a run is judged."""

import os
import shutil

from base import settings, want
from driven import HEADER, Desk

GTIN = "4006381333931"
GTIN_BYTES = bytes.fromhex("03A4CEEFADAB")
ABSENT = [{"order": 1, "unit": 9, "gtin": GTIN}]
ABSENT_RECORDS = bytes.fromhex("42 0000000000000001 0000000000000000 09 06 0303 04A4 05CE 06EF 07AD 08AB 45 03")
ABSENT_JOURNAL = HEADER + ABSENT_RECORDS
ABSENT_BEGAN = ABSENT_JOURNAL[:-2]
ABSENT_FRAMES = b"C301\n139C\n" * 8
SILENCE = b"--\n" * 16
KEPT_SILENT = "reply 1 kept 3 Silent\n"
KEPT_DONE = "reply 1 kept 0 Done\n"
PRESENT = [{"order": 1, "unit": 5, "gtin": GTIN}]
DONE_RECORDS = bytes.fromhex("42 0000000000000001 0000000000000000 05 06 0303 04A4 05CE 06EF 07AD 08AB 4F05 4500")
DONE_JOURNAL = HEADER + DONE_RECORDS
LEFT_JOURNAL = DONE_JOURNAL[:-2] + bytes.fromhex("4505")
# The same in version 1.
OLD_ABSENT_JOURNAL = bytes.fromhex("42 0000000000000001 09 06 0303 04A4 05CE 06EF 07AD 08AB 45 03")
OLD_ABSENT_BEGAN = OLD_ABSENT_JOURNAL[:-2]
OLD_DONE_JOURNAL = bytes.fromhex("42 0000000000000001 05 06 0303 04A4 05CE 06EF 07AD 08AB 4F05 4500")
DONE_TOLD = "reply 1 taken\nreply 1 kept 0 Done\n"
MOST_JOURNAL = 33554432
FAULT_21 = (2, b"", "fault 21 File")
# The last line on a standard error that failed once: nothing more has to come there.
OUT_LINES = ("drive fault 7 Out", "reply 1 taken", "reply 1 kept 3 Silent", "")
NOBODY = 65534


def desk_of(folder, orders, journal=None):
    """Make a desk with these orders, and with a journal of these bytes where they are given."""
    desk = Desk(settings["program"], folder, orders)
    if journal is not None:
        desk.journal.write_bytes(journal)
    return desk


def new_of(desk):
    """Give the path of the file that is to take the journal's place."""
    return desk.journal.with_name(desk.journal.name + ".new")


def put_journal(desk, journal):
    """Put a journal of these bytes in its place, or none, and take away what a run left beside it."""
    new_of(desk).unlink(missing_ok=True)
    desk.journal.unlink(missing_ok=True)
    if journal is not None:
        desk.journal.write_bytes(journal)


def absent_records(number, moment=0):
    """Give the records of an order with this number and moment for the absent unit."""
    return b"B" + number.to_bytes(8, "big") + moment.to_bytes(8, "big") + ABSENT_RECORDS[17:]


def unwritten(cause):
    """Give the lines of a standard output that can't be written."""
    return f"error: the frames can't be written to standard output: {cause}\ndrive fault 2 Link\n"


def unread(cause):
    """Give the lines of a standard input that can't be read."""
    return f"error: the answers can't be read from standard input: {cause}\ndrive fault 2 Link\n"


def last_line(ended):
    """Give the status, the frames, and the last line of standard error."""
    return ended.status, ended.sent, ended.told.rstrip("\n").rpartition("\n")[2]


def goes_on(desk, wanted=ABSENT_JOURNAL):
    """Run the absent unit's orders once more, with nothing in the way: they come to their right end."""
    ended = desk.give(SILENCE)
    assert ended.status == 0 and ended.told.endswith(KEPT_SILENT), ended
    want((desk.held(), new_of(desk).exists()), (wanted, False))


def as_nobody(desk):
    """Run the program without the rights of root, from a copy that anybody may run."""
    if os.geteuid() != 0:
        return desk.give(SILENCE)
    desk.folder.chmod(0o755)
    desk.orders.chmod(0o644)
    desk.program = shutil.copy(desk.program, desk.folder)
    ended = desk.give(SILENCE, user=NOBODY, group=NOBODY, extra_groups=[])
    desk.program = settings["program"]
    return ended


def fill(path):
    """Fill up the file system that a file is on."""
    with open(path, "wb", buffering=0) as filler:
        try:
            while filler.write(bytes(1024)):
                pass
        except OSError:
            pass
