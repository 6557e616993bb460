"""Scenes of orders over units, reports, and streams of orders: for the tests of `drive`, and of `verify` after it."""

import errno
import json
import os
import select
import threading
import time

import driven
from base import settings, want
from drive_desk import GTIN, desk_of
from driven import NAMES, PATIENCE, Desk, Ended, Following, groups_of, judge, kept_lines, records_of, simulated_link

BLANK = simulated_link.BLANK_BANK_1
YEAR_ORDER = {"order": 1, "unit": 5, "year": 24}
READY = "ready\n"
UNTOLD = "error: the report can't be written: {}: {}\n"
NOTHING = "error: nothing was done: ORDERS has no orders\n"


class Scene:
    """Orders, the units that they go to, what is lost, and the codes that the orders end with where nothing is killed.

    Kills come at each frame, or at one in `step` frames, spread evenly.
    """

    def __init__(self, orders, units, codes, step=1, **losses):
        self.orders, self.units, self.codes, self.step, self.losses = orders, units, codes, step, losses

    def bus(self):
        """Make a bus with its units as they stand at the start."""
        units = [simulated_link.Unit(at, bank, fixed) for at, bank, fixed in self.units]
        return simulated_link.Bus(units, **self.losses)

    def banks(self):
        """Give bank 1 of each unit at the start."""
        return {at: bank for at, bank, _ in self.units}


def bank_of(length, **changes):
    """Give a blank bank of this many locations, with changes as x12=0x04."""
    bank = bytearray(simulated_link.BLANK_BANK_1[:length])
    bank[0] = length - 1
    for location, byte in changes.items():
        bank[int(location[1:], 16)] = byte
    return bytes(bank)


LOSSY = Scene(
    [{"order": 1, "unit": 5, "gtin": GTIN}, {"order": 2, "unit": 6, "luminaire": "Panel 600x600"},
     {"order": 2 ** 64 - 1, "unit": 9, "gtin": GTIN}, {"order": 0, "unit": 6, "year": 24, "week": 53}],
    [(5, BLANK, ()), (6, bank_of(0x3C), ())], {1: 0, 2: 1, 2 ** 64 - 1: 3, 0: 0},
    lost_frames={4, 30, 31, 77, 100, 125, 160}, lost_answers={19, 60, 99, 118, 150}, refused={45})
DOUBTFUL = Scene(
    [{"order": 11, "unit": 5, "gtin": GTIN}, {"order": 12, "unit": 6, "year": 24},
     {"order": 13, "unit": 5, "year": 24, "cri": 80}],
    [(5, BLANK, (5,)), (6, bank_of(0x78, x12=0x04), ())], {11: 4, 12: 2, 13: 0}, lost_answers={14, 90})
LEFT = Scene(
    [{"order": 21, "unit": 5, "gtin": GTIN}, {"order": 22, "unit": 6, "year": 24}],
    [(5, BLANK, ()), (6, BLANK, ())], {21: 5, 22: 0}, lost_frames=set(range(40, 130)))
ALL_FIELDS = Scene(
    driven.json.loads((driven.ROOT / "examples" / "full.json").read_text()), [(5, BLANK, ())], {1: 0}, step=31,
    lost_frames={40, 300, 900}, lost_answers={19, 500, 1300})
# Unit 5 loses its power before and after a read for order 31, while order 32 is carried out at unit 6, and once it is
# unlocked for order 33; unit 6 loses it while order 31 is carried out.
POWERLESS = Scene(
    [{"order": 31, "unit": 5, "gtin": GTIN}, {"order": 32, "unit": 6, "year": 24},
     {"order": 33, "unit": 5, "week": 53}],
    [(5, BLANK, ()), (6, BLANK, ())], {31: 0, 32: 0, 33: 4},
    lost_power={(5, 3), (5, 11), (5, 150), (5, 208), (6, 20)})
SCENES = {"lossy": LOSSY, "doubtful": DOUBTFUL, "left": LEFT, "powerless": POWERLESS, "all fields": ALL_FIELDS}
# In these the codes depend on when the program is killed.
CHANGED_BY_KILLS = ("left", "powerless")


def finish(desk, scene, bus, codes=None):
    """Run the program to its end, judge what it leaves, and see that a further run does nothing."""
    ended = desk.over(bus)
    data = desk.held()
    want(ended.status, 0)
    want(records_of(data)[1], len(data))
    judge(bus, scene.banks(), data)
    lines = kept_lines(data)
    assert set(lines) <= set(ended.told.splitlines()), (lines, ended.told)
    want([int(line.split()[1]) for line in lines], [order["order"] for order in scene.orders])
    if codes is not None:
        want({group.number: group.code for group in groups_of(data)}, codes)
    want(desk.over(bus), Ended(0, b"", desk.ready + "".join(line + "\n" for line in lines)))
    want(desk.held(), data)
    return ended


def whole_run(folder, scene):
    """Run a scene with no kill; give the desk, its bus, and how the run ended."""
    desk, bus = desk_of(folder, scene.orders), scene.bus()
    return desk, bus, finish(desk, scene, bus, scene.codes)


def many_orders(*numbers):
    """Give the records of orders with these numbers that a unit didn't answer."""
    behind = bytes(8) + bytes.fromhex("09 01 1318 4503")
    return b"".join(b"B" + number.to_bytes(8, "big") + behind for number in numbers)


FULL_ORDER = ALL_FIELDS.orders[0]


def short_desk(folder, orders, journal=None):
    """Make a desk that drives by the short plan."""
    desk = desk_of(folder, orders, journal)
    desk.options = ["--short-plan"]
    return desk


class At:
    """The alterations of a bus at one frame, counted from 1: these bits of it, and those of its answer."""

    def __init__(self, number, frame=0, answer=0):
        self.left, self.frame, self.answer = number, frame, answer

    def masks(self):
        """Give the bits that are turned in the next frame, and those in its answer."""
        self.left -= 1
        return (0, 0) if self.left else (self.frame, self.answer)


class Verifying(Desk):
    """The same folder, and runs of `verify` on its orders."""

    def words(self):
        """Give the command line."""
        return [self.program, "verify", *self.options, self.orders]


def reporting(desk, *options):
    """Have a desk's runs report, and give the path of the report."""
    path = desk.folder / "report"
    desk.options = ["--report", path, *options]
    return path


def text_of(*values):
    """Give the lines of these values, in their shortest form with their keys by rising name."""
    return "".join(json.dumps(value, sort_keys=True, separators=(",", ":")) + "\n" for value in values)


def lines_of(path, run=1):
    """Give the values of a run in a report, whose lines are in their form, without the number of the run."""
    text = path.read_text()
    values = [json.loads(line) for line in text.splitlines()]
    want(text, text_of(*values))
    return [{key: value[key] for key in value if key != "run"} for value in values if value["run"] == run]


def cause(was, location, byte=None):
    """Give why an order came to no good end."""
    return {"byte": byte, "location": location, "was": was}


def kept(number, unit, code, ended, frames, misses, moment=0):
    """Give the line of an order that has ended, done or at a unit that never answered."""
    unread = cause("unread", 0x00) if (code, ended) == (3, "now") else None
    return {"cause": unread, "code": code, "ended": ended, "frames": frames, "misses": misses, "moment": moment,
            "name": NAMES[code], "order": number, "reply": f"kept {code} {NAMES[code]}", "unit": unit}


def unkept(number, unit, reply, frames=0, misses=0, moment=None):
    """Give the line of an order that got another reply."""
    return {"cause": None, "code": None, "ended": None, "frames": frames, "misses": misses, "moment": moment,
            "name": None, "order": number, "reply": reply, "unit": unit}


def blank_bus(*addresses, **losses):
    """Give a bus of blank units."""
    return simulated_link.Bus([simulated_link.Unit(at, BLANK) for at in addresses], **losses)


def following(folder, orders, journal=None):
    """Make a folder's stream of orders, and its journal of these bytes, or none."""
    desk = Following(settings["program"], folder, orders)
    desk.journal.unlink(missing_ok=True)
    if journal is not None:
        desk.journal.write_bytes(journal)
    return desk


def piped(folder, journal=None):
    """Make a folder whose stream is a named pipe."""
    desk = following(folder, "", journal)
    desk.orders.unlink()
    os.mkfifo(desk.orders)
    return desk


def writer_of(path):
    """Open a named pipe to write to it, once somebody reads it."""
    last = time.monotonic() + PATIENCE
    while True:
        try:
            pipe = os.open(path, os.O_WRONLY | os.O_NONBLOCK)
            os.set_blocking(pipe, True)
            return pipe
        except OSError as error:
            if error.errno != errno.ENXIO or time.monotonic() > last:
                raise
            time.sleep(0.001)


class Live:
    """A run on a named pipe, with its frames answered over a bus beside it."""

    def __init__(self, desk, bus):
        self.command, self.sent, self.untold = desk.start(), b"", b""
        self.answering = threading.Thread(target=self.answer, args=(bus,), daemon=True)
        self.answering.start()
        self.pipe = writer_of(desk.orders)
        want(self.told(1), READY)

    def answer(self, bus):
        """Answer each frame until there are no more."""

        def read_line():
            line = driven.line_from(self.command.stdout)
            self.sent += line
            return line

        simulated_link.answer_lines(bus, read_line, self.command.stdin.write)

    def told(self, count):
        """Give the next `count` lines of standard error."""
        while self.untold.count(b"\n") < count:
            assert select.select([self.command.stderr], [], [], PATIENCE)[0], f"nothing comes behind {self.untold!r}"
            piece = os.read(self.command.stderr.fileno(), 4096)
            assert piece, f"nothing more is told: {self.untold!r}"
            self.untold += piece
        lines = self.untold.splitlines(keepends=True)
        self.untold = b"".join(lines[count:])
        return b"".join(lines[:count]).decode()

    def end(self):
        """Let the writer of the pipe go, and tell how the run ended, and what it told since."""
        os.close(self.pipe)
        status = self.command.wait(PATIENCE)
        self.answering.join(PATIENCE)
        return Ended(status, self.sent, (self.untold + self.command.stderr.read()).decode())
