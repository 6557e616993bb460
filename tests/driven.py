"""Runs of `dali_bench drive` over pipes, and the judge of what they leave: for tests/test_drive.py and tests/fuzz.

The journal is read and judged here by docs/JOURNAL.md and docs/WRITER.md alone, with nothing of the program's own.
"""

import importlib.util
import json
import os
import pathlib
import re
import select
import subprocess
import sys
import time
from typing import NamedTuple

ROOT = pathlib.Path(__file__).resolve().parent.parent
# The fields of an order, by rising location, as `dali_bench fields` prints them.
FIELDS = json.loads((ROOT / "tools" / "fields.json").read_text(encoding="utf-8"))
HEADER = bytes.fromhex("44423102")
LOCK_BYTE = 0x02
SHUT = 0xFF
DONE, DOUBT_OPEN = 0, 5
UNTOUCHED = (1, 2, 3)
NAMES = ("Done", "Short", "Format", "Silent", "Doubt", "DoubtOpen")
PATIENCE = 20  # seconds after which a run counts as hanging
# The frames by which short addresses are given and random addresses searched: no command over orders sends any of them.
OF_ADDRESSES = re.compile(rb"(?:A[1579B]..|B[13579B]..|FF96|[0-7][13579BDF](?:91|C[234]))\n")


def load(path):
    """Import a script, and what stands beside it, without leaving compiled code there."""
    sys.dont_write_bytecode = True
    if str(path.parent) not in sys.path:
        sys.path.append(str(path.parent))
    spec = importlib.util.spec_from_file_location(path.stem, path)
    module = importlib.util.module_from_spec(spec)
    spec.loader.exec_module(module)
    return module


simulated_link = load(ROOT / "adapters" / "simulated_link.py")


class Ended(NamedTuple):
    """How a run ended: its status (minus the signal's number where one ended it), its frames' lines, what it told."""

    status: int
    sent: bytes
    told: str


class Desk:
    """A folder with a file of orders and a journal, and runs of the program on both."""

    # The line before the first order is taken.
    ready = ""

    def __init__(self, program, folder, orders):
        """Write the orders; a text stands as it is, all else as JSON."""
        self.program = program
        self.folder = pathlib.Path(folder)
        self.orders = self.folder / "orders.json"
        self.journal = self.folder / "bench.journal"
        self.options = []
        self.write_orders(orders)

    def write_orders(self, orders):
        """Replace the orders."""
        self.orders.write_text(orders if isinstance(orders, str) else json.dumps(orders))

    def words(self):
        """Give the command line."""
        return [self.program, "drive", *self.options, self.orders, self.journal]

    def start(self, environment=None, **options):
        """Start the program with pipes, which `options` of Popen may replace."""
        streams = {"stdin": subprocess.PIPE, "stdout": subprocess.PIPE, "stderr": subprocess.PIPE, "bufsize": 0}
        settings = {**os.environ, **environment} if environment else None
        return subprocess.Popen(self.words(), env=settings, **{**streams, **options})

    def give(self, answers, environment=None, timeout=PATIENCE, **options):
        """Run the program with all of its standard input given at once."""
        command = self.start(environment, **options)
        try:
            sent, told = command.communicate(answers, timeout)
        finally:
            command.kill()
        self.look_at(sent or b"")
        return Ended(command.returncode, sent, (told or b"").decode())

    def over(self, bus, stop=None, environment=None):
        """Run the program over a bus; a stop (k, moment) kills it at its frame k, once that is `sent` or `carried`."""
        command = self.start(environment)
        frames = []

        def read_line():
            line = line_from(command.stdout)
            if line:
                frames.append(line)
            if stop == (len(frames), "sent"):
                command.kill()
                return b""
            return line

        def write_line(line):
            if stop == (len(frames), "carried"):
                command.kill()
                raise BrokenPipeError
            command.stdin.write(line)

        try:
            simulated_link.answer_lines(bus, read_line, write_line)
        except BaseException:
            command.kill()
            raise
        finally:
            command.stdin.close()
            command.stdout.close()
            told = command.stderr.read().decode()
            command.stderr.close()
            status = command.wait()
        self.look_at(b"".join(frames))
        return Ended(status, b"".join(frames), told)

    def look_at(self, sent):
        """Raise if a frame of addresses was sent: a damaged answer to some of them is reported as a yes."""
        assert not OF_ADDRESSES.search(sent), OF_ADDRESSES.findall(sent)

    def held(self):
        """Give the journal's bytes."""
        return self.journal.read_bytes()


class Following(Desk):
    """A folder with a stream of orders and a journal, and runs of `drive --follow` on both."""

    ready = "ready\n"

    def words(self):
        """Give the command line."""
        return [self.program, "drive", "--follow", *self.options, self.orders, self.journal]

    def write_orders(self, orders):
        """Replace the stream: by these orders, a line for each, or by this text or these bytes."""
        if not isinstance(orders, (str, bytes)):
            orders = "".join(json.dumps(order) + "\n" for order in orders)
        self.orders.write_bytes(orders.encode() if isinstance(orders, str) else orders)


def wait_for(told, seconds=3 * PATIENCE):
    """Wait until something is so, and give it."""
    last = time.monotonic() + seconds
    while not (found := told()):
        assert time.monotonic() < last, f"it didn't come in {seconds} seconds"
        time.sleep(0.01)
    return found


def line_from(pipe):
    """Read one line of a frame, or what is left at the end."""
    line = b""
    while not line.endswith(b"\n"):
        if not select.select([pipe], [], [], PATIENCE)[0]:
            raise TimeoutError(f"neither a frame nor an end came in {PATIENCE} seconds")
        piece = os.read(pipe.fileno(), 64)
        if not piece:
            break
        line += piece
    assert line.count(b"\n") <= 1, f"a frame was sent before its answer was there: {line!r}"
    return line


class Group(NamedTuple):
    """The story of one order in a journal: when it came, how far it has come, and its code once it has ended."""

    number: int
    moment: int
    unit: int
    updates: list
    is_opened: bool
    code: int | None
    is_closed: bool

    def is_done(self):
        """Whether its bytes are in the bank."""
        return self.code == DONE

    def is_in_doubt(self):
        """Whether each of its locations may hold its old byte or the new one."""
        return self.is_opened and self.code != DONE

    def may_leave_enabled(self):
        """Whether its unit may be write-enabled after it."""
        return self.is_opened and (self.code is None or self.code == DOUBT_OPEN and not self.is_closed)


def version_of(data):
    """Give the version of a journal's bytes: 2 where there are none or they begin with the header, and else 1."""
    has_header = data.startswith(HEADER)
    assert has_header or data[:1] != HEADER[:1], f"the header is another, or cut: {data[:4].hex()}"
    return 2 if has_header or not data else 1


def began_length(data, at, version):
    """Give how long the Began at this place is, or None where its head is cut."""
    head = 19 if version == 2 else 11
    return head + 2 * data[at + head - 1] if at + head <= len(data) else None


def records_of(data):
    """Read the whole records of a journal's bytes, each as its kind and its body in version 2; give how many count."""
    version = version_of(data)
    at, records = len(HEADER) if data and version == 2 else 0, []
    while at < len(data):
        kind = chr(data[at])
        assert kind in "BOEC", f"at {at} stands no record: {data[at:at + 20].hex()}"
        length = began_length(data, at, version) if kind == "B" else 2
        if length is None or at + length > len(data):
            break
        body = data[at + 1:at + length]
        is_old = kind == "B" and version == 1
        records.append((kind, body[:8] + bytes(8) + body[8:] if is_old else body))
        at += length
    return records, at


def in_version_2(data):
    """Spell the whole records of a journal's bytes in version 2."""
    return HEADER + b"".join(kind.encode() + body for kind, body in records_of(data)[0])


def in_version_1(data):
    """Spell the whole records of a journal's bytes in version 1, which has no moments."""
    records = records_of(data)[0]
    return b"".join(kind.encode() + (body[:8] + body[16:] if kind == "B" else body) for kind, body in records)


def begun(body):
    """Read a Began's body as a group that has come no further, and test what an order may be."""
    number, moment = (int.from_bytes(body[at:at + 8], "big") for at in (0, 8))
    unit, count = body[16], body[17]
    updates = list(zip(body[18::2], body[19::2]))
    locations = [location for location, _ in updates]
    assert unit <= 63 and 1 <= count <= 115 and locations == sorted(set(locations)), body.hex()
    assert all(3 <= location <= 0x10 or 0x13 <= location <= 0x77 for location in locations), body.hex()
    return Group(number, moment, unit, updates, False, None, False)


def groups_of(data):
    """Read a journal's bytes as the groups of its orders; what is cut at the end doesn't count."""
    groups = []
    for kind, body in records_of(data)[0]:
        last = groups[-1] if groups else None
        if kind == "B":
            assert last is None or last.code is not None and not last.may_leave_enabled(), "it begins too early"
            groups.append(begun(body))
        elif kind == "O":
            assert last.code is None and not last.is_opened and body[0] == last.unit, "it opens wrongly"
            groups[-1] = last._replace(is_opened=True)
        elif kind == "E":
            is_fitting = body[0] <= 5 and last.is_opened == (body[0] not in UNTOUCHED)
            assert last.code is None and is_fitting, "it ends wrongly"
            groups[-1] = last._replace(code=body[0])
        else:
            assert last.code == DOUBT_OPEN and not last.is_closed and body[0] == last.unit, "it closes wrongly"
            groups[-1] = last._replace(is_closed=True)
    numbers = [group.number for group in groups]
    assert len(numbers) == len(set(numbers)), f"an order begins twice: {numbers}"
    return groups


def possible_bytes(bank, groups):
    """Give the set of bytes that each location of a unit may hold after the groups of its orders."""
    possible = [{byte} for byte in bank]
    for group in groups:
        for location, byte in group.updates:
            if group.is_done():
                possible[location] = {byte}
            elif group.is_in_doubt() and location < len(possible):
                possible[location] = possible[location] | {byte}
    return possible


def judge(bus, banks, data):
    """Raise unless each unit stands as the journal's bytes say; `banks` has bank 1 of each unit at the start."""
    groups = groups_of(data)
    for unit in bus.units:
        name = f"unit {unit.short_address}"
        its_own = [group for group in groups if group.unit == unit.short_address]
        possible = possible_bytes(banks[unit.short_address], its_own)
        for location, byte in enumerate(unit.banks[1]):
            is_free = location == LOCK_BYTE and any(group.is_opened for group in its_own)
            assert is_free or byte in possible[location], f"{name} holds {byte:02X} at {location:02X}"
        if its_own and its_own[-1].is_done():
            assert unit.banks[1][LOCK_BYTE] == SHUT, f"{name} is done and unlocked"
        assert unit.banks[2] == simulated_link.BANK_2, f"{name} has another bank 2"
        is_left = groups and groups[-1].unit == unit.short_address and groups[-1].may_leave_enabled()
        assert is_left or not unit.is_enabled, f"{name} is write-enabled"


def kept_lines(data):
    """Give the lines in which the ended orders of a journal are replied to once more, each with its code."""
    ended = [group for group in groups_of(data) if group.code is not None]
    return [f"reply {group.number} kept {group.code} {NAMES[group.code]}" for group in ended]
