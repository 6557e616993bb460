"""The questions to dali_bench: whether orders are accepted, how a journal stands, and which numbers it has."""

from __future__ import annotations

import json
import os
import re
import subprocess
from typing import NamedTuple

from .faults import Failed, Refused, why

ACCEPTED = re.compile("item ([0-9]+) order [0-9]+ unit ([0-9]+) bytes ([0-9]+)")
FAULT = re.compile("(item [0-9]+ )?fault .*")
COUNTS = re.compile("counts ([0-9]+) of ([0-9]+) orders ([0-9]+) standing (.*)")
FREE = re.compile("free ([0-9]+|none)")
BEGUN = re.compile("^B order ([0-9]+) ", re.MULTILINE)
# The words of `check --journal` on an order, and those of an order that was never begun.
SAID = re.compile("^(known .*|new|full)$", re.MULTILINE)
NOT_BEGUN = ("new", "full")
# From this location on an order needs the content format too; a unit is write-enabled by this one, next to which the
# first field is; by the short plan this many neighbours at most are read back as one row.
BEHIND_FORMAT, LOCK, ROW = 0x13, 0x02, 16


class Accepted(NamedTuple):
    """An order that `check` accepts: its unit, and how many frames it takes by each plan where nothing is lost."""

    unit: int
    frames: int
    short_frames: int


def accepted(unit: int, locations: list[int]) -> Accepted:
    """Count the frames of an order that writes these locations, by the rules of docs/SESSIONS.md."""
    count, has_format, read = len(locations), max(locations) >= BEHIND_FORMAT, sorted({LOCK, *locations})
    starts = [at for at, location in enumerate(read) if at == 0 or read[at - 1] != location - 1]
    rows = sum(-(-(end - start) // ROW) for start, end in zip(starts, [*starts[1:], len(read)]))
    return Accepted(unit, 14 * count + (42 if has_format else 28),
                    4 * count + 6 * rows + len(starts) + (26 if has_format else 18))


class Program:
    """The program dali_bench."""

    def __init__(self, path: str):
        """Take where it stands."""
        self.path = os.path.abspath(path)

    def ask(self, *words: str, given: bytes = b"") -> subprocess.CompletedProcess:
        """Run a command of it, and give what it printed, where it ended with status 0 or 1."""
        try:
            ended = subprocess.run([self.path, *words], input=given, capture_output=True, check=False)
        except OSError as fault:
            raise Failed(f"dali_bench can't be started: {why(fault)}") from fault
        ended.stdout, ended.stderr = (it.decode("utf-8", "replace") for it in (ended.stdout, ended.stderr))
        if ended.returncode not in (0, 1) or not ended.stdout:
            last = (ended.stderr or ended.stdout).strip().splitlines()[-1:]
            raise Failed(f"dali_bench {words[0]} ended with status {ended.returncode}: {''.join(last)}")
        return ended

    def check(self, orders: list[dict]) -> list[Accepted]:
        """Give what `check` says of orders where it accepts each; where it refuses one, it is `Refused`."""
        return self.check_text(json.dumps(orders).encode("ascii"), len(orders))

    def check_text(self, text: bytes, count: int) -> list[Accepted]:
        """The same of a file's text."""
        ended = self.ask("check", "-", given=text)
        lines = ended.stdout.splitlines()
        if ended.returncode:
            faults = tuple(line for line in lines if FAULT.fullmatch(line))
            raise Refused(ended.stderr.strip() or "; ".join(faults), faults)
        given, at = [], 0
        while found := ACCEPTED.fullmatch(lines[at]):
            end = at + 1 + int(found[3])
            given.append(accepted(int(found[2]), [int(line.split()[0], 16) for line in lines[at + 1:end]]))
            at = end
        if len(given) != count:
            raise Failed(f"dali_bench check told of {len(given)} orders, and there are {count}")
        return given

    def standing(self, journal: str) -> tuple[str, bool]:
        """Give how a journal stands, and whether all of its bytes count."""
        ended = self.ask("journal", journal)
        counts = COUNTS.fullmatch((ended.stdout.splitlines() or [""])[-1])
        if ended.returncode or not counts:
            raise Refused(f"the journal can't be read: {(ended.stdout + ended.stderr).strip().splitlines()[-1]}")
        return counts[4], counts[1] == counts[2]

    def begun(self, journal: str) -> set[int]:
        """Give the numbers of all orders that a journal has."""
        ended = self.ask("journal", journal)
        if ended.returncode:
            raise Refused(f"the journal can't be read: {(ended.stdout + ended.stderr).strip().splitlines()[-1]}")
        return set(map(int, BEGUN.findall(ended.stdout)))

    def said_of(self, journals: list[str], order: dict) -> str:
        """Give what these journals say of an order, as `new` or `known begun`; what they say is on the disk then."""
        if not journals:
            return NOT_BEGUN[0]
        ended = self.beside(journals, json.dumps([order]).encode("ascii"))
        found = SAID.search(ended.stdout)
        if ended.returncode or not found:
            raise Refused(f"the journals can't be read: {(ended.stderr or ended.stdout).strip()}")
        return found[1]

    def beside(self, journals: list[str], orders: bytes) -> subprocess.CompletedProcess:
        """Check orders beside these journals."""
        older = [word for journal in journals[1:] for word in ("--older", journal)]
        return self.ask("check", "--journal", journals[0], *older, "-", given=orders)

    def free(self, journals: list[str]) -> int:
        """Give the first number above all that these journals have."""
        ended = self.beside(journals, b"[]")
        last = (ended.stdout.splitlines() or [""])[-1]
        found = FREE.fullmatch(last)
        if ended.returncode or not found:
            raise Refused(f"the journals can't be read: {(ended.stderr or last).strip()}")
        return 2**64 if found[1] == "none" else int(found[1])
