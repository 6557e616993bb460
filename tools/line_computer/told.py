"""The lines of adapter and drive: replies, the report, faults, and words for a person."""

from __future__ import annotations

import json
import re
from typing import NamedTuple, Optional, Union

# The ends of an order, by their codes.
CODES = ("Done", "Short", "Format", "Silent", "Doubt", "DoubtOpen")
ITEM = re.compile(r"item [0-9]+ (?:order ([0-9]+) )?fault ([0-9]+) [A-Za-z]+")
TAKEN = re.compile("reply ([0-9]+) taken")
LAST = re.compile("kept [0-5] [A-Za-z]+|reused|full|blocked [0-9]+")
REPLY = re.compile(f"reply ([0-9]+) (?:{LAST.pattern})")
# The faults of an item that say nothing of the order, but of the line or of the memory that there was for it.
FAULTS_OF_A_LINE = ("11", "12", "13", "20")
REUSED = "the journal has its number for another order, and nothing was done: add it again"
KINDS = {"code": (int, type(None)), "ended": (str, type(None)), "frames": int, "misses": int,
         "moment": (int, type(None)), "order": int, "reply": str}


class Ready(NamedTuple):
    """A drive stands, and takes what comes."""


class Taken(NamedTuple):
    """The order is begun."""

    number: int


class Replied(NamedTuple):
    """The last reply to the order, of which a line of the report comes next."""

    number: int


class Reported(NamedTuple):
    """A line of the report: the last reply to an order, with all that has to be known of it."""

    number: int
    reply: str
    code: Optional[int]
    moment: Optional[int]  # of the submission that began it
    frames: int
    misses: int
    line: str
    is_now: bool = False  # whether this drive kept the order's end

    def words(self) -> str:
        """Tell a person what it means, of a reply that is no end."""
        what, _, unit = self.reply.partition(" ")
        if what == "blocked":
            return (f"order {self.number} waits: unit {unit} was left open and is silent; put it back, or any unit at"
                    f" address {unit}")
        if what == "reused":
            return f"order {self.number} reused: {REUSED}"
        return f"order {self.number} {self.reply}"


class Unaccepted(NamedTuple):
    """The drive refused the line: of this order, or of none where the line is only to be sent again."""

    number: Optional[int]
    line: str


class Trouble(NamedTuple):
    """Anything else: a fault, or words for a person."""

    line: str


Told = Union[Ready, Taken, Replied, Reported, Unaccepted, Trouble]


def told_by(line: str) -> Optional[Told]:
    """Read a line; give None for one that says nothing by itself."""
    if line == "ready":
        return Ready()
    if taken := TAKEN.fullmatch(line):
        return Taken(int(taken[1]))
    if replied := REPLY.fullmatch(line):
        return Replied(int(replied[1]))
    if item := ITEM.fullmatch(line):
        is_of_order = item[1] and item[2] not in FAULTS_OF_A_LINE
        return Unaccepted(int(item[1]) if is_of_order else None, line)
    if line.startswith("{"):
        return reported(line)
    return Trouble(line) if line.strip() else None


def reported(line: str) -> Optional[Told]:
    """Read a line of the report. That of a drive which breaks off says no more than its fault does."""
    try:
        found = json.loads(line)
    except ValueError:
        return Trouble(line)
    if "answer" in found:
        return None
    if not all(isinstance(found.get(key), kind) for key, kind in KINDS.items()) or not LAST.fullmatch(found["reply"]):
        return Trouble(line)
    return Reported(found["order"], found["reply"], found["code"], found["moment"], found["frames"], found["misses"],
                    line, found.get("ended") == "now")
