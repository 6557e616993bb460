"""The time that the page counts in: a shift, from one clock time to the next by local time, or the last 24 hours."""

from __future__ import annotations

import datetime
import re
import time
from typing import NamedTuple

from .faults import Refused
from .schema import QUARTER

HOUR, HOURS = 3600, 24
CLOCK = re.compile("([01][0-9]|2[0-3]):(00|15|30|45)")


class Span(NamedTuple):
    """A time, from a moment up to another one, both at quarters of an hour."""

    name: str
    start: int
    end: int

    def hours(self) -> int:
        """Tell in how many hours it lies; the last may be a part of one."""
        return -(-(self.end - self.start) // HOUR)


def clock(moment: int) -> str:
    """Give the clock's time of a moment."""
    return time.strftime("%H:%M", time.localtime(moment))


def clock_times(text: str) -> list[datetime.time]:
    """Read at which clock times shifts begin."""
    found = [CLOCK.fullmatch(it) for it in text.split(",")]
    if None in found or len({it[0] for it in found}) != len(found):
        raise Refused("--shift takes clock times, each once, at quarters of an hour, as 06:00,14:00,22:00, and not"
                      f" {text}")
    return sorted(datetime.time(int(it[1]), int(it[2])) for it in found)


def day(moment: int) -> Span:
    """Give the last 24 hours, of which the last is under way."""
    end = (moment // HOUR + 1) * HOUR
    return Span(f"the last {HOURS} hours", end - HOURS * HOUR, end)


def shift(times: list[datetime.time], moment: int, back: int = 0) -> Span:
    """Give the shift of a moment, or the one that is `back` shifts before it.

    By local time a shift may be longer or shorter than by its clock times, on a day on which the clock is put.
    """
    today = datetime.date.fromtimestamp(moment)
    starts = sorted({int(datetime.datetime.combine(today + datetime.timedelta(days), at).timestamp())
                     for days in range(-back - 2, 3) for at in times})
    at = max(number for number, start in enumerate(starts) if start <= moment) - back
    start, end = starts[at:at + 2]
    date = time.strftime("%Y-%m-%d", time.localtime(start))
    return Span(f"the shift {date} {clock(start)} to {clock(end)}", start, end)


def quarters(span: Span) -> tuple[int, int]:
    """Give the first quarter of an hour of a span, and the first after it, counted since 1970."""
    return span.start // QUARTER, span.end // QUARTER
