"""Moments, as people spell them: by the computer's clock and its time zone, or the one that the variable TZ names."""

from __future__ import annotations

import datetime
import re
import time
from typing import Optional

SPELLED = re.compile("([0-9]{4})-([0-9]{2})-([0-9]{2})(?:[ T]([0-9]{2}):([0-9]{2})(?::([0-9]{2}))?)?")


def moment(seconds: Optional[int]) -> str:
    """Spell a moment."""
    return "" if seconds is None else time.strftime("%Y-%m-%d %H:%M:%S", time.localtime(seconds))


def read(text: str, is_end: bool) -> int:
    """Read a moment, or a date: its first moment, or, as the end of a time, the first one after it."""
    found = SPELLED.fullmatch(text)
    try:
        if not found:
            raise ValueError
        day = datetime.datetime(*(int(part or 0) for part in found.groups()))
        is_whole_day = is_end and found[4] is None
        return int((day + datetime.timedelta(days=is_whole_day)).timestamp())
    except (ValueError, OverflowError) as fault:
        raise ValueError(f"{text!r} is no date and no moment, as 2026-11-30 or '2026-11-30 14:00'") from fault
