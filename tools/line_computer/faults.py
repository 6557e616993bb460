"""Why a command doesn't end with status 0, and how text is made plain for a terminal."""

from __future__ import annotations

import re


class Refused(Exception):
    """Something is refused by name. The lines are what `dali_bench check` prints of it, if it was asked."""

    status = 1

    def __init__(self, why: str, lines: tuple = ()):
        """Take the words, and these lines."""
        super().__init__(why)
        self.lines = lines


class Failed(Exception):
    """A file, the store, a program or the output fails."""

    status = 2


def plain(text: str) -> str:
    """Give a text with no character that could spoil a terminal or a line."""
    return re.sub("[^ -~]", lambda found: f"\\u{{{ord(found[0]):x}}}", text)


def why(fault: Exception) -> str:
    """Give the words of what went wrong; of what the system refused the file, where it is about one, and its word."""
    if not isinstance(fault, OSError):
        return str(fault)
    return ": ".join(str(it) for it in (fault.filename, fault.strerror) if it) or str(fault)
