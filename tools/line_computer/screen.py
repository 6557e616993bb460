"""The terminal of a station: what it shows, and the lines that a scanner types."""

from __future__ import annotations

import contextlib
import os
import re
import sys
import termios
import threading
from typing import Callable, Optional

from .faults import plain
from .outputs import write
from .stations import Shown

SCAN, WORK, PASS, FAIL, OFF = "SCAN", "WORK", "PASS", "FAIL", "OFF"
# The word's colours at a terminal, as the numbers that it has for them: black on blue, yellow, green, red.
COLOURS = {SCAN: 44, WORK: 43, PASS: 42, FAIL: 41}
CLEARED, BOLD, USUAL = "\033[2J\033[H", "\033[1m", "\033[0m"
PIECE = 4096


class Screen:
    """Shows a person what to do: large on a terminal, else a line for each thing."""

    def __init__(self):
        """See whether there is a terminal."""
        self.is_terminal, self.shown, self.notes = os.isatty(1), None, []
        self.lock, self.drawn = threading.Lock(), None

    def show(self, shown: Shown) -> None:
        """Show something else."""
        with self.lock:
            self.shown, self.notes, self.drawn = shown, [], None
            if not self.is_terminal:
                write([f"{shown.word}: {plain(' '.join(shown.lines))}"])
        self.draw()

    def note(self, words: str) -> None:
        """Tell something beside it."""
        with self.lock:
            if words in self.notes[-1:]:
                return
            self.notes = [*self.notes, words][-3:]
            if not self.is_terminal:
                write([plain(words)])
        self.draw()

    def draw(self) -> None:
        """Draw anew what has changed, as the time that is left."""
        with self.lock:
            if not self.is_terminal or self.shown is None:
                return
            lines = [*with_time(self.shown), "", *self.notes]
            if lines != self.drawn:
                self.drawn = lines
                word = f"\033[1;30;{COLOURS.get(self.shown.word, 47)}m{self.shown.word.center(24)}{USUAL}"
                write([f"{CLEARED}{word}", "", *(f"{BOLD}{plain(line)}{USUAL}" for line in lines)])


def with_time(shown: Shown) -> list[str]:
    """Give the lines of what is shown, with the time that is left."""
    left = shown.left()
    if left is None:
        return list(shown.lines)
    return [*shown.lines, f"{left} s left." if left else "It takes longer than it should."]


class Scanner:
    """Reads lines of standard input. One is taken only while it is waited for; any other is reported as not taken."""

    def __init__(self, refuse: Callable[[], None]):
        """Take what tells that a scan isn't taken."""
        self.refuse, self.condition, self.thread = refuse, threading.Condition(), None
        self.is_wanted, self.is_over, self.line = False, False, None

    def wait(self) -> None:
        """Begin to wait for a line. Input at a terminal from before the first time is dropped."""
        with self.condition:
            self.is_wanted, self.line = True, None
        if self.thread is None:
            with contextlib.suppress(termios.error, OSError):
                termios.tcflush(0, termios.TCIFLUSH)
            self.thread = threading.Thread(target=self._read, daemon=True)
            self.thread.start()

    def take(self, seconds: float) -> Optional[str]:
        """Give the line, if it comes in this many seconds."""
        with self.condition:
            self.condition.wait_for(lambda: self.line is not None or self.is_over, seconds)
            line, self.line = self.line, None
            return line

    def wait_no_more(self) -> None:
        """Take no line any more."""
        with self.condition:
            self.is_wanted, line = False, self.line
        if line is not None:
            self.refuse()

    def _read(self) -> None:
        """Read all lines, one by one."""
        rest = b""
        while piece := self._piece():
            *lines, rest = re.split(b"[\r\n]", rest + piece)
            rest = rest[-PIECE:]
            for line in lines:
                if line.strip():
                    self._have(line.decode("ascii", "replace"))
        with self.condition:
            self.is_over = True
            self.condition.notify()

    def _piece(self) -> bytes:
        """Read what has come; nothing once standard input has ended."""
        try:
            return os.read(0, PIECE) if sys.stdin else b""
        except OSError:
            return b""

    def _have(self, line: str) -> None:
        """Have a line taken, or tell that it isn't."""
        with self.condition:
            if self.is_wanted:
                self.is_wanted, self.line = False, line
                self.condition.notify()
                return
        self.refuse()
