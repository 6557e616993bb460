"""A terminal as the standard error of a command, and what it shows: for the tests of `--progress`."""

import fcntl
import os
import pty
import re
import struct
import termios
import threading

from driven import PATIENCE


class Screen:
    """The screen of a terminal of this many columns, and each line that was cleared away from it."""

    def __init__(self, columns):
        self.columns = columns
        self.rows = [""]
        self.column = 0
        self.wraps = True
        self.cleared = []

    def show(self, text):
        """Show a text as a terminal does; the line that is drawn has to be narrower than it."""
        for piece in re.findall(r"\x1b\[(?:K|\?7l|\?7h)|[\r\n -~]", text):
            self._do(piece)
        left = re.sub(r"\x1b\[(?:K|\?7l|\?7h)|[\r\n -~]", "", text)
        assert not left, f"a terminal was given {left!r}"

    def _do(self, piece):
        if piece == "\r":
            self.column = 0
        elif piece == "\n":
            self.rows.append("")
            self.column = 0
        elif piece == "\x1b[K":
            self.cleared += [self.rows[-1][self.column:]] if self.rows[-1][self.column:] else []
            self.rows[-1] = self.rows[-1][:self.column]
        elif piece in ("\x1b[?7l", "\x1b[?7h"):
            self.wraps = piece.endswith("h")
        else:
            row = self.rows[-1]
            self.rows[-1] = row[:self.column] + piece + row[self.column + 1:]
            self.column += 1
            assert self.wraps or self.column < self.columns, f"the line is too wide: {self.rows[-1]!r}"

    def lines(self):
        """Give the lines at the end."""
        assert self.wraps and self.rows[-1] == "", (self.wraps, self.rows[-1])
        return self.rows[:-1]


class Terminal:
    """A terminal as the standard error of a command: what is written to it is read at once."""

    def __init__(self, columns):
        self.columns = columns
        self.master, self.slave = pty.openpty()
        fcntl.ioctl(self.slave, termios.TIOCSWINSZ, struct.pack("HHHH", 24, columns, 0, 0))
        self.written = b""
        self.reader = threading.Thread(target=self._read)
        self.reader.start()

    def _read(self):
        # Behind the last byte of a slave that is closed a read fails.
        try:
            while piece := os.read(self.master, 4096):
                self.written += piece
        except OSError:
            pass

    def read(self):
        """Give all that was written, once the command has ended."""
        self.reader.join(PATIENCE)
        return self.written

    def close(self):
        """Let go of it."""
        os.close(self.master)


def at_terminal(desk, columns=80, told=True):
    """Have a desk's runs show their progress at a terminal, of which the environment tells the columns, or not."""
    start = desk.start
    desk.options = ["--progress", *desk.options]

    def started(environment=None, **options):
        terminal = Terminal(columns)
        environment = {**(environment or {}), "COLUMNS": str(columns) if told else ""}
        command = start(environment, stderr=terminal.slave, **options)
        os.close(terminal.slave)
        command.stderr = terminal
        return command

    desk.start = started
    return desk


def seen(desk, bus, columns=80, told=True):
    """Run a desk over a bus at a terminal; give its status, the lines that were drawn, and those at the end."""
    ended = at_terminal(desk, columns, told).over(bus)
    del desk.start
    desk.options.remove("--progress")
    screen = Screen(columns)
    screen.show(ended.told)
    return ended.status, screen.cleared, screen.lines()
