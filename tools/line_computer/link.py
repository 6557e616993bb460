"""Adapter and drive of a bus, the pipe of their orders, and the pipe of all that they tell."""

from __future__ import annotations

import contextlib
import os
import pathlib
import select
import shutil
import signal
import subprocess
import time
from typing import Optional

from .database import STORE
from .faults import Failed, why

JOURNAL, ORDERS, TOLD = "bench.journal", "line_computer.orders", "line_computer.told"
PIECE = 65536
PATIENCE = 5  # seconds for a drive to end whose orders have ended, and for its last lines
# An answer's line: two characters and its line feed.
ANSWER = 3


class Link:
    """An adapter that has started a drive. It is a group of processes of its own, which ends as a whole.

    Both pipes are named, made anew for each link, and open as long as this process lives: after a kill of it nobody
    writes orders any more, and nobody reads the replies, so that the drive ends.
    """

    def __init__(self, folder: pathlib.Path, adapter: list[str], drive: list[str], older: list[str]):
        """Start both."""
        self.folder, self.rest, self.is_told = folder, b"", False
        self.drive = self.before = None
        try:
            self.orders, self.told, writer = self._make_pipes()
        except OSError as fault:
            raise Failed(why(fault)) from fault
        behind = [word for name in older for word in ("--older", str(folder / name))]
        # A journal that is there now is never made anew: over a new one its orders would act again.
        there = ["--require-journal"] if has_bytes(folder / JOURNAL) else []
        words = [*with_parent(), *adapter, "--", *drive, "--follow", *there, *behind, "--report", str(folder / TOLD),
                 str(folder / ORDERS), str(folder / JOURNAL)]
        try:
            self.adapter = subprocess.Popen(words, stdin=subprocess.DEVNULL, stdout=subprocess.DEVNULL, stderr=writer,
                                            start_new_session=True, env=environment())
        except OSError as fault:
            self._close()
            raise Failed(f"the adapter can't be started: {why(fault)}") from fault
        finally:
            os.close(writer)

    def _make_pipes(self) -> tuple[int, int, int]:
        """Make both pipes; give the orders' end to write to, and both ends of the replies."""
        for name in (ORDERS, TOLD):
            path = self.folder / name
            if path.is_fifo():
                # A process that waits at its other end, as a drive whose line computer was killed, is let go.
                os.close(os.open(path, os.O_RDWR | os.O_NONBLOCK))
                path.unlink()
            os.mkfifo(path, 0o600)
        # Open to read too, so that it can be opened before the drive reads.
        orders = os.open(self.folder / ORDERS, os.O_RDWR | os.O_NONBLOCK)
        told = os.open(self.folder / TOLD, os.O_RDONLY | os.O_NONBLOCK)
        return orders, told, os.open(self.folder / TOLD, os.O_WRONLY)

    def _close(self) -> None:
        """Close both pipes."""
        for pipe in (self.orders, self.told):
            with contextlib.suppress(OSError):
                os.close(pipe)

    def read(self, seconds: float) -> list[str]:
        """Wait this many seconds for a line; give the whole lines."""
        if not self.is_told and select.select([self.told], [], [], seconds)[0]:
            self._take()
        *whole, rest = self.rest.split(b"\n")
        self.rest = rest[-PIECE:]  # no line of ours is as long
        return [line.decode("ascii", "backslashreplace").rstrip("\r") for line in whole]

    def _take(self) -> None:
        """Take the lines so far, as much as the pipe holds, and note if all its writers are gone."""
        with contextlib.suppress(BlockingIOError):
            piece = os.read(self.told, PIECE)
            self.rest += piece
            self.is_told = not piece

    def write(self, line: bytes) -> bool:
        """Write the line of an order, in one write; tell whether it was taken."""
        self.drive = self.drive or self._find_drive()
        answered = self._bytes_read()
        self.before = None if answered is None else answered + len(line)
        try:
            return os.write(self.orders, line) == len(line)
        except BlockingIOError:
            return False

    def frames(self) -> Optional[int]:
        """Give how many frames were answered since the last line was written, where the system tells.

        Behind that line the drive reads nothing but answers until it has told its reply.
        """
        answered = self._bytes_read()
        return None if None in (answered, self.before) else max(0, answered - self.before) // ANSWER

    def is_over(self) -> bool:
        """Tell whether one of both has ended. A drive without an order doesn't notice that its adapter has gone."""
        if self.drive is not None and self._state_of_drive() in "ZX":
            with contextlib.suppress(subprocess.TimeoutExpired):
                self.adapter.wait(1)  # it may have more to say
            return True
        return self.is_told or self.adapter.poll() is not None

    def _state_of_drive(self) -> str:
        """Give the state of the drive's process, as the letter that the system has for it."""
        try:
            with open(f"/proc/{self.drive}/stat", encoding="utf-8", errors="replace") as file:
                return file.read().rpartition(")")[2].split()[0]
        except OSError:
            return "X"

    def _bytes_read(self) -> Optional[int]:
        """Give how many bytes the drive has read."""
        try:
            with open(f"/proc/{self.drive}/io", encoding="ascii") as file:
                return int(file.readline().split()[1])
        except OSError:
            return None

    def _find_drive(self) -> Optional[int]:
        """Find the process that has the pipe of the orders open, among those of the link."""
        for path in pathlib.Path("/proc").glob("[0-9]*"):
            with contextlib.suppress(OSError):
                if os.getsid(int(path.name)) == self.adapter.pid:
                    if any(os.path.samefile(it, self.folder / ORDERS) for it in path.glob("fd/*")):
                        return int(path.name)
        return None

    def finish(self) -> list[str]:
        """Let the orders end, and with them the drive and its adapter; give what they told last."""
        os.close(self.orders)
        self.orders = os.open(os.devnull, os.O_WRONLY)
        with contextlib.suppress(subprocess.TimeoutExpired):
            self.adapter.wait(PATIENCE)
        return self.end()

    def end(self) -> list[str]:
        """End all processes of the link at once, as a kill does; give what they told last."""
        with contextlib.suppress(ProcessLookupError, PermissionError):
            os.killpg(self.adapter.pid, signal.SIGKILL)
        self.adapter.wait()
        last, lines = time.monotonic() + PATIENCE, []
        while not self.is_told and time.monotonic() < last:
            lines += self.read(0.1)
        self._close()
        return lines


def has_bytes(path: pathlib.Path) -> bool:
    """Tell whether a file is there that isn't empty."""
    try:
        return path.stat().st_size > 0
    except FileNotFoundError:
        return False


def environment() -> dict:
    """Give the variables for adapter and drive: the store's name may have a password in it."""
    return {name: value for name, value in os.environ.items() if name != STORE}


def with_parent() -> list[str]:
    """Give the words in front of a command that have it end with this process, where the system has them."""
    if not shutil.which("setpriv"):
        return []
    # The shell ends at once where this process has ended before it could be followed.
    return ["setpriv", "--pdeathsig", "KILL", "--", "sh", "-c", '[ "$PPID" = "$0" ] && exec "$@"', str(os.getpid())]
