"""Where labels go: standard output, a command for each, or a printer's connection. Each tells when one is out."""

from __future__ import annotations

import contextlib
import fcntl
import os
import select
import socket
import stat
import struct
import subprocess
import termios
import time
from typing import Callable, Iterable

from .faults import Failed, why
from .labels import COLUMNS, Label, lined, row_of

POLL = 0.002  # seconds between two looks whether what was written was read
PATIENCE = 30  # seconds for a printer to take a label
INT = struct.Struct("i")


def write(lines: Iterable[str]) -> None:
    """Write lines to standard output, all of them before this returns."""
    write_text("".join(f"{line}\n" for line in lines))


def write_text(text: str) -> None:
    """Write a text to standard output, all of it before this returns."""
    remaining = memoryview(text.encode("utf-8", "replace"))
    try:
        while remaining:
            remaining = remaining[os.write(1, remaining):]
    except OSError as fault:
        raise unwritten(fault) from fault


def unwritten(fault: OSError) -> Failed:
    """Give why standard output takes nothing. A reader that has gone, as `head`, is no news."""
    return Failed("" if isinstance(fault, BrokenPipeError) else f"the output can't be written: {fault.strerror}")


def lines_of(labels: list[Label], is_csv: bool) -> list[str]:
    """Spell labels, as lines of JSON or as a table."""
    return [row_of(COLUMNS), *(label.row() for label in labels)] if is_csv else [label.line() for label in labels]


def to_output(is_csv: bool, spelled: Callable[[Label], str] = lined) -> Callable[[Label], None]:
    """Give what writes a label to standard output; it is out once its reader has it, or the disk."""
    head = [row_of(COLUMNS)] if is_csv else []

    def put(label: Label) -> None:
        if is_csv:
            write([*head, label.row()])
        else:
            write_text(spelled(label))
        head.clear()
        try:
            settle()
        except OSError as fault:
            raise unwritten(fault) from fault

    return put


def settle() -> None:
    """Wait until what was written to standard output is out: read, of a pipe; on the disk, of a file."""
    kind = os.fstat(1).st_mode
    if stat.S_ISREG(kind):
        os.fsync(1)
    if not stat.S_ISFIFO(kind):
        return
    reader = select.poll()
    reader.register(1, 0)  # tells nothing but that nobody reads any more
    while unread():
        if reader.poll(1000 * POLL) and unread():
            raise BrokenPipeError


def unread() -> int:
    """Give how many bytes stand in the pipe that standard output is."""
    return INT.unpack(fcntl.ioctl(1, termios.FIONREAD, INT.pack(0)))[0]


def to_command(words: list[str], spelled: Callable[[Label], str] = lined) -> Callable[[Label], None]:
    """Give what starts a command for a label, which has it as its standard input; it is out if that ends well."""

    def put(label: Label) -> None:
        try:
            status = subprocess.run(words, input=spelled(label).encode("utf-8", "replace"), check=False).returncode
        except OSError as fault:
            raise Failed(f"the command can't be started: {why(fault)}") from fault
        if status:
            raise Failed(f"the label of order {label.number} isn't taken: {words[0]} ended with status {status}")

    return put


def to_printer(host: str, port: int, spelled: Callable[[Label], str] = lined) -> Callable[[Label], None]:
    """Give what sends a label to a printer, over a connection of its own; it is out once the printer has taken it."""

    def put(label: Label) -> None:
        try:
            with contextlib.closing(socket.create_connection((host, port), PATIENCE)) as printer:
                printer.sendall(spelled(label).encode("utf-8", "replace"))
                printer.shutdown(socket.SHUT_WR)
                want_taken(printer)
        except OSError as fault:
            raise Failed(f"the label of order {label.number} isn't taken: the printer at {host}, port {port}:"
                         f" {fault.strerror or fault}") from fault

    return put


def want_taken(printer: socket.socket) -> None:
    """Wait until the other end has taken all that was sent; raise where it breaks off or doesn't in time."""
    last = time.monotonic() + PATIENCE
    while INT.unpack(fcntl.ioctl(printer, termios.TIOCOUTQ, INT.pack(0)))[0]:
        error = printer.getsockopt(socket.SOL_SOCKET, socket.SO_ERROR)
        if error:
            raise OSError(error, os.strerror(error))
        if time.monotonic() > last:
            raise OSError(f"it doesn't take it in {PATIENCE} seconds")
        time.sleep(POLL)
