"""The readers of arguments of the command line. A wrong one is refused with the words of the fault."""

from __future__ import annotations

import argparse
import re
import shlex
from typing import Callable

from .faults import Refused
from .schema import MOST_NUMBER


def place_of(option: str, text: str, example: str) -> tuple[str, int]:
    """Read the host and the port of an option."""
    host, _, port = text.rpartition(":")
    if not host or not re.fullmatch("[0-9]{1,5}", port) or int(port) > 65535:
        raise Refused(f"{option} takes HOST:PORT, as {example}, and not {text}")
    return host.strip("[]"), int(port)


def number_of(text: str) -> int:
    """Read a number of an order."""
    if not re.fullmatch("[0-9]{1,16}", text) or int(text) > MOST_NUMBER:
        raise argparse.ArgumentTypeError(f"{text!r} is no whole number up to {MOST_NUMBER}")
    return int(text)


def words_of(text: str) -> list[str]:
    """Read a command and its words, as a shell parts them."""
    words = shlex.split(text)
    if not words:
        raise ValueError("there is no command in it")
    return words


def seconds_of(text: str) -> float:
    """Read a number of seconds."""
    if not re.fullmatch(r"[0-9]{1,6}(\.[0-9]+)?", text):
        raise argparse.ArgumentTypeError(f"{text!r} is no number of seconds")
    return float(text)


def read_by(read: Callable) -> Callable:
    """Give what reads an argument, and tells a wrong one."""

    def made(text: str):
        try:
            return read(text)
        except ValueError as fault:
            raise argparse.ArgumentTypeError(str(fault)) from fault

    return made
