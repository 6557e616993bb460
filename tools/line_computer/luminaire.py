"""The questions of a station to the luminaire at its seat, over the adapter, while no drive is at work on the bus."""

from __future__ import annotations

import contextlib
import json
import os
import pathlib
import re
import signal
import subprocess
import time
from typing import Callable, NamedTuple, Optional

from .faults import Failed, Refused, plain, why
from .link import JOURNAL, environment, has_bytes, with_parent
from .orders import Order
from .program import Program
from .template import key_of

VERIFIED = "line_computer.verify"  # the file in the folder of a bus that has the order which is verified
PATIENCE = 600  # seconds after which a command over the adapter is ended
STEP = 0.2  # seconds between two looks whether it goes on
THERE = re.compile("unit [0-9]+ last [0-9A-F]{2}(?: gtin (.*) identification (.*))?")
FOUND = re.compile("order [0-9]+ unit [0-9]+ (same|other [0-9A-F]{2} [0-9A-F]{2}|short|format|silent)")
GIVEN = re.compile("given 1 missing 0 shared 0")
SAME, SILENT = "same", "silent"
GTIN, IDENTIFICATION = re.compile("[0-9]{14}"), re.compile("[0-9A-F]{16}")


class Ended(NamedTuple):
    """How a command over the adapter ended: its status, and what it told."""

    status: int
    lines: list

    def words(self) -> str:
        """Tell a person what it told last, and how it ended."""
        return "; ".join(plain(line) for line in self.lines[-2:]) or f"it ended with status {self.status}"


class Luminaire:
    """The luminaire at a unit of a bus."""

    def __init__(self, folder: pathlib.Path, adapter: list[str], program: Program, goes_on: Callable[[], bool]):
        """Take how it is reached, and what is called while a command goes on; that tells whether it is to."""
        self.folder, self.adapter, self.program, self.goes_on = folder, adapter, program, goes_on

    def keys(self, unit: int) -> Optional[list[str]]:
        """Give what tells the luminaire at a unit from each other one, where its bank says that; None where none is."""
        ended = self._over("scan", "--gtin", str(unit))
        there = next(filter(None, map(THERE.fullmatch, ended.lines)), None)
        if there is None and "units 0" not in ended.lines:
            raise Failed(ended.words())
        if there is None:
            return None
        gtin, identification = (it or "" for it in there.groups())
        if not IDENTIFICATION.fullmatch(identification):
            return []
        return [key_of(it, identification) for it in ([gtin, None] if GTIN.fullmatch(gtin) else [None])]

    def address(self, unit: int) -> None:
        """Give the one luminaire that has no short address this one."""
        idle = ["--journal", str(self.folder / JOURNAL)] if has_bytes(self.folder / JOURNAL) else []
        ended = self._over("address", *idle, str(unit))
        if ended.status or not any(map(GIVEN.fullmatch, ended.lines)):
            raise Refused(ended.words())

    def verify(self, order: Order) -> str:
        """Compare the luminaire with an order; give what was found, as `same`."""
        path = self.folder / VERIFIED
        path.write_text(json.dumps([order.object()]), encoding="ascii")
        ended = self._over("verify", str(path))
        found = next(filter(None, map(FOUND.fullmatch, ended.lines)), None)
        if found is None or (found[1] == SAME) != (ended.status == 0):
            raise Failed(ended.words())
        return found[1]

    def _over(self, *words: str) -> Ended:
        """Run a command over the adapter. All of its processes have ended when this ends."""
        command = [*with_parent(), *self.adapter, "--", self.program.path, *words]
        try:
            process = subprocess.Popen(command, stdin=subprocess.DEVNULL, stdout=subprocess.DEVNULL,
                                       stderr=subprocess.PIPE, start_new_session=True, env=environment())
        except OSError as fault:
            raise Failed(f"the adapter can't be started: {why(fault)}") from fault
        last = time.monotonic() + PATIENCE
        try:
            while self.goes_on() and time.monotonic() < last:
                with contextlib.suppress(subprocess.TimeoutExpired):
                    told = process.communicate(timeout=STEP)[1]
                    return Ended(process.returncode, told.decode("ascii", "replace").splitlines())
            raise Failed(f"dali_bench {words[0]} was broken off")
        except BaseException:
            with contextlib.suppress(ProcessLookupError, PermissionError):
                os.killpg(process.pid, signal.SIGKILL)
            process.wait()
            process.stderr.close()
            raise
