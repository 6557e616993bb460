"""How each bus stands, in words for a person: by its lock, by what its process said, and by when its drive spoke."""

from __future__ import annotations

from typing import NamedTuple, Optional

from .database import Database
from .moments import moment
from .orders import now

# Seconds: a process that said nothing for so long hangs, though it has its lock.
HANGING = 60
# The time of an order's frame with its answer, and the shortest time that an order is given.
FRAME, SHORTEST = 0.04, 2.5


class Bus(NamedTuple):
    """A bus, with what its process said last."""

    bus: str
    number: int
    is_locked: bool  # its process is there
    state: str
    order: Optional[int]  # at work
    frames: Optional[int]  # of it that were answered
    expected: Optional[int]  # frames of it where nothing is lost
    trouble: Optional[str]
    since: Optional[int]  # the trouble
    seen: int  # when the process said this
    spoke: Optional[int]  # when the drive last spoke, or was last spoken to

    def words(self) -> str:
        """Tell in words how it stands."""
        if not self.is_locked or self.state == "stopped":
            return self._words_without_process()
        if now() - self.seen > HANGING:
            return f"no word since {moment(self.seen)}, though its process is there: start that anew"
        if self.trouble is not None:
            return f"in trouble since {moment(self.since)}: {self.trouble}"
        if self.is_silent():
            return f"the drive says nothing since {moment(self.spoke)}, amid order {self.order}: look at the interface"
        if self.order is None:
            return self.state
        return f"at work on order {self.order}" + (
            "" if self.frames is None else f", {self.frames} of {self.expected or '?'} frames")

    def _words_without_process(self) -> str:
        """Tell how a bus stands that has no process."""
        if self.state == "stopped" and self.trouble is not None:
            return f"stopped, in trouble since {moment(self.since)}: {self.trouble}"
        ending = "" if self.state == "stopped" or self.is_locked else ": its process was killed, or has lost the store"
        return f"not running since {moment(self.seen)}{ending}" if self.seen else "not running"

    def is_silent(self) -> bool:
        """Tell whether the drive hasn't spoken for twice the time of its order, as far as that is known."""
        if None in (self.order, self.frames, self.spoke):
            return False
        return now() - self.spoke > 2 * max(SHORTEST, FRAME * (self.expected or 0))

    def is_well(self) -> bool:
        """Tell whether nothing is wrong with it, as far as is known. One that was ended is well."""
        if not self.is_locked or self.state == "stopped":
            return self.state == "stopped" and self.trouble is None
        return self.trouble is None and not self.is_silent() and now() - self.seen <= HANGING

    def is_at_work(self) -> bool:
        """Tell whether it is known how far it is with an order."""
        return self.is_locked and self.is_well() and None not in (self.order, self.frames) and bool(self.expected)


def buses(database: Database) -> list[Bus]:
    """Give all buses."""
    rows = database.rows(
        "select bench_buses.bus, bench_buses.number, bench_states.state, bench_states.number, bench_states.frames,"
        " expected, trouble, since, seen, spoke from bench_states"
        " join bench_buses on bench_buses.bus = bench_states.bus left join bench_orders"
        " on bench_orders.number = bench_states.number order by bench_buses.number")
    locked = database.locked({row[0]: row[1] for row in rows})
    return [Bus(bus, number, bus in locked, *rest) for bus, number, *rest in rows]
