"""The reads and changes of a bus's process in the store. Each call is one transaction."""

from __future__ import annotations

from dataclasses import dataclass
from typing import Optional

from .database import Database
from .identities import identification_of
from .orders import Order, now
from .schema import LIVE, OF_NO_SCAN, SENT
from .told import REUSED, Ready, Reported, Told, Unaccepted


# The plans of a drive.
CHECKED, SHORT = "checked", "short"
# The place that the journal in use gets among those of its bus, once it is retired.
PLACE = "1 + (select count(*) from bench_journals where bus = ?)"


@dataclass
class BusState:
    """The state of a bus, by its process."""

    state: str = "starting"  # or ready, waiting, stopped
    number: Optional[int] = None  # of the order at work
    frames: Optional[int] = None  # how many frames of it were answered
    trouble: Optional[str] = None
    since: Optional[int] = None
    spoke: Optional[int] = None  # when the drive last spoke, or was last spoken to

    def is_in(self, trouble: str) -> None:
        """Have the bus in trouble: since now, or as long as it is."""
        self.trouble, self.since = trouble, self.since or now()

    def is_well(self) -> None:
        """Have the bus out of trouble."""
        self.trouble = self.since = None


class Work:
    """The orders of one bus, as its process has them."""

    def __init__(self, database: Database, bus: str, plan: str = CHECKED):
        """Take the store, the bus, whose lock the process has, and the plan of its drive."""
        self.database, self.bus, self.plan = database, bus, plan

    def next_order(self) -> Optional[Order]:
        """Give the first order that has no end yet, without those of a station."""
        found = self.database.rows("select number, unit, fields, state, sent from bench_orders"
                                   f" where bus = ? and {LIVE} and {OF_NO_SCAN} order by number limit 1", self.bus)
        return Order(*found[0]) if found else None

    def order(self, number: int) -> Optional[Order]:
        """Give this order, if it has no end yet."""
        found = self.database.rows("select number, unit, fields, state, sent from bench_orders where number = ? and"
                                   f" {LIVE}", number)
        return Order(*found[0]) if found else None

    def send(self, order: Order, expected: Optional[int] = None) -> Optional[Order]:
        """Keep that an order is about to be sent, before its line is written; None where it was cancelled just now.

        The moment of its first time is that of its submission for good: it distinguishes an end from that of an order
        which a journal knew before. Its plan is that of the first drive, until another one has kept its end; `expected`
        frames are due of it, if that is known anew.
        """
        with self.database.transaction():
            is_sent = self.database.change(
                "update bench_orders set state = case state when 'added' then 'sent' else state end, sends = sends + 1,"
                " sent = coalesce(sent, ?), plan = coalesce(plan, ?), expected = coalesce(?, expected),"
                f" identification = coalesce(identification, ?) where number = ? and {LIVE}", now(), self.plan,
                expected, identification_of(order.fields), order.number)
            moment = self.database.rows("select sent from bench_orders where number = ?", order.number)[0][0]
        return order._replace(state="sent", sent=moment) if is_sent else None

    def refuse(self, number: int, why: str) -> None:
        """Keep that an order was refused: by `check` before it was sent, or by the drive."""
        with self.database.transaction():
            self._refuse(number, why)

    def _refuse(self, number: int, why: str) -> None:
        """Refuse an order, within a transaction."""
        self.database.change("update bench_orders set state = 'refused', told = ?, ended = ?"
                             f" where number = ? and bus = ? and {LIVE}", why, now(), number, self.bus)

    def keep(self, told: list[Told], state: BusState) -> None:
        """Keep all these lines, and then the state of the bus."""
        with self.database.transaction():
            for it in told:
                if isinstance(it, Reported):
                    self._keep_reply(it)
                elif isinstance(it, Unaccepted) and it.number is not None:
                    self._refuse(it.number, it.line)
                elif isinstance(it, Ready):
                    self.database.change("update bench_buses set has_journal = 1 where bus = ?", self.bus)
            self._say(state)

    def keep_begun(self, number: int) -> None:
        """Keep that the journal has an order, on the disk."""
        self.database.change(f"update bench_orders set state = 'taken', place = {PLACE} where number = ? and bus = ?"
                             f" and {SENT}", self.bus, number, self.bus)

    def _keep_reply(self, it: Reported) -> None:
        """Keep the last reply to an order that was sent; one that wasn't is none of this store's."""
        found = self.database.rows(f"select sent, plan from bench_orders where number = ? and bus = ? and {SENT}",
                                   it.number, self.bus)
        if not found:
            return
        what = it.reply.split()[0]
        if what in ("blocked", "full"):
            self.database.change("update bench_orders set state = ?, told = ? where number = ?", what, it.reply,
                                 it.number)
            return
        sent, plan = found[0]
        is_known = it.code is not None and it.moment != sent
        plan = None if is_known else self.plan if it.is_now else plan
        words = REUSED if it.code is None else f"{it.reply}, known before" if is_known else it.reply
        self.database.change(
            "update bench_orders set state = ?, code = ?, told = ?, ended = ?, report = ?, frames = ?, misses = ?,"
            f" plan = ?, place = {PLACE} where number = ?", "reused" if it.code is None else "ended", it.code,
            words, now(), it.line, it.frames, it.misses, plan, self.bus, it.number)
        if it.code == 0 and not is_known and not self._is_of_station(it.number):
            self.database.change("insert into bench_labels (number, made) values (?, ?)", it.number, now())

    def _is_of_station(self, number: int) -> bool:
        """Tell whether an order stands for a scan: then its label is made once its luminaire is verified."""
        return bool(self.database.rows("select 1 from bench_scans where number = ?", number))

    def say(self, state: BusState) -> None:
        """Keep what the bus says of itself."""
        with self.database.transaction():
            self._say(state)

    def _say(self, state: BusState) -> None:
        """Keep what the bus says of itself, within a transaction."""
        self.database.change("update bench_states set state = ?, number = ?, frames = ?, trouble = ?, since = ?,"
                             " spoke = ?, seen = ? where bus = ?", state.state, state.number, state.frames,
                             state.trouble, state.since, state.spoke, now(), self.bus)

    def is_asked_to_retire(self) -> bool:
        """Tell whether the journal is asked to be retired."""
        return bool(self.database.rows("select 1 from bench_buses where bus = ? and retire = 1", self.bus))

    def waited_for(self) -> Optional[str]:
        """Tell what the retiring of the journal waits for, if an order is at work."""
        order = self.next_order()
        if order is None or order.state == "added":
            return None
        told = self.database.rows("select told from bench_orders where number = ?", order.number)[0][0]
        unit = (told or "").partition("blocked ")[2]
        return f"waits for order {order.number}" + (f", blocked by unit {unit}" if unit else "")

    def refuse_retire(self, words: str) -> None:
        """Keep why the journal isn't retired, for whoever asked."""
        self.database.change("update bench_buses set retire = 0, answer = ? where bus = ?", words, self.bus)
