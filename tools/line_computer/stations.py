"""The store's part for stations: which luminaire each scan was for, and what a station shows."""

from __future__ import annotations

from typing import NamedTuple, Optional

from . import orders
from .database import Database
from .faults import Refused
from .luminaire import SAME
from .orders import Order, now
from .schema import LIVE, OF_NO_SCAN
from .template import Wanted

GONE = "gone"  # found of an order whose luminaire a person has given up
# An order that was done, and whose luminaire is to be verified.
WRITTEN = "state = 'ended' and code = 0 and told = 'kept 0 Done' and found is null"
SCANS = "bench_scans join bench_orders on bench_orders.number = bench_scans.number"
NOT_TAKEN = "The scan wasn't taken: the station was at work. Scan again once it asks for it."
TAKEN = "taken"


class AtHand(NamedTuple):
    """The order of a scan whose luminaire has to stay: it isn't ended, or it is done and not verified."""

    order: Order
    key: str
    name: str

    def is_written(self) -> bool:
        """Tell whether it was carried out, and only its luminaire is to be verified."""
        return self.order.state == "ended"


def at_hand(database: Database, bus: str) -> Optional[AtHand]:
    """Give the order of a bus's station whose luminaire has to stay."""
    found = database.rows(f"select bench_orders.number, unit, fields, state, sent, key, name from {SCANS} where bus = ?"
                          f" and ({LIVE} or {WRITTEN}) order by bench_orders.number limit 1", bus)
    return AtHand(Order(*found[0][:5]), *found[0][5:]) if found else None


def others(database: Database, bus: str) -> list[int]:
    """Give the orders of a bus that have no end and stand for no scan."""
    return [number for number, in database.rows(
        f"select number from bench_orders where bus = ? and {LIVE} and {OF_NO_SCAN} order by number", bus)]


def want_unused(database: Database, wanted: Wanted, is_again: bool) -> None:
    """Refuse a scan whose luminaire has its label already, or is at work; `again` takes the first of these."""
    found = database.rows(
        f"select bench_orders.number, bus, {LIVE} or {WRITTEN}, bench_labels.number is not null from {SCANS} left join"
        " bench_labels on bench_labels.number = bench_orders.number where key = ? and latest = 1", wanted.key)
    for number, bus, is_at_work, has_label in found:
        if is_at_work:
            raise Refused(f"{wanted.name} is at work already: order {number} on the bus {bus}")
        if has_label and not is_again:
            raise Refused(f"{wanted.name} has its label already, by order {number}")


def add(database: Database, bus: str, wanted: Wanted, is_again: bool) -> int:
    """Add the order of a scan, if that may be used; give its number."""

    def note(given: list) -> None:
        """Keep which scan the order is for, in the same transaction: of two stations one has the scan."""
        want_unused(database, wanted, is_again)
        database.change("update bench_scans set latest = 0 where key = ? and latest = 1", wanted.key)
        database.change("insert into bench_scans (number, key, name) values (?, ?, ?)", given[0][0], wanted.key,
                        wanted.name)

    return orders.add(database, bus, [wanted.item], also=note)[0][0]


def labelled(database: Database, keys: list[str]) -> Optional[tuple[int, str]]:
    """Give the order by which a luminaire of one of these keys got a label, and its name."""
    for key in keys:
        found = database.rows("select number, name from bench_scans where key = ? and number in (select number from"
                              " bench_labels) order by number desc limit 1", key)
        if found:
            return found[0]
    return None


def settle(database: Database, number: int, found: str) -> None:
    """Keep what was found of the luminaire of an order that was done; its label is made if it is the same."""
    with database.transaction():
        is_first = database.change("update bench_scans set found = ? where number = ? and found is null", found, number)
        if is_first and found == SAME:
            database.change("insert into bench_labels (number, made) values (?, ?)", number, now())


def unprinted(database: Database, bus: str) -> list[tuple[int, str]]:
    """Give the orders of a bus's station whose labels nobody has taken, and the names of their luminaires."""
    return database.rows("select bench_labels.number, name from bench_labels join bench_scans on bench_scans.number ="
                         " bench_labels.number join bench_orders on bench_orders.number = bench_labels.number where"
                         " bus = ? and taken is null order by bench_labels.number", bus)


# The words that a station shows


class Shown(NamedTuple):
    """The words that a station shows: one, what it means and what to do, and when work should be over."""

    word: str
    lines: tuple
    until: Optional[int] = None

    def left(self) -> Optional[int]:
        """Give the seconds that work still takes."""
        return None if self.until is None else max(0, self.until - now())


def show(database: Database, bus: str, shown: Shown, waits: bool) -> None:
    """Have the store know what a station shows, and whether it waits for a scan. One of the page is dropped by it."""
    database.change(
        "insert into bench_stations (bus, word, lines, until, waits, seen) values (?, ?, ?, ?, ?, ?) on conflict (bus)"
        " do update set word = excluded.word, lines = excluded.lines, until = excluded.until, waits = excluded.waits,"
        " seen = excluded.seen, answer = case when bench_stations.scan is null then bench_stations.answer else ? end,"
        " scan = null", bus, shown.word, "\n".join(shown.lines), shown.until, int(waits), now(), NOT_TAKEN)


def say(database: Database, bus: str) -> None:
    """Keep that the station is there."""
    database.change("update bench_stations set seen = ? where bus = ?", now(), bus)


def standing(database: Database, bus: str) -> Optional[tuple[Shown, bool, int]]:
    """Give what a station shows, whether it waits for a scan, and when it was seen."""
    found = database.rows("select word, lines, until, waits, seen from bench_stations where bus = ?", bus)
    if not found:
        return None
    word, lines, until, waits, seen = found[0]
    return Shown(word, tuple(lines.split("\n")), until), bool(waits), seen


def take_posted(database: Database, bus: str) -> Optional[str]:
    """Take the scan that the page has for a station, which waits for one."""
    found = database.rows("select scan from bench_stations where bus = ? and scan is not null", bus)
    if not found or not database.change("update bench_stations set scan = null, waits = 0, answer = ? where bus = ?"
                                        " and scan is not null", TAKEN, bus):
        return None
    return found[0][0]


def post(database: Database, bus: str, scan: str) -> bool:
    """Have a scan of the page for a station, if it waits for one; tell whether it does."""
    return bool(database.change("update bench_stations set scan = ?, answer = null where bus = ? and waits = 1 and scan"
                                " is null", scan, bus))


def answer(database: Database, bus: str) -> Optional[str]:
    """Give what became of the scan of the page: `taken`, or why it isn't."""
    return database.rows("select answer from bench_stations where bus = ?", bus)[0][0]


def withdraw(database: Database, bus: str) -> bool:
    """Withdraw the scan of the page; tell whether nobody has taken it."""
    return bool(database.change("update bench_stations set scan = null where bus = ? and scan is not null", bus))
