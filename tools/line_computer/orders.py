"""Orders: how they are added. Each has a number of the store's own, which is never used again."""

from __future__ import annotations

import json
import time
from typing import Callable, NamedTuple, Optional

from .database import Database
from .faults import Refused
from .identities import fill_identifications, identity
from .schema import LIVE, MOST_NUMBER

# So many rows a statement: an older SQLite takes at most 999 values.
ROWS = 90
COLUMNS = ("number", "bus", "reference", "unit", "fields", "gtin", "expected", "state", "added")


class Item(NamedTuple):
    """An order that is to be added, as `check` has accepted it."""

    reference: Optional[str]  # the number that it has where it comes from, if it has one
    unit: int
    fields: str
    gtin: Optional[str]  # its 14 digits
    expected: Optional[int]  # its frames where nothing is lost


class Order(NamedTuple):
    """An order of the store, as far as its bus has to know it."""

    number: int
    unit: int
    fields: str
    state: str
    sent: Optional[int]  # the moment of its submission, once it was sent

    def object(self) -> dict:
        """Give the order as dali_bench reads it. Another program may have put it into the store."""
        try:
            fields = json.loads(self.fields)
        except ValueError:
            fields = None
        if not isinstance(fields, dict):
            raise Refused("the fields are no object of JSON")
        return {**fields, "order": self.number, "unit": self.unit}

    def line(self) -> bytes:
        """Give its line for `drive --follow`."""
        submission = {"submit": self.object(), "moment": self.sent}
        return json.dumps(submission, separators=(",", ":")).encode("ascii") + b"\n"


def spelled(fields: dict) -> str:
    """Spell fields so that the same ones have the same text."""
    return json.dumps(fields, sort_keys=True, separators=(",", ":"))


def now() -> int:
    """Give the moment, in seconds of the computer's clock."""
    return int(time.time())


def add(database: Database, bus: str, items: list[Item], is_same_luminaire: bool = False,
        also: Optional[Callable[[list], None]] = None) -> list[tuple[int, bool]]:
    """Add all of these orders, or none; give the number of each, and whether it is new.

    One whose reference the bus knows with the same contents is that order, and isn't added again. `also` is called in
    the same transaction with the result.
    """
    with database.transaction():
        first = take_numbers(database, len(items))
        known = known_references(database, bus, [item.reference for item in items if item.reference])
        luminaires = None if is_same_luminaire else Luminaires(database, bus)
        given, rows = [], []
        for number, item in enumerate(items, first):
            before = known.get(item.reference)
            if before is None:
                if luminaires:
                    luminaires.want_same(item.unit, item.fields, f"item {len(given) + 1}")
                rows += (number, bus, item.reference, item.unit, item.fields, item.gtin, item.expected, "added", now())
            elif before[1:] != (item.unit, item.fields):
                raise Refused(f"item {len(given) + 1} order {item.reference}: the number of order {before[0]} of this"
                              " store, which is another one")
            given.append((before[0] if before else number, before is None))
            known.setdefault(item.reference, (number, item.unit, item.fields))
            known.pop(None, None)
        insert(database, rows)
        fill_identifications(database, first)
        if also:
            also(given)
    return given


def take_numbers(database: Database, count: int) -> int:
    """Take `count` numbers of the store, within a transaction; give the first.

    A command that adds waits here for another one that adds, and then sees what that has added.
    """
    database.change("update bench_store set following = following + ?", count)
    following, = database.rows("select following from bench_store")[0]
    if following > MOST_NUMBER:
        raise Refused(f"the numbers of this store are used up, at {MOST_NUMBER}")
    return following - count


class Luminaires:
    """The luminaire at each unit, by the orders that wait on a bus: its GTIN and its identification number.

    Two orders that say otherwise are for two luminaires, and at a unit there is one at a time.
    """

    def __init__(self, database: Database, bus: str):
        """Take what the store's orders of the bus say that haven't ended."""
        self.known: dict = {}  # by unit and key: the value, and the words for who says it
        for number, unit, fields in database.rows(f"select number, unit, fields from bench_orders where bus = ? and"
                                                  f" {LIVE} order by number", bus):
            for key, value in identity(fields):
                self.known.setdefault((unit, key), (value, f"order {number}, which waits for it"))

    def want_same(self, unit: int, fields: str, name: str) -> None:
        """Refuse an order of this name that says otherwise; else take what it says."""
        for key, value in identity(fields):
            before, who = self.known.setdefault((unit, key), (value, name))
            if before != value:
                raise Refused(f"{name}: unit {unit} would get {key} {value}, and {who}, {before}: where both are for"
                              " one luminaire, --same-luminaire says so; else add this once that one has ended and the"
                              " next luminaire is there")


def known_references(database: Database, bus: str, references: list[str]) -> dict:
    """Give the orders of a bus that have one of these references: number, unit and fields."""
    found = {}
    for at in range(0, len(references), ROWS):
        some = references[at:at + ROWS]
        places = ", ".join("?" * len(some))
        for reference, *rest in database.rows("select reference, number, unit, fields from bench_orders where bus = ?"
                                              f" and reference in ({places})", bus, *some):
            found[reference] = tuple(rest)
    return found


def insert(database: Database, values: list, columns: tuple = COLUMNS) -> None:
    """Insert rows of orders, whose values in these columns come one row after the other."""
    row = f"({', '.join('?' * len(columns))})"
    for at in range(0, len(values), ROWS * len(columns)):
        some = values[at:at + ROWS * len(columns)]
        rows = ", ".join([row] * (len(some) // len(columns)))
        database.change(f"insert into bench_orders ({', '.join(columns)}) values {rows}", *some)
