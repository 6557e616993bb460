"""Orders that came to no good end, added anew: each is repeated once, by an order that may be repeated in its turn."""

from __future__ import annotations

from typing import NamedTuple, Optional

from . import orders
from .database import Database
from .faults import Refused
from .identities import fill_identifications
from .orders import Luminaires, Order, now
from .program import Program
from .schema import LIVE, OF_NO_SCAN

COLUMNS = (*orders.COLUMNS, "repeats", "repeated_reference")
TRIED = f"""
select number, unit, fields, state, sent, bus, coalesce(reference, repeated_reference), gtin, code, told, {LIVE},
    {OF_NO_SCAN}
from bench_orders
"""


class Tried(NamedTuple):
    """An order, and how it stands."""

    order: Order
    bus: str
    reference: Optional[str]
    gtin: Optional[str]
    code: Optional[int]
    told: Optional[str]
    is_live: bool
    is_of_no_scan: bool

    def want_repeatable(self, repeat: Optional[Tried]) -> None:
        """Refuse one that hasn't ended, is done, since a second label would come of it, or whose repeat has ended."""
        number = self.order.number
        if not self.is_of_no_scan:
            raise Refused(f"order {number} stands for a scan of a station: scan its luminaire again there")
        if self.is_live:
            raise Refused(f"order {number} hasn't ended, so it isn't repeated: wait for its end, or cancel it")
        if self.code == 0:
            raise Refused(f"order {number} is done, so it isn't repeated: if its label tore, `labels --again {number}`"
                          " prints it once more; for a luminaire without a label add an order of its own")
        if repeat and not repeat.is_live:
            next_one = "" if repeat.code == 0 else f": `again {repeat.order.number}` repeats that one"
            raise Refused(f"order {number} was repeated by order {repeat.order.number}, which has ended:"
                          f" {repeat.told or repeat.order.state}{next_one}")

    def row(self, number: int, expected: int) -> tuple:
        """Give the row of the order of this number that repeats it."""
        return (number, self.bus, None, self.order.unit, self.order.fields, self.gtin, expected, "added", now(),
                self.order.number, self.reference)


def found(database: Database, condition: str, number: int) -> Optional[Tried]:
    """Give the order with this number, or the one that repeats it, if it is there."""
    rows = database.rows(f"{TRIED} where {condition} = ?", number)
    return Tried(Order(*rows[0][:5]), *rows[0][5:]) if rows else None


def tried(database: Database, number: int) -> Tried:
    """Give an order that has to be there."""
    order = found(database, "number", number)
    if not order:
        raise Refused(f"there is no order {number}")
    return order


def again(database: Database, numbers: list[int], program: Program, is_same_luminaire: bool) -> list[tuple]:
    """Add these orders anew, all or none; give for each its number, that of its repeat, and whether this is new.

    An order whose repeat hasn't ended isn't repeated once more, so that after a kill the command is given again.
    """
    numbers = list(dict.fromkeys(numbers))
    # `check` may take a while, and the contents of an order stay as they are: it isn't asked within the transaction.
    frames = [program.check([order.object()])[0].frames for order in (tried(database, it).order for it in numbers)]
    with database.transaction():
        first = orders.take_numbers(database, len(numbers))
        given, rows, luminaires = [], [], {}
        for number, expected, new in zip(numbers, frames, range(first, first + len(numbers))):
            order, repeat = tried(database, number), found(database, "repeats", number)
            order.want_repeatable(repeat)
            if repeat is None:
                if not is_same_luminaire:
                    want_same(database, luminaires, order)
                rows += order.row(new, expected)
            given.append((number, repeat.order.number if repeat else new, repeat is None))
        orders.insert(database, rows, COLUMNS)
        fill_identifications(database, first)
    return given


def want_same(database: Database, luminaires: dict[str, Luminaires], it: Tried) -> None:
    """Refuse an order that is for another luminaire than those that wait at its unit, as `add` does."""
    if it.bus not in luminaires:
        luminaires[it.bus] = Luminaires(database, it.bus)
    luminaires[it.bus].want_same(it.order.unit, it.order.fields, f"order {it.order.number}")
