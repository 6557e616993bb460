"""Labels: one for each order that was carried out and done for this store.

A label is taken by itself, once it is out: a kill, a reader that goes and a printer that jams cost none.
"""

from __future__ import annotations

import csv
import io
import json
import pathlib
from typing import Callable, NamedTuple, Optional

from .database import Database
from .faults import Refused
from .orders import now

LABELS = """
select label.number, bus, unit, coalesce(reference, repeated_reference), fields, ended, printed
from bench_labels label join bench_orders on bench_orders.number = label.number
"""
ALL = f"{LABELS} where bus = coalesce(?, bus) order by label.number"
LEFT = f"{LABELS} where taken is null and bus = coalesce(?, bus) order by label.number"
ONE = f"{LABELS} where label.number = ?"
# The columns of a table of labels: what stands in each, and the fields as they lie in the memory bank.
TABLE = pathlib.Path(__file__).resolve().parent.parent / "fields.json"
FIELDS = tuple(field["key"] for field in json.loads(TABLE.read_text(encoding="utf-8")))
COLUMNS = ("order", "bus", "unit", "reference", "ended", "printed", *FIELDS)


class Label(NamedTuple):
    """A label, and how often it was printed before."""

    number: int
    bus: str
    unit: int
    reference: Optional[str]
    fields: str
    ended: int
    printed: int

    def members(self) -> dict:
        """Give all that is on it."""
        known = {"order": self.number, "bus": self.bus, "unit": self.unit, **json.loads(self.fields),
                 "ended": self.ended}
        more = {"reference": self.reference, "printed": self.printed or None}
        return {**known, **{name: value for name, value in more.items() if value is not None}}

    def line(self) -> str:
        """Spell it as a line of JSON."""
        return json.dumps(self.members())

    def row(self) -> str:
        """Spell it as a row of a table, in which a field that is to be unknown is `null`."""
        members = {"printed": 0, **self.members()}
        return row_of("null" if members.get(name, "") is None else members.get(name, "") for name in COLUMNS)


def row_of(cells) -> str:
    """Spell a row of a table (CSV)."""
    text = io.StringIO()
    csv.writer(text, lineterminator="\n").writerow(cells)
    return text.getvalue()[:-1]


def lined(label: Label) -> str:
    """Spell a label as a line of JSON, with its end."""
    return f"{label.line()}\n"


def label_of(database: Database, number: int) -> Label:
    """Give the label of an order that has one."""
    return Label(*database.rows(ONE, number)[0])


def left(database: Database, bus: Optional[str] = None) -> list[Label]:
    """Give the labels that nobody has taken: all, or those of a bus."""
    return [Label(*row) for row in database.rows(LEFT, bus)]


def all_of(database: Database, bus: Optional[str] = None) -> list[Label]:
    """Give all labels, or those of a bus."""
    return [Label(*row) for row in database.rows(ALL, bus)]


def take(database: Database, found: list[Label], put: Callable[[Label], None]) -> None:
    """Put out labels, each once, of which none was taken; each is taken once `put` has ended well.

    A taker locks a label before: two who take at once get each once. After a kill between its being out and its being
    taken it comes again, with the same number.
    """
    for label in found:
        take_one(database, label, put)


def take_one(database: Database, label: Label, put: Callable[[Label], None]) -> None:
    """Put out a label, where nobody has taken it or is just taking it."""
    with database.holding_label(label.number) as is_held:
        if is_held and database.rows("select 1 from bench_labels where number = ? and taken is null", label.number):
            put(label)
            database.change("update bench_labels set taken = ?, printed = printed + 1 where number = ?", now(),
                            label.number)


def again(database: Database, found: list[Label], put: Callable[[Label], None]) -> None:
    """Put out labels again, which were taken before, and count that."""
    for label in found:
        with database.holding_label(label.number) as is_held:
            if not is_held:
                raise Refused(f"the label of order {label.number} is just being printed")
            put(label)
            database.change("update bench_labels set printed = printed + 1 where number = ?", label.number)


def wanted(database: Database, numbers: list[int], is_again: bool) -> list[Label]:
    """Give the labels of these orders. All have to be there, and to have been taken before, or none of them."""
    return [one(database, number, is_again) for number in dict.fromkeys(numbers)]


def one(database: Database, number: int, is_again: bool) -> Label:
    """Give the label of an order."""
    found = database.rows(ONE, number)
    if not found:
        states = database.rows("select state, told from bench_orders where number = ?", number)
        raise Refused(f"order {number} has no label: it stands {states[0][1] or states[0][0]}" if states else
                      f"there is no order {number}")
    label = Label(*found[0])
    if is_again and not label.printed:
        raise Refused(f"the label of order {number} wasn't taken yet: `labels --take` prints it")
    if label.printed and not is_again:
        raise Refused(f"the label of order {number} was taken: `labels --again {number}` prints it once more")
    return label
