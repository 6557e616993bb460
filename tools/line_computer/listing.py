"""Lists of orders: which of them, as lines for a person, or as a table (CSV) for another program or a spreadsheet."""

from __future__ import annotations

import csv
import io
import json
import re
from typing import NamedTuple, Optional, Union

from .database import Database
from .faults import plain
from .labels import FIELDS
from .moments import moment
from .orders import now
from .schema import STATES
from .told import CODES

# The number that an order has where it comes from; that of a repeat is the number of what it repeats.
REFERENCE = "coalesce(reference, repeated_reference)"
STORED = ("number", "bus", "reference", "repeats", "unit", "state", "code", "told", "plan", "added", "sent", "ended",
          "sends", "frames", "misses", "fields")
COLUMNS = ("order", "bus", "reference", "repeats", "unit", "state", "end", "told", "plan", "added", "sent", "ended",
           "sends", "frames", "misses", *FIELDS)
MOMENTS = ("added", "sent", "ended")
# How a text begins that a spreadsheet takes for a formula, or that has an apostrophe before it already.
FORMULA = re.compile("[=+@\t\r'-]")


class Chosen(NamedTuple):
    """Which orders are listed: those of which all of this is so that isn't None or empty."""

    bus: Optional[str] = None
    reference: Optional[str] = None
    state: Optional[str] = None
    ends: tuple = ()  # codes and states, of which one is the order's
    since: Optional[int] = None
    until: Optional[int] = None

    def where(self) -> tuple[str, list]:
        """Give the condition of a query, and its values. An order without an end counts as ending now."""
        parts = {"bus = ?": self.bus, f"{REFERENCE} = ?": self.reference, "state = ?": self.state,
                 f"coalesce(ended, {now()}) >= ?": self.since, f"coalesce(ended, {now()}) < ?": self.until}
        chosen = {part: value for part, value in parts.items() if value is not None}
        ends = " or ".join("code = ?" if isinstance(end, int) else "state = ?" for end in self.ends)
        conditions = [*chosen, *([f"({ends})"] if ends else [])]
        return f"where {' and '.join(conditions)}" if conditions else "", [*chosen.values(), *self.ends]


def end_of(text: str) -> Union[int, str]:
    """Read an end: its code, its name, or a state."""
    names = {**{name.lower(): code for code, name in enumerate(CODES)},
             **{str(code): code for code in range(len(CODES))}, **{state: state for state in STATES}}
    if text.lower() not in names:
        raise ValueError(f"{text!r} is no end, as {', '.join(CODES)} or 0 to {len(CODES) - 1}, and no state")
    return names[text.lower()]


def lines(database: Database, chosen: Chosen) -> list[str]:
    """Give a line for each of these orders."""
    where, values = chosen.where()
    rows = database.rows(f"select number, bus, unit, state, told, {REFERENCE}, repeats from bench_orders {where}"
                         " order by number", *values)
    return [f"order {number} bus {bus} unit {unit} {state}" + (f": {told}" if told else "") + named(reference, repeats)
            for number, bus, unit, state, told, reference, repeats in rows]


def named(reference: Optional[str], repeats: Optional[int]) -> str:
    """Tell which number an order had before, and which it repeats."""
    words = [f"was {plain(reference)}" if reference else "", f"repeats {repeats}" if repeats else ""]
    return f" ({', '.join(filter(None, words))})" if any(words) else ""


def table(database: Database, chosen: Chosen) -> str:
    """Give a table of these orders, as RFC 4180 has it."""
    where, values = chosen.where()
    stored = ", ".join(f"{REFERENCE} as reference" if name == "reference" else name for name in STORED)
    text = io.StringIO()
    writer = csv.writer(text, lineterminator="\r\n")
    writer.writerow(COLUMNS)
    for row in database.rows(f"select {stored} from bench_orders {where} order by number", *values):
        writer.writerow(cells_of(dict(zip(STORED, row))))
    return text.getvalue()


def cells_of(row: dict) -> list:
    """Give the cells of an order."""
    code = row["code"]
    known = {**row, "order": row["number"], "end": "" if code is None else CODES[code],
             **{name: moment(row[name]) for name in MOMENTS}}
    fields = {name: "null" if value is None else value for name, value in fields_of(row["fields"]).items()}
    return [cell(fields.get(name) if name in FIELDS else known[name]) for name in COLUMNS]


def fields_of(text: str) -> dict:
    """Give the fields of an order. One that is no object of JSON, of another program, has none."""
    try:
        found = json.loads(text)
    except ValueError:
        found = None
    return found if isinstance(found, dict) else {}


def cell(value) -> object:
    """Give a cell; before a text that a spreadsheet would take for a formula stands an apostrophe."""
    return f"'{value}" if isinstance(value, str) and FORMULA.match(value) else value
