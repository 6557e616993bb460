"""Which luminaire an order is for, as its fields say: the GTIN and the identification number, spelled in one way.

The identification number has a column of its own, by which it is searched for.
"""

from __future__ import annotations

import json
from typing import Optional

from .database import Database

LENGTH_OF_GTIN = 14
# So many orders a statement, each with three values: an older SQLite takes at most 999.
FILLED = 300


def identity(fields: str) -> list[tuple[str, str]]:
    """Give what the fields of an order say of which luminaire it is for, spelled so that the same has the same text."""
    try:
        found = json.loads(fields)
    except ValueError:
        found = None
    if not isinstance(found, dict):
        return []  # another program has put it into the store: `check` refuses it before it is sent
    return [(key, "unknown" if found[key] is None else str(found[key]).upper().zfill(length))
            for key, length in (("gtin", LENGTH_OF_GTIN), ("identification", 0)) if key in found]


def identification_of(fields: str) -> Optional[str]:
    """Give the identification number that the fields of an order say, by which it is searched for; None for none."""
    return dict(identity(fields)).get("identification")


def fill_identifications(database: Database, first: int = 0) -> None:
    """Give each order from a number on the identification number that its fields say, within a transaction.

    No statement that both databases take gets it out of the text, which may be no JSON.
    """
    while rows := database.rows("select number, fields from bench_orders where number >= ? and fields like ?"
                                " order by number limit ?", first, '%"identification"%', FILLED):
        found = [(number, text) for number, fields in rows if (text := identification_of(fields)) is not None]
        if found:
            cases, places = " ".join(["when ? then ?"] * len(found)), ", ".join("?" * len(found))
            database.change(f"update bench_orders set identification = case number {cases} end where number in"
                            f" ({places})", *(it for pair in found for it in pair), *(number for number, _ in found))
        first = rows[-1][0] + 1
