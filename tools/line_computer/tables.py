"""The page's tables of orders: those that wait, aren't done or are found, and one order with its report."""

from __future__ import annotations

import json
import re
from html import escape
from typing import Optional

from .advice import advice
from .database import Database
from .identities import LENGTH_OF_GTIN
from .moments import moment
from .schema import MOST_NUMBER, NOT_DONE
from .spans import Span

SHOWN = 50
WAITING = 20
LENGTH_OF_SERIAL = 16
# The keys of a search, with the name that each has on the page.
SEARCHED = {"number": "Order", "reference": "Reference", "unit": "Unit", "gtin": "GTIN",
            "identification": "Serial number"}
# The columns of a table of orders, by what they are called: the store's, or a column's own.
NAMES = {"number": "Order", "reference": "Reference", "bus": "Bus", "unit": "Unit", "gtin": "GTIN",
         "identification": "Serial number", "end": "End", "advice": "What to do", "added": "Added", "sent": "Sent",
         "ended": "Ended", "frames": "Frames", "misses": "Misses", "sends": "Sends"}
# Those with numbers, and those that stay on one line.
NUMBERS = ("unit", "frames", "misses", "sends")
WHOLE = ("number", "reference", "gtin", "identification", "added", "sent", "ended")
WHOSE = ("number", "reference", "bus", "unit", "gtin", "identification")
COLUMNS = (*WHOSE, "state", "code", "told", "added", "sent", "ended", "frames", "expected", "misses", "sends")
STUCK = ("blocked", "full")
HOME = "more: docs/BENCH.md, What the last reply means"
REPORT = {"reply": "reply", "ended": "by", "moment": "begun", "frames": "frames", "misses": "misses"}


def table(names: dict[str, str], rows: list[tuple[bool, dict]], numbers: tuple = NUMBERS) -> str:
    """Show rows of cells by their columns, with whether each is in trouble. On a narrow screen a row is a card."""
    if not rows:
        return '<p class="soft">none</p>'
    classes = {**dict.fromkeys(numbers, "n"), **dict.fromkeys(WHOLE, "w"), "advice": "a"}
    kinds = {key: f' class="{classes[key]}"' if key in classes else "" for key in names}
    head = "".join(f"<th{kinds[key]}>{escape(name)}</th>" for key, name in names.items())
    body = "".join(
        f"<tr{' class=trouble' * is_in_trouble}>" + "".join(
            f'<td{kinds[key]} data-name="{escape(name)}">{cells.get(key) or ""}</td>' for key, name in names.items())
        + "</tr>" for is_in_trouble, cells in rows)
    return f'<div class="scroll"><table class="cards"><tr>{head}</tr>{body}</table></div>'


def orders_of(database: Database, rest: str, *values) -> list[dict]:
    """Give orders by the rest of a statement after the name of their table."""
    rows = database.rows(f"select {', '.join(COLUMNS)} from bench_orders {rest}", *values)
    return [dict(zip(COLUMNS, row)) for row in rows]


def is_in_trouble(order: dict) -> bool:
    """Tell whether an order isn't done, or is stuck."""
    return bool(order["code"]) or order["state"] in ("refused", "reused", *STUCK)


def row_of(order: dict) -> tuple[bool, dict]:
    """Give the row of an order, whatever columns a table has."""
    number, frames = order["number"], order["frames"]
    cells = {key: escape(str(order[key])) for key in COLUMNS if order[key] is not None}
    cells |= {key: moment(order[key]) for key in ("added", "sent", "ended")}
    cells["number"] = link_to(number)
    end = order["told"] if order["code"] is not None or order["state"] == "blocked" else order["state"]
    if order["state"] == "refused":
        end += f": {order['told']}"
    cells["end"] = f'<span class="end">{escape(end or "")}</span>'
    cells["advice"] = escape(advice(order["state"], order["code"], order["told"]))
    cells["frames"] = "" if frames is None else f"{frames} of {order['expected'] or '?'}"
    return is_in_trouble(order), cells


def link_to(number: int) -> str:
    """Lead to all that is known of an order."""
    return f'<a href="/?number={number}">{number}</a>'


def orders_table(rows: list[tuple[bool, dict]], *columns: str) -> str:
    """Show rows of orders with these columns."""
    return table({key: NAMES[key] for key in columns}, rows)


def waiting_part(database: Database, count: int) -> str:
    """Show the first of the `count` orders that wait."""
    first = orders_of(database, "where state = 'added' order by number limit ?", WAITING)
    more = f'<p class="soft">and {count - len(first)} more</p>' if count > len(first) else ""
    return f'<h2>Waiting orders</h2>{orders_table(list(map(row_of, first)), *WHOSE, "added")}{more}'


def not_done_part(database: Database, span: Span) -> str:
    """Show the orders that are stuck, and the last ones of a span that aren't done, with what is to be done."""
    places = ", ".join("?" * len(STUCK))
    stuck = orders_of(database, f"where state in ({places}) order by number limit ?", *STUCK, SHOWN)
    ended = orders_of(database, f"where {NOT_DONE} and ended >= ? and ended < ? order by ended desc, number desc"
                      " limit ?", span.start, span.end, SHOWN)
    more = f"the last {SHOWN}; " if len(ended) == SHOWN else ""
    rows = [settled_row(order, done_since(database, order)) for order in stuck + ended]
    found = orders_table(rows, *WHOSE, "end", "advice", "ended")
    return f'<h2>Not done in {escape(span.name)}</h2>{found}<p class="soft">{more}{HOME if rows else ""}</p>'


def done_since(database: Database, order: dict) -> Optional[int]:
    """Give the number of the order by which its luminaire was done later, where that has a serial number."""
    if order["identification"] is None:
        return None
    return database.rows("select min(number) from bench_orders where identification = ? and number > ? and code = 0",
                         order["identification"], order["number"])[0][0]


def settled_row(order: dict, since: Optional[int]) -> tuple[bool, dict]:
    """Give the row of an order that isn't done; there is nothing to do where its luminaire was done since."""
    is_left, cells = row_of(order)
    return (is_left, cells) if since is None else (False, {**cells, "advice": f"done since, as order {link_to(since)}"})


# Searches


def searched(query: dict) -> dict:
    """Give what is searched for by columns, as far as there may be such a thing."""
    found = {}
    for key in SEARCHED:
        text = query.get(key, "").strip()
        if key == "reference" and 0 < len(text) <= 64 and text.isprintable():
            found[key] = text
        elif key == "identification" and re.fullmatch("[0-9A-Fa-f]{1,16}", text):
            found[key] = text.upper().zfill(LENGTH_OF_SERIAL)
        elif key in ("number", "unit", "gtin") and re.fullmatch("[0-9]{1,16}", text) and int(text) <= MOST_NUMBER:
            found[key] = text.zfill(LENGTH_OF_GTIN) if key == "gtin" else int(text)
    return found


def is_search(query: dict) -> bool:
    """Tell whether something is searched for."""
    return any(query.get(key, "").strip() for key in SEARCHED)


def orders_part(database: Database, wanted: dict) -> str:
    """Show the last orders that were begun or ended, or the last of those that are searched for."""
    where = " and ".join(f"{key} = ?" for key in wanted) or "state <> 'added'"
    orders = orders_of(database, f"where {where} order by number desc limit ?", *wanted.values(), SHOWN)
    found = orders_table(list(map(row_of, orders)), *WHOSE, "end", "sent", "ended", "frames", "misses", "sends")
    return f"<h2>{'Orders found' if wanted else 'Last orders'}</h2>{found}"


def form_part(query: dict, kept: dict) -> str:
    """Show what may be searched for; what is kept goes along."""
    inputs = "".join(f'<label>{name}<input name="{key}" value="{escape(query.get(key, ""))}"></label>'
                     for key, name in SEARCHED.items())
    hidden = "".join(f'<input type="hidden" name="{escape(key)}" value="{escape(value)}">'
                     for key, value in kept.items())
    return f'<h2>Search</h2><form>{inputs}{hidden}<button>Search</button> <a href="/">all</a></form>'


# One order


def order_part(database: Database, number: int) -> str:
    """Show all that is known of one order."""
    found = orders_of(database, "where number = ?", number)
    if not found:
        return ""
    order, cells = found[0], row_of(found[0])[1]
    fields, report, plan, repeats, repeated = database.rows(
        "select fields, report, plan, repeats, repeated_reference from bench_orders where number = ?", number)[0]
    labels = database.rows("select taken, printed from bench_labels where number = ?", number)
    told = "" if order["told"] in (None, order["state"]) or order["told"] in cells["end"] else escape(order["told"])
    shown = {NAMES[key]: cells.get(key) for key in ("reference", "bus", "unit")}
    if repeats is not None:
        shown |= {NAMES["reference"]: escape(repeated or ""), "Repeats": link_to(repeats)}
    shown = {**rows_of_fields(fields), **shown, "Plan": escape(plan or "")}
    shown |= {NAMES["end"]: cells["end"], "What was told": told, NAMES["advice"]: cells["advice"]}
    shown |= {NAMES[key]: cells.get(key) for key in ("added", "sent", "ended", "sends")}
    shown |= {"Label": escape(label_of(*labels[0]) if labels else "none"), "Report": report_of(report)}
    return f"<h2>Order {number}</h2>{pairs(shown)}"


def pairs(shown: dict) -> str:
    """Show names with what stands for them, where something does."""
    rows = "".join(f"<tr><th>{escape(name)}</th><td>{value}</td></tr>" for name, value in shown.items() if value)
    return f'<table class="pairs">{rows}</table>'


def rows_of_fields(text: str) -> dict:
    """Give the fields of an order by their names. Another program may have put any text into the store."""
    try:
        found = json.loads(text)
    except ValueError:
        found = None
    if not isinstance(found, dict):
        return {"fields": escape(text)}
    return {NAMES.get(key, key.replace("_", " ").capitalize()): escape("unknown" if value is None else str(value))
            for key, value in found.items()}


def report_of(text: Optional[str]) -> str:
    """Show a line of the report as a small table, or as it stands where it is none."""
    try:
        found = json.loads(text or "null")
    except ValueError:
        found = text
    if not isinstance(found, dict):
        return escape(str(found)) if found else ""
    shown = {name: escape(str(found[key])) for key, name in REPORT.items() if found.get(key) is not None}
    if isinstance(found.get("moment"), int):
        shown["begun"] = moment(found["moment"])
    if shown.get("by"):
        shown["by"] = "this drive" if found["ended"] == "now" else "an earlier one"
    return pairs({**shown, "cause": cause_of(found.get("cause"))})


def cause_of(cause) -> str:
    """Tell why an order came to no good end, as its report has it."""
    if not isinstance(cause, dict):
        return ""
    at = f" at location {cause['location']:02X}h" if isinstance(cause.get("location"), int) else ""
    byte = f", which holds {cause['byte']:02X}h" if isinstance(cause.get("byte"), int) else ""
    return escape(f"{cause.get('was')}{at}{byte}")


def label_of(taken: Optional[int], printed: int) -> str:
    """Tell what became of a label."""
    return f"taken {moment(taken)}, printed {printed} time{'s' * (printed != 1)}" if taken else "not taken yet"
