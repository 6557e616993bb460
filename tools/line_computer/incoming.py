"""A file of orders that are to be added: the JSON that `check` takes, or a table as `orders_from_csv` takes it."""

from __future__ import annotations

import importlib.machinery
import importlib.util
import json
import pathlib
import re
import sys

from .faults import Failed, Refused, why
from .identities import LENGTH_OF_GTIN
from .orders import Item, spelled
from .program import Program

# It stands beside this package, and is a program by itself.
TABLES = pathlib.Path(__file__).resolve().parent.parent / "orders_from_csv"
MOST_TOLD = 1000
BYTE_ORDER_MARK = b"\xef\xbb\xbf"


def read(name: str) -> bytes:
    """Read a file, or standard input where its name is -."""
    try:
        if name == "-":
            return sys.stdin.buffer.read()
        with open(name, "rb") as file:
            return file.read()
    except OSError as fault:
        raise Failed(why(fault)) from fault


def tables():
    """Give the module that reads tables."""
    loader = importlib.machinery.SourceFileLoader("orders_from_csv", str(TABLES))
    module = importlib.util.module_from_spec(importlib.util.spec_from_loader("orders_from_csv", loader))
    loader.exec_module(module)
    return module


def orders_of_table(data: bytes, is_latin_1: bool) -> list[dict]:
    """Give the orders of a table, which have numbers only where it has such a column."""
    module = tables()
    try:
        header = next(module.rows_of(module.decoded(data, is_latin_1)), (1, []))[1]
    except module.Wrong:
        header = ["order"]  # the fault is reported below
    is_numbered = "order" in [key.strip(module.BLANKS) for key in header]
    orders, faults = module.orders_of(data, is_latin_1, None if is_numbered else 1)
    if faults:
        raise Refused("\n".join(str(fault) for fault in faults[:MOST_TOLD]))
    given = [json.loads(order) for order in orders]
    for order in given:
        if not is_numbered:
            del order["order"]
    return given


def orders_of(data: bytes, is_latin_1: bool, program: Program) -> list[dict]:
    """Give the orders of a file. A file that is no array of objects is refused with the words of `check`."""
    if data.startswith(BYTE_ORDER_MARK) and data[3:].lstrip()[:1] in (b"[", b"{"):
        data = data[3:]
    if data.lstrip()[:1] not in (b"[", b"{"):
        return orders_of_table(data, is_latin_1)
    try:
        orders = json.loads(data)
    except (ValueError, RecursionError):
        orders = None
    if not isinstance(orders, list) or not all(isinstance(order, dict) for order in orders):
        program.check_text(data, 0)
        raise Refused("the file is no array of orders")
    return orders


def without_numbers(words: str, orders: list[dict]) -> str:
    """Take the numbers out of the message on orders that have none."""

    def plainly(found: re.Match) -> str:
        """Give the front of a line."""
        return found[0] if "order" in orders[int(found[2]) - 1] else found[1]

    return re.sub("^(item ([0-9]+)) order [0-9]+", plainly, words, flags=re.MULTILINE)


def items_of(data: bytes, is_latin_1: bool, program: Program) -> list[Item]:
    """Give the orders of a file, each accepted by `check`."""
    orders = orders_of(data, is_latin_1, program)
    if not orders:
        raise Refused("the file has no orders")
    numbered = [{"order": at, **order} for at, order in enumerate(orders, 1)]
    try:
        accepted = program.check(numbered)
    except Refused as fault:
        raise Refused(without_numbers(str(fault), orders), fault.lines) from fault
    items = []
    for order, (unit, frames, _) in zip(orders, accepted):
        fields = {key: value for key, value in order.items() if key not in ("order", "unit")}
        gtin = fields.get("gtin")
        items.append(Item(str(order["order"]) if "order" in order else None, unit, spelled(fields),
                          gtin and gtin.zfill(LENGTH_OF_GTIN), frames))
    return items
