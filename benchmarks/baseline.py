#!/usr/bin/env python3
"""Print what `dali_bench check FILE` prints, by plain Python, to measure it against.

It shares no code with the program but the table of fields, and isn't tuned. Python's `json` is looser in three places, which no order of
check.py reaches: a key given twice keeps its last value, `-0` is 0, and a thousand levels are too deep.
"""

import json
import pathlib
import re
import sys

FAULTS = ("", "Unit", "Kind", "Range", "Gtin", "Text", "", "Voltage", "Empty", "Shape", "Key", "Json", "Document")
MOST = 2**64 - 1
# The two hexadecimal digits of each byte.
DIGITS = [f"{byte:02X}" for byte in range(256)]
GTIN = re.compile(r"[0-9]{8}|[0-9]{12}|[0-9]{13}|[0-9]{14}")
IDENTIFICATION = re.compile(r"[0-9A-Fa-f]{16}")


class Refused(Exception):
    """An order, or the whole file, has the fault of this name."""


def want(is_held, fault):
    """Refuse with a fault what doesn't hold."""
    if not is_held:
        raise Refused(fault)


def is_whole_number(value):
    """Tell whether the value is an integer of 64 bits, no boolean."""
    return type(value) is int and 0 <= value <= MOST


def gtin(value, size):
    """Give the bytes of a GTIN, stored as one number."""
    want(isinstance(value, str), "Kind")
    want(GTIN.fullmatch(value), "Gtin")
    digits = [int(digit) for digit in reversed(value)]
    want((sum(digits[0::2]) + 3 * sum(digits[1::2])) % 10 == 0, "Gtin")
    return int(value).to_bytes(size, "big")


def identification(value, _):
    """Give the bytes of an identification number, given in hexadecimal."""
    want(isinstance(value, str), "Kind")
    want(IDENTIFICATION.fullmatch(value), "Text")
    return bytes.fromhex(value)


def number(lowest, highest):
    """Make what gives the bytes of a number, most significant byte first."""

    def encode(value, size):
        want(is_whole_number(value), "Kind")
        want(lowest <= value <= highest, "Range")
        return value.to_bytes(size, "big")

    return encode


def text(value, size):
    """Give the bytes of printable ASCII, filled up with zeros."""
    want(isinstance(value, str), "Kind")
    want(1 <= len(value) <= size and value.isascii() and value.isprintable(), "Text")
    return value.encode("ascii").ljust(size, b"\x00")


FORMS = {"gtin": gtin, "identification": identification, "text": text}
TABLE = pathlib.Path(__file__).resolve().parent.parent / "tools" / "fields.json"
# Location, size and bytes of each field, in the order in which they are tested, which is that of their locations.
FIELDS = {it["key"]: (it["first"], it["bytes"], FORMS.get(it["form"]) or number(it["least"], it["most"]))
          for it in json.loads(TABLE.read_text(encoding="utf-8"))}
KEYS = frozenset(FIELDS) | {"order", "unit"}


def updates_of(order):
    """Give the updates of one order as lines `LL BB`, or refuse it."""
    want(isinstance(order, dict), "Shape")
    want(is_whole_number(order.get("order")) and is_whole_number(order.get("unit")), "Shape")
    want(KEYS.issuperset(order), "Key")
    want(order["unit"] <= 63, "Unit")
    updates = []
    for name, (first, size, encode) in FIELDS.items():
        if name in order:
            value = order[name]
            encoded = b"\xff" * size if value is None else encode(value, size)
            updates += [f"{DIGITS[location]} {DIGITS[byte]}\n" for location, byte in enumerate(encoded, first)]
    least, most = order.get("min_voltage"), order.get("max_voltage")
    want(least is None or most is None or least <= most, "Voltage")
    want(updates, "Empty")
    return updates


def print_fault(prefix, refused):
    """Print the number and the name of a fault."""
    sys.stdout.write(f"{prefix}fault {FAULTS.index(str(refused))} {refused}\n")


def check_orders(orders):
    """Print the outcome of each order and give the count of refused ones."""
    count = 0
    for index, order in enumerate(orders, 1):
        try:
            updates = updates_of(order)
        except Refused as refused:
            count += 1
            print_fault(f"item {index} ", refused)
        else:
            sys.stdout.write(f"item {index} order {order['order']} unit {order['unit']} bytes {len(updates)}\n")
            sys.stdout.write("".join(updates))
    sys.stdout.write(f"accepted {len(orders) - count} refused {count}\n")
    return count


def refuse_constant(name):
    """Refuse NaN and the infinities, which Python takes and JSON lacks."""
    raise ValueError(f"{name} is no JSON")


def main(path):
    """Check the orders of a file; give 0 if nothing is refused, else 1."""
    try:
        with open(path, encoding="utf-8") as file:
            orders = json.load(file, parse_constant=refuse_constant)
        want(isinstance(orders, list), "Document")
        return 1 if check_orders(orders) else 0
    except (Refused, ValueError) as fault:
        print_fault("", fault if isinstance(fault, Refused) else "Json")
        return 1


if __name__ == "__main__":
    sys.exit(main(sys.argv[2]))
