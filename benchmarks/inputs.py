"""Inputs for the benchmarks besides orders.py: JSON of the largest size, scenarios, journals."""

import json
import struct
from typing import NamedTuple

from orders import gtin_of, write_orders

# Of a journal.
MOST_ORDERS = 100000
HEADER = bytes.fromhex("44423102")
MOMENT = struct.pack(">Q", 1700000000)
GTIN = list(zip(range(0x03, 0x09), bytes.fromhex("03A4CEEFADAB")))
FULL = [(place, 0xA5) for place in [*range(0x03, 0x11), *range(0x13, 0x78)]]
# Of a scenario: its events, its units, and the address that has none.
MOST_EVENTS = 20000
UNITS = 63
# So many pieces are written at a time.
AT_ONCE = 10
# A JSON text may nest this many levels in all; one of them is the list.
LEVELS = 126


def write_journal(path, numbers, pairs, behind=b"", version=2):
    """Write a journal in which each order is done."""
    tail = bytes([5, len(pairs)]) + b"".join(bytes(pair) for pair in pairs)
    with open(path, "wb") as file:
        file.write(HEADER if version == 2 else b"")
        for number in numbers:
            head = b"B" + struct.pack(">Q", number) + (MOMENT if version == 2 else b"")
            file.write(head + tail + b"O\x05E\x00")
        file.write(behind)


class Input(NamedTuple):
    """An input of a command: what writes it up to a size, and how the command has to end."""

    command: str
    name: str
    write: object
    status: int


def listed(piece_of, start="[", end="]"):
    """Make a writer of as many pieces, each by its number, as there is room for, with commas between them."""

    def write(path, size):
        room, number = size - len(start) - len(end), 0
        with open(path, "w", encoding="ascii", newline="") as file:
            file.write(start)
            while room > 0:
                pieces = ("," if number else "") + ",".join(piece_of(number + at) for at in range(AT_ONCE))
                room -= len(pieces)
                if room >= 0:
                    file.write(pieces)
                number += AT_ONCE
            file.write(end)

    return write


def of_orders(**fields):
    """Make a writer of orders with these fields, each a function of the order's number."""
    return listed(lambda at: json.dumps({"order": at, "unit": at % 64, **{key: of(at) for key, of in fields.items()}}))


def repeated(item, start="[", end="]"):
    """Make a writer of one item again and again."""
    return listed(lambda _: item, start, end)


def filled(byte):
    """Make a writer of one byte again and again."""
    return lambda path, size: path.write_bytes(byte * size)


def journal(version):
    """Make a writer of the largest journal."""
    return lambda path, _: write_journal(path, range(MOST_ORDERS), FULL, b"", version)


WITH_GTIN = of_orders(gtin=gtin_of)
EVENTS = '{"limit":1,"units":[],"events":['
NESTED_ORDER = '{"submit":' + '{"":' * (LEVELS - 3) + "0" + "}" * (LEVELS - 3) + "}"
NESTED = repeated('{"":' * LEVELS + "0" + "}" * LEVELS)
INPUTS = [
    Input("check", "half of the orders with all fields, half with a GTIN", write_orders, 1),
    Input("check", "orders with a GTIN", WITH_GTIN, 0),
    Input("check", "orders with a number of one byte", of_orders(cri=lambda _: 1), 0),
    Input("check", "orders as short as they may be", listed('{{"order":{},"unit":0,"cri":0}}'.format), 0),
    Input("check", "one item of keys that orders don't have", listed('"{:07}":0'.format, "[{", "}]"), 1),
    Input("check", "numbers", repeated("0"), 1),
    Input("check", "numbers with a sign and a fraction", repeated("-1.5"), 1),
    Input("check", "texts of a letter", repeated('"a"'), 1),
    Input("check", "empty lists", repeated("[]"), 1),
    Input("check", "empty objects", repeated("{}"), 1),
    Input("check", "objects with an empty key", repeated('{"":0}'), 1),
    Input("check", "lists in each other", repeated("[" * LEVELS + "]" * LEVELS), 1),
    Input("check", "objects in each other", NESTED, 1),
    Input("check", "brackets that are never closed", filled(b"["), 1),
    Input("run", "events of one step", repeated('{"steps":1}', EVENTS, "]}"), 1),
    Input("run", "fates", repeated("{}", '{"limit":1,"units":[],"events":[],"fates":[', "]}"), 1),
    Input("run", "units at one address", repeated('{"address":5}', '{"limit":1,"events":[],"units":[', "]}"), 1),
    Input("run", "a list of objects with one member", repeated('{"q":0}'), 1),
    Input("run", "an order of objects in each other", repeated(NESTED_ORDER, EVENTS, "]}"), 1),
    Input("journal", "100000 orders with all fields, version 1", journal(1), 0),
    Input("journal", "100000 orders with all fields, version 2", journal(2), 0),
    # The journal of a drive is full, so that no frame is sent, and of version 1, so that it is written anew.
    Input("drive", "orders with a GTIN", WITH_GTIN, 0),
    Input("drive", "objects in each other", NESTED, 1),
]


# Scenarios, each for any number of events


class Scenario(NamedTuple):
    """The arrays of a scenario, and how many frames it sends."""

    units: list
    fates: list
    events: list
    frames: int

    def write(self, path):
        """Write it."""
        scenario = {"limit": MOST_EVENTS, "units": self.units, "fates": self.fates, "events": self.events}
        path.write_text(json.dumps(scenario), encoding="ascii")


def worked_off(events, frames, records, order_of, is_single=False):
    """Give events of orders with the steps that each takes, singly or as one, and how many frames these send.

    An order takes a step for each frame, each record and its reply. The steps that are left do nothing.
    """
    steps = frames + records + 1
    count, rest = divmod(events, 1 + steps)
    found = []
    for number in range(count):
        found.append({"submit": {"order": number, **order_of(number)}})
        found += [{"steps": 1}] * steps if is_single else [{"steps": steps}]
    return found + [{"steps": rest}] * (rest > 0), count * frames


def singly(events, is_single=True):
    """Give orders with a GTIN for many units in turn, each step and each fate by itself."""
    fates = [{"lost": [UNITS]}] * events if is_single else [{"times": events, "lost": [UNITS]}]
    found, frames = worked_off(events, 112, 3, lambda at: {"unit": at % UNITS, "gtin": gtin_of(at)}, is_single)
    return Scenario([{"address": unit} for unit in range(UNITS)], fates, found, frames)


def in_short(events):
    """Give the same, with each order's steps as one event, and all fates as one."""
    return singly(events, is_single=False)


def absent(events):
    """Give orders for an address at which there is no unit."""
    found, frames = worked_off(events, 16, 2, lambda _: {"unit": UNITS, "year": 24})
    return Scenario([{"address": 5}], [], found, frames)


def short(events):
    """Give orders for which the bank is too short: as many as can be."""
    found, frames = worked_off(events, 7, 2, lambda _: {"unit": 5, "year": 24})
    return Scenario([{"address": 5, "bank": "10" + "FF" * 16}], [], found, frames)


def oldest_again(events):
    """Give half of short's events, then its first order again and again."""
    half = short(events // 2)
    return half._replace(events=half.events + half.events[:1] * (events - events // 2))


SCENARIOS = {
    "63 units, singly": singly,
    "steps and fates as one": in_short,
    "absent unit": absent,
    "short bank": short,
    "oldest again": oldest_again,
}
