"""Work orders for the benchmarks: always the same ones."""

import itertools
import json
import pathlib

TABLE = pathlib.Path(__file__).resolve().parent.parent / "tools" / "fields.json"
FIELDS = json.loads(TABLE.read_text(encoding="utf-8"))
# Of each fifty orders one has a null, one has escapes and one is refused.
# Even places hold full orders, odd places hold orders with a GTIN only.
PERIOD = 50
PLACE_OF_NULL = 12
PLACE_OF_ESCAPES = 24
PLACE_OF_REFUSED = 49

# Changes to a full order that make it refused, from fault 1 Unit to 10 Key.
REFUSED_CHANGES = (
    {"unit": 64}, {"unit": 2**64 - 1, "year": "24"},
    {"gtin": 4006381333931}, {"identification": 17}, {"year": "24"}, {"week": True}, {"input_power": 2.5}, {"cri": -1},
    {"cct": [4000]}, {"distribution": {}}, {"light_output": 2**64}, {"colour": 24},
    {"light_output": 2**64 - 1}, {"year": 100}, {"week": 0, "colour": ""}, {"cct": 65534}, {"distribution": 255},
    {"gtin": "4006381333932"}, {"gtin": "400638133393"}, {"gtin": "", "week": False},
    {"colour": ""}, {"colour": "a colour of 25 characters"}, {"luminaire": "x" * 61}, {"luminaire": "caf\u00e9"},
    {"luminaire": "two\nlines"},
    {"min_voltage": 240, "max_voltage": 239},
    {"order": "7"}, {"unit": None}, {"order": 2**64, "weight": 1},
    {"weight": 1}, {"Year": 24, "unit": 64},
)
# Whole items that are refused.
REFUSED_ITEMS = (
    {"order": 1, "unit": 5}, {"order": 1, "gtin": "4006381333931"}, {"unit": 5, "gtin": "4006381333931"},
    {}, [], "order", None,
)


def gtin_of(index):
    """Give a correct GTIN of 8, 12, 13 or 14 digits."""
    length = (8, 12, 13, 14)[index // 2 % 4]
    body = str(index * 7919 + 4006381).zfill(length - 1)[-(length - 1) :]
    weighted = sum(int(digit) * weight for digit, weight in zip(reversed(body), itertools.cycle((3, 1))))
    return body + str(-weighted % 10)


def short_order(index):
    """Give an order that has a GTIN only."""
    return {"order": index, "unit": index % 64, "gtin": gtin_of(index)}


def value_of(field, index):
    """Give a value of a field that has a range: of a text three quarters of the longest, at most."""
    if field["form"] == "text":
        return f"Downlight {index} round, 200 mm, aluminium, IP44"[:field["most"] * 3 // 4]
    return field["least"] + index * 7919 % (field["most"] - field["least"] + 1)


def full_order(index):
    """Give an order that has all fields."""
    order = short_order(index)
    order["identification"] = format(index * 0x9E3779B97F4A7C15 % 2**64, "016x")
    order.update((it["key"], value_of(it, index)) for it in FIELDS if it["least"] is not None)
    order["min_voltage"] = 100 + index % 120
    order["max_voltage"] = order["min_voltage"] + index % 150
    return order


def order_with_null(index):
    """Give a full order in which one field, each in its turn, is unknown."""
    order = full_order(index)
    names = [name for name in order if name not in ("order", "unit")]
    order[names[index // PERIOD % len(names)]] = None
    return order


def order_with_escapes(index):
    """Give a full order with escapes in a text and capitals in the hex."""
    order = full_order(index)
    order["identification"] = order["identification"].upper()
    order["luminaire"] = f'Panel {index} "north\\south"'
    return order


def refused_item(index):
    """Give an item that is to be refused, each kind in its turn."""
    kinds = REFUSED_CHANGES + REFUSED_ITEMS
    kind = index // PERIOD % len(kinds)
    if kind < len(REFUSED_CHANGES):
        return {**full_order(index), **REFUSED_CHANGES[kind]}
    return REFUSED_ITEMS[kind - len(REFUSED_CHANGES)]


def item_of(index):
    """Give the item of this index in the array of orders."""
    place = index % PERIOD
    if place == PLACE_OF_REFUSED:
        return refused_item(index)
    if place == PLACE_OF_NULL:
        return order_with_null(index)
    if place == PLACE_OF_ESCAPES:
        return order_with_escapes(index)
    return full_order(index) if place % 2 == 0 else short_order(index)


def write_orders(path, size):
    """Write orders up to this many bytes and give the count of items."""
    end = "\n]\n"
    room = size - len(end)
    with open(path, "w", encoding="ascii", newline="") as file:
        for count in itertools.count():
            piece = (",\n" if count else "[\n") + json.dumps(item_of(count))
            room -= len(piece)
            if room < 0 and count:
                file.write(end)
                return count
            file.write(piece)
