"""Inputs for the commands of dali_bench, made by chance: by their grammar, with values near every edge, and spoilt.

Each function takes a `random.Random` first, so that a case is the same whenever it is made again.
"""

import json

from driven import FIELDS

TOP = 2 ** 64 - 1
HEADER = b"DB1\x02"
OTHER_HEADERS = [b"D", b"DB", b"DB1", b"DB1\x01", b"DB1\x03", b"DB2\x02", HEADER + HEADER, b"db1\x02"]
RANGES = {it["key"]: (it["least"], it["most"]) for it in FIELDS if it["form"] == "number"}
TEXTS = {it["key"]: it["most"] for it in FIELDS if it["form"] == "text"}
GTINS = ["4006381333931", "96385074", "036000291452", "10614141000415", "4006381333932", "40063813339", "0", "", "1e3"]
ODD_VALUES = [None, True, False, [], {}, -1, 1.0, 1e300, TOP, TOP + 1, "", "x", "\u0000", "\ud800", "é", [0],
              {"a": 1}]
ODD_TEXTS = [b"", b"null", b"[", b"]", b"{", b"}", b"[]", b"{}", b",", b":", b'"', b"\\u0000", b"\\ud800", b"1e999",
             b"-0", b"0.0", b"18446744073709551616", b"\xff", b"\xef\xbb\xbf", b"\x00", b" " * 5000, b"[" * 200,
             b'{"a":' * 130]


def near(rng, low, high):
    """Give a number at, near or between the edges of a range."""
    return rng.choice([low, high, low - 1, high + 1, rng.randint(low, high), rng.randint(low, high)])


def text_up_to(rng, length):
    """Give a text of about as many characters as may stand there."""
    count = rng.choice([0, 1, length, length + 1, rng.randint(1, length)])
    return "".join(rng.choice("AZaz09 ~\u007f\u001fé" if rng.random() < 0.1 else "AZaz09 ~!") for _ in range(count))


def field(rng, key):
    """Give a value for a field of an order, most often one that it may have."""
    if rng.random() < 0.08:
        return rng.choice(ODD_VALUES)
    if rng.random() < 0.08:
        return None
    if key == "gtin":
        return rng.choice(GTINS[:4] if rng.random() < 0.8 else GTINS)
    if key == "identification":
        return "".join(rng.choice("0123456789abcdefABCDEF") for _ in range(rng.choice([16, 16, 16, 15, 17])))
    return text_up_to(rng, TEXTS[key]) if key in TEXTS else near(rng, *RANGES[key])


def good_order(rng, number, units=(5, 6)):
    """Give an order that is accepted."""
    made = {"order": number, "unit": rng.choice([*units, *units, *units, 9])}
    for key in rng.sample(["gtin", *RANGES, *TEXTS], rng.choice([1, 1, 1, 2, 4])):
        if key in RANGES:
            made[key] = rng.choice([None, *RANGES[key], rng.randint(*RANGES[key])])
        else:
            made[key] = rng.choice(GTINS[:4]) if key == "gtin" else "A" * rng.randint(1, 4)
    if None not in (made.get("min_voltage"), made.get("max_voltage")):
        made["min_voltage"], made["max_voltage"] = sorted(made.get(f"{end}_voltage", 0) for end in ("min", "max"))
    return made


def order(rng, units=(5, 6)):
    """Give an order, most often one that is accepted."""
    if rng.random() < 0.6:
        return good_order(rng, rng.randint(0, 5), units)
    if rng.random() < 0.03:
        return rng.choice(ODD_VALUES)
    keys = ["gtin", "identification", *RANGES, *TEXTS]
    number = rng.choice([0, 1, 2, 3, TOP, rng.randint(0, TOP)])
    made = {"order": number, "unit": rng.choice([*units, *units, 9, 63, 64])}
    for key in rng.sample(keys, rng.choice([0, 1, 1, 1, 2, 3, len(keys)])):
        made[key] = field(rng, key)
    if rng.random() < 0.05:
        made[rng.choice(["order", "unit", "weight", "Gtin"])] = rng.choice(ODD_VALUES)
    if rng.random() < 0.03:
        del made[rng.choice(["order", "unit"])]
    return made


def orders(rng):
    """Give a file of orders."""
    return as_json(rng, [order(rng) for _ in range(rng.choice([0, 1, 1, 2, 3, 8]))])


def bank_digits(rng):
    """Give the digits of a bank 1, most often one that a unit may have."""
    length = rng.choice([17, 18, 120, 255, rng.randint(17, 255)] if rng.random() < 0.9 else [0, 16, 256])
    data = bytearray(rng.choice([0xFF, 0x00, rng.randint(0, 255)]) for _ in range(length))
    data[0:1] = bytes([max(length - 1, 0) % 256]) if rng.random() < 0.9 else b"\x05"
    data[0x11:0x13] = b"\x00\x03" if rng.random() < 0.8 else b"\x00\x04"
    return data.hex()


def good_bank(rng):
    """Give the digits of a bank 1 that a unit may have: blank, except for its length and its content format."""
    data = bytearray([0xFF] * rng.choice([17, 60, 120, 120, 120, 255]))
    data[0] = len(data) - 1
    data[0x11:0x13] = (b"\x00\x03" if rng.random() < 0.9 else b"\x00\x04")[:max(len(data) - 0x11, 0)]
    return data.hex()


def unit_of(rng, address):
    """Give a unit of a scenario."""
    made = {"address": address}
    if rng.random() < 0.3:
        made["bank"] = bank_digits(rng)
    if rng.random() < 0.2:
        made["fixed"] = sorted(rng.sample(range(3, 17), rng.randint(0, 3)))
    if rng.random() < 0.2:
        made["dtr"] = [rng.randint(0, 255) for _ in range(3)]
    if rng.random() < 0.01:
        made[rng.choice(["address", "bank", "fixed", "dtr", "adress"])] = rng.choice(ODD_VALUES)
    return made


def fate(rng):
    """Give a fate of a scenario."""
    made = {}
    if rng.random() < 0.6:
        made["times"] = rng.randint(1, 300) if rng.random() < 0.97 else rng.choice([0, 20000, 20001])
    if rng.random() < 0.4:
        made["lost"] = rng.choices([5, 6, 9, 63, 64] if rng.random() < 0.05 else [5, 6, 9, 63], k=rng.randint(0, 3))
    for key in ("answer_lost", "refuse"):
        if rng.random() < 0.25:
            made[key] = rng.random() < 0.7
    return made


def moment(rng):
    """Give the moment of a submission."""
    return rng.choice([0, 1, 1700000000, TOP, rng.randint(0, TOP)])


def event(rng):
    """Give an event of a scenario."""
    kind = rng.choice(["submit", "submit", "steps", "steps", "steps", "stop", "power"])
    if kind == "submit":
        made = {"submit": good_order(rng, rng.randint(1, 4)) if rng.random() < 0.97 else order(rng)}
        if rng.random() < 0.5:
            made["moment"] = moment(rng)
    elif kind == "steps":
        made = {"steps": rng.choice([1, 2, 5, 17, 60, 120, 300, 2000])}
    else:
        odd = rng.random() < 0.03
        among = [0, 1, 2, 5, 22, 63, 400, 65535] if kind == "stop" else [0, 5, 5, 6, 9, 63]
        made = {kind: rng.choice([64, 255, 65536] if odd else among)}
    if rng.random() < 0.005:
        made[rng.choice(["stop", "power", "steps", "submit", "step"])] = rng.choice(ODD_VALUES)
    if rng.random() < 0.005:
        made["moment"] = rng.choice(ODD_VALUES)
    return made


def scenario(rng):
    """Give a scenario."""
    addresses = rng.choice([[5], [5, 6], [5, 6, 9], []] if rng.random() < 0.9 else [[5, 5], [64], [63, 0]])
    made = {
        "limit": rng.choice([1, 2, 3, 10, 100000] if rng.random() < 0.95 else [0, 100001, TOP]),
        "units": [unit_of(rng, address) for address in addresses],
        "events": [event(rng) for _ in range(rng.randint(0, 12))],
    }
    if rng.random() < 0.6:
        made["fates"] = [fate(rng) for _ in range(rng.randint(0, 5))]
    if rng.random() < 0.5:
        made["plan"] = rng.choice(["checked", "short", "short"])
    if rng.random() < 0.03:
        made[rng.choice(["limit", "plan", "units", "events", "fates", "unit"])] = rng.choice(ODD_VALUES)
    return as_json(rng, made)


def as_json(rng, value):
    """Write a value as JSON, with white space now and then."""
    return json.dumps(value, indent=rng.choice([None, None, None, 1]), ensure_ascii=rng.random() < 0.7).encode(
        "utf-8", "surrogatepass")


def hex_text(rng):
    """Give the text of a memory bank."""
    digits = bank_digits(rng)
    if rng.random() < 0.5:
        digits = digits.upper()
    return "".join(digit + rng.choice(["", "", "", " ", "\n", "\t\r"]) for digit in digits).encode()


def began(rng, number, unit, version):
    """Give the bytes of a Began in a version, most often of one that may be."""
    places = [*range(0x03, 0x11), *range(0x13, 0x78)]
    count = rng.choice([1, 2, 6, 115, rng.randint(1, 115)])
    chosen = sorted(rng.sample(places, count))
    if rng.random() < 0.03:
        chosen[rng.randrange(count)] = rng.choice([0x00, 0x02, 0x11, 0x78, 0xFF])
    pairs = bytes(byte for place in chosen for byte in (place, rng.randint(0, 255)))
    came = moment(rng).to_bytes(8, "big") if version == 2 else b""
    return b"B" + number.to_bytes(8, "big") + came + bytes([unit, count]) + pairs


def journal(rng):
    """Give the bytes of a journal of either version, most often of one that may be, and often with a cut record."""
    version, data, number = rng.choice([1, 2, 2]), b"", 0
    if version == 2:
        data = HEADER if rng.random() < 0.95 else rng.choice(OTHER_HEADERS)
    for _ in range(rng.choice([0, 1, 2, 3, 6])):
        number = min(number + 1, TOP) if rng.random() < 0.97 else rng.choice([0, 1, TOP])
        unit = rng.choice([5, 6, 63, 64] if rng.random() < 0.03 else [5, 6])
        opened, closed = b"O" + bytes([unit]), b"C" + bytes([unit])
        data += began(rng, number, unit, version)
        data += rng.choice([b"E\x01", b"E\x02", b"E\x03", opened + b"E\x00", opened + b"E\x04",
                            opened + b"E\x05" + closed])
    if rng.random() < 0.5:
        data = data[:len(data) - rng.randint(0, min(len(data), 40))]
    return data


def word(rng):
    """Give the argument of `frame`."""
    digits = "".join(rng.choice("0123456789abcdefABCDEF") for _ in range(rng.choice([4, 4, 4, 4, 4, 0, 3, 5])))
    spoilt = ["A3 3", "+123", "0x12", "g000", "ａ303", " A303", "A303 "]
    return digits if rng.random() < 0.9 else rng.choice(spoilt)


def answers(rng):
    """Give lines of answers, as of a bad link."""
    usual = [b"--\n", b"01\n", b"00\n", b"77\n", b"55\n", b"FF\n"]
    lines = [rng.choice(usual) for _ in range(rng.choice([0, 1, 5, 16, 200, 1300]))]
    if rng.random() < 0.2:
        lines.append(rng.choice([b"-5\n", b"123456789", b"12345678\n", b"\n", b"ff\r\n", b"0\n", b"--", b"\x00\x00\n"]))
    return b"".join(lines)


def spoilt(rng, data):
    """Spoil some bytes: change, take away, double or put in."""
    made = bytearray(data)
    for _ in range(rng.choice([1, 1, 2, 4])):
        at = rng.randint(0, len(made))
        end = min(len(made), at + rng.choice([1, 1, 2, 8, 64]))
        what = rng.randrange(5)
        if what == 0:
            made[at:end] = bytes(rng.randint(0, 255) for _ in range(end - at))
        elif what == 1:
            del made[at:end]
        elif what == 2:
            made[at:at] = made[at:end] * rng.choice([1, 2, 50])
        elif what == 3:
            made[at:at] = rng.choice(ODD_TEXTS)
        else:
            del made[at:]
    return bytes(made)
