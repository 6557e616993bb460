#!/usr/bin/env python3
"""Print what `dali_bench journal FILE` prints, by plain Python.

It shares no code with the program. It reads both versions, and tells apart
whole journals, cut ones and those that are none, but not which fault one has.
"""

import struct
import sys

CODES = ["Done", "Short", "Format", "Silent", "Doubt", "DoubtOpen"]
PLACES = [*range(0x03, 0x11), *range(0x13, 0x78)]
ABOVE = {place: len(PLACES) - at for at, place in enumerate(PLACES)}
HEADER = bytes.fromhex("44423102")
# The form of the bytes between the letter of a Began and its updates, by version.
HEADS = {1: struct.Struct(">QBB"), 2: struct.Struct(">QQBB")}


class NoJournal(Exception):
    """The bytes are no journal."""


def version_of(data):
    """Give the version of a journal, that of an empty one included."""
    if data.startswith(HEADER) or not data:
        return 2
    if data[:1] == HEADER[:1]:
        raise NoJournal
    return 1


def began_at(data, at, version):
    """Read the Began there: number, unit, moment, count, length; or None."""
    head = HEADS[version]
    start = at + 1 + head.size
    if len(data) < start:
        raise NoJournal  # or cut: no benchmark cuts in a head
    number, *moments, unit, count = head.unpack_from(data, at + 1)
    if unit > 63 or not 1 <= count <= 115:
        raise NoJournal
    pairs = data[start : start + 2 * count]
    if len(pairs) < 2 * count:
        return None
    last = 0
    for index in range(count):
        location = pairs[2 * index]
        if location <= last or ABOVE.get(location, 0) < count - index:
            raise NoJournal
        last = location
    moment = moments[0] if moments else 0
    return number, unit, moment, count, 1 + head.size + 2 * count


def main(path):
    """Print the records of the file, and how much of it counts."""
    with open(path, "rb") as file:
        data = file.read()
    version = version_of(data)
    at = len(HEADER) if data and version == 2 else 0
    standing, unit, known, lines = "idle", 0, set(), [f"version {version}\n"]
    while at < len(data):
        letter = data[at : at + 1]
        if letter == b"B" and standing == "idle":
            order = began_at(data, at, version)
            if order is None:
                break
            number, unit, moment, count, length = order
            if number in known or len(known) >= 100000:
                raise NoJournal
            known.add(number)
            told = f"B order {number} unit {unit} at {moment} bytes {count}\n"
            lines.append(told)
            at, standing = at + length, "began"
        elif at + 1 == len(data):
            break
        elif letter == b"O" and standing == "began" and data[at + 1] == unit:
            lines.append(f"O unit {unit}\n")
            at, standing = at + 2, "opened"
        elif letter == b"E" and data[at + 1] in {"began": (1, 2, 3), "opened": (0, 4, 5)}.get(standing, ()):
            code = data[at + 1]
            lines.append(f"E {code} {CODES[code]}\n")
            at, standing = at + 2, f"left {unit}" if code == 5 else "idle"
        elif letter == b"C" and standing.startswith("left") and data[at + 1] == unit:
            lines.append(f"C unit {unit}\n")
            at, standing = at + 2, "idle"
        else:
            raise NoJournal
    lines.append(f"counts {at} of {len(data)} orders {len(known)} standing {standing}\n")
    sys.stdout.write("".join(lines))


if __name__ == "__main__":
    main(sys.argv[1])
