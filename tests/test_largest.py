#!/usr/bin/env python3
"""Test the built program on the largest inputs, with ample memory: none of them ends as want of memory.

    test_largest.py PROGRAM

The results due are counted from the requirements, and never taken from the program. The last line is `N passed, M
failed`, and the status is 0 only where none failed.
"""

import json
import pathlib
import struct
import subprocess
import sys
import tempfile

sys.dont_write_bytecode = True

from driven import FIELDS  # noqa: E402

MOST_ORDERS = 100000
MOST_EVENTS = 20000
MOST_TEXT = 16 * 1024 * 1024
ADDRESSES = range(64)
GTIN = "4006381333931"
GTIN_BYTES = bytes.fromhex("03A4CEEFADAB")
HEADER = b"DB1\x02"
# The locations that an order may write, all of them: 115.
PLACES = [*range(0x03, 0x11), *range(0x13, 0x78)]
# The greatest bank, all FFh but the byte at 00h, which is its last location; and all that may be fixed of it.
LARGEST_BANK = b"\xfe" + b"\xff" * 254
MOST_FIXED = [*range(0x03, 0xFF)]


def run(program, words, given=b""):
    """Run the program on these words and this input, and give its status and what it printed on both streams."""
    ended = subprocess.run([program, *words], input=given, capture_output=True, timeout=300)
    return ended.returncode, ended.stdout, ended.stderr


def differs(name, wanted, got):
    """Give None where both are the same, or else where they differ first."""
    if wanted == got:
        return None
    for what, one, other in zip(("the status", "standard output", "standard error"), wanted, got):
        if one != other and isinstance(one, int):
            return f"{name}: {what} is {other}, and not {one}; {got[1][-200:]!r}"
        if one != other:
            at = next((i for i, (a, b) in enumerate(zip(one, other)) if a != b), min(len(one), len(other)))
            return f"{name}: {what} has {other[at:][:80]!r} at {at}, and not {one[at:][:80]!r}"
    return f"{name}: {got}"


def text_of(lines):
    """Give the bytes of the lines."""
    return "".join(f"{line}\n" for line in lines).encode()


def gtin_order(number, unit):
    """Give an order that has a GTIN only: six updates."""
    return {"order": number, "unit": unit, "gtin": GTIN}


def largest_order(number):
    """Give an order of all fields, with the longest texts: 115 updates."""
    most = {it["key"]: it["most"] if it["form"] == "number" else it["key"][0] * it["most"]
            for it in FIELDS if it["most"]}
    return {**gtin_order(number, 5), "identification": "0123456789abcdef", **most}


def filled(text, most):
    """Give the JSON text with spaces after it, as long as an input may be."""
    return text.encode().ljust(most)


def carried_out(number, unit, frames, code):
    """Give the lines of an order of a GTIN that is opened: seven frames look, and `frames` follow."""
    return [f"ask {number}", f"reply {number} taken", f"keep B order {number} unit {unit} at 0 bytes 6", "frames 7",
            f"keep O unit {unit}", f"frames {frames}", f"keep E {code}", f"reply {number} kept {code}"]


def differs_in_run(name, scenario, lines, program):
    """Give where the run of a scenario differs from the lines, if it does."""
    return differs(name, (0, text_of(lines), b""), run(program, ["run", "-"], scenario))


def test_fixed(program, _room):
    """Sixty-four units of the largest bank, with all fixed that may be: each order is in doubt.

    Of an order 7 frames look, 7 unlock, 56 are the eight tries of the first write, and 14 lock and look at the lock
    byte. With its three records and its saying that are 88 steps. Its records have 31, 2 and 2 bytes. Each unit hears
    DTR0, which is 02h at last; the read moves on that of the last unit alone.
    """
    units = [{"address": it, "bank": LARGEST_BANK.hex(), "fixed": MOST_FIXED} for it in ADDRESSES]
    events = [event for it in ADDRESSES for event in ({"submit": gtin_order(it + 1, it)}, {"steps": 88})]
    scenario = json.dumps({"limit": 64, "units": units, "events": events})
    wanted = [line for it in ADDRESSES for line in carried_out(it + 1, it, 77, "4 Doubt")]
    wanted += [f"total {64 * 84}", f"journal {4 + 64 * 35}"]
    for it in ADDRESSES:
        wanted += [f"unit {it} dtr {'03' if it == 63 else '02'} 01 00 enabled no", f"bank {it} 00 FE{'FF' * 15}"]
    return differs_in_run("64 units with 252 fixed locations", scenario.encode(), wanted, program)


def test_units(program, _room):
    """Sixty-four blank units: each order is done, with 112 frames, of which the last read one is of 08h."""
    events = [event for it in ADDRESSES for event in ({"submit": gtin_order(it + 1, it)}, {"steps": 116})]
    scenario = json.dumps({"limit": 64, "units": [{"address": it} for it in ADDRESSES], "events": events})
    wanted = [line for it in ADDRESSES for line in carried_out(it + 1, it, 105, "0 Done")]
    wanted += [f"total {64 * 112}", f"journal {4 + 64 * 35}"]
    for it in ADDRESSES:
        wanted += [f"unit {it} dtr {'09' if it == 63 else '08'} 01 00 enabled no",
                   f"bank {it} 00 77FFFF{GTIN_BYTES.hex().upper()}{'FF' * 7}", f"bank {it} 10 FF0003{'FF' * 13}"]
    return differs_in_run("64 units", scenario.encode(), wanted, program)


def test_submissions(program, _room):
    """The longest scenario, of the most orders, all of 115 updates, and the most fates: one is taken, and no more."""
    numbers = range(1, MOST_EVENTS + 1)
    scenario = {"limit": MOST_ORDERS, "units": [], "fates": [{"answer_lost": True}] * MOST_EVENTS,
                "events": [{"submit": largest_order(it)} for it in numbers]}
    wanted = [line for it in numbers for line in (f"ask {it}", f"reply {it} {'taken' if it == 1 else 'busy'}")]
    wanted += ["total 0", "journal 4"]
    return differs_in_run("a scenario of 20000 orders", filled(json.dumps(scenario), MOST_TEXT), wanted, program)


def test_absent(program, _room):
    """As many orders of 115 updates as the events let end, and stops after them.

    A unit that isn't there takes 16 frames, two records and a saying. The record of the last order is cut off, so that
    order is forgotten, and the next stop comes where nothing is due; then the first order has its kept reply.
    """
    numbers = range(1, MOST_EVENTS // 20)
    last = len(numbers) + 1
    events = [event for it in numbers for event in ({"submit": largest_order(it)}, {"steps": 19})]
    events += [{"submit": largest_order(last)}, {"stop": 248}, {"stop": 0}, {"submit": largest_order(1)}]
    wanted = [line for it in numbers for line in (
        f"ask {it}", f"reply {it} taken", f"keep B order {it} unit 5 at 0 bytes 115", "frames 16", "keep E 3 Silent",
        f"reply {it} kept 3 Silent")]
    wanted += [f"ask {last}", f"reply {last} taken", "stop", "stop", "ask 1", "reply 1 kept 3 Silent"]
    wanted += [f"total {16 * len(numbers)}", f"journal {4 + 251 * len(numbers)}"]
    scenario = json.dumps({"limit": MOST_ORDERS, "units": [], "events": events}).encode()
    return differs_in_run("999 orders that end, and stops", scenario, wanted, program)


def smallest_orders():
    """Give the longest text of orders, with as many as have room, and how many these are."""
    pieces, room, number = [], MOST_TEXT - 1, 0
    while True:
        piece = f'{{"order":{number + 1},"unit":0,"cri":0}}'
        room -= len(piece) + 1
        if room < 0:
            return filled("[" + ",".join(pieces) + "]", MOST_TEXT), number
        pieces.append(piece)
        number += 1


def test_orders(program, _room):
    """The longest text of the most orders."""
    text, count = smallest_orders()
    wanted = [line for it in range(1, count + 1) for line in (f"item {it} order {it} unit 0 bytes 1", "20 00")]
    wanted.append(f"accepted {count} refused 0")
    return differs(f"{count} orders", (0, text_of(wanted), b""), run(program, ["check", "-"], text))


def test_full_orders(program, _room):
    """The longest text of orders of all fields: 116 lines each."""
    count = MOST_TEXT // (len(json.dumps(largest_order(100000))) + 2)
    text = filled(json.dumps([largest_order(it) for it in range(1, count + 1)]), MOST_TEXT)
    status, told, notes = run(program, ["check", "-"], text)
    ended = (status, told[told.rindex(b"\naccepted") + 1 :] if b"\naccepted" in told else told[:80], notes)
    if told.count(b"\n") != 116 * count + 1:
        return f"{count} orders of all fields: {told.count(bytes([10]))} lines"
    return differs(f"{count} orders of all fields", (0, f"accepted {count} refused 0\n".encode(), b""), ended)


def test_refused_items(program, room):
    """The longest text of the most items, all refused: a drive tells each, and makes no journal."""
    count = (MOST_TEXT - 1) // 2
    orders, journal, told = room / "orders", room / "journal", room / "told"
    orders.write_bytes(b"[" + b"0," * (count - 1) + b"0]")
    with open(told, "wb") as file:
        ended = subprocess.run([program, "drive", orders, journal], stdin=subprocess.DEVNULL, stdout=subprocess.PIPE,
                               stderr=file, timeout=300)
    lines = told.read_bytes().count(b" fault 9 Shape\n")
    good = (ended.returncode, ended.stdout, lines, journal.exists()) == (1, b"", count, False)
    return None if good else f"{count} refused items: {ended}, {lines} lines"


def ended_orders(numbers, version):
    """Give the records of orders of 115 updates that were left open and closed, the longest that there are."""
    tail = bytes([5, len(PLACES)]) + b"".join(bytes([place, 0xA5]) for place in PLACES) + b"O\x05E\x05C\x05"
    moment = b"\x00" * 8 if version == 2 else b""
    return b"".join(b"B" + struct.pack(">Q", number) + moment + tail for number in numbers)


def test_journal(program, room):
    """The largest journal: 100000 orders, whose records have 255 bytes each."""
    journal = room / "journal"
    journal.write_bytes(HEADER + ended_orders(range(1, MOST_ORDERS + 1), 2))
    size = 4 + 255 * MOST_ORDERS
    wanted = ["version 2"]
    for it in range(1, MOST_ORDERS + 1):
        wanted += [f"B order {it} unit 5 at 0 bytes 115", "O unit 5", "E 5 DoubtOpen", "C unit 5"]
    wanted.append(f"counts {size} of {size} orders {MOST_ORDERS} standing idle")
    return differs("a journal of 100000 orders", (0, text_of(wanted), b""), run(program, ["journal", journal]))


def test_drive_of_most(program, room):
    """The most orders against the largest journal: the numbers that it has are other orders, and it is full."""
    journal, orders = room / "journal", room / "orders"
    kept = HEADER + ended_orders(range(1, MOST_ORDERS + 1), 2)
    text, count = smallest_orders()
    journal.write_bytes(kept)
    orders.write_bytes(text)
    wanted = [f"reply {it} {'reused' if it <= MOST_ORDERS else 'full'}" for it in range(1, count + 1)]
    told = differs("a drive of the most orders", (0, b"", text_of(wanted)), run(program, ["drive", orders, journal]))
    return told or (None if journal.read_bytes() == kept else "a drive of the most orders: the journal has changed")


def test_drive_appends(program, room):
    """A journal of all orders but one, and a cut record, takes one more, which gets no answer, and then is full."""
    journal, orders = room / "journal", room / "orders"
    kept = HEADER + ended_orders(range(1, MOST_ORDERS), 2)
    journal.write_bytes(kept + b"B\x00\x00")
    orders.write_text(json.dumps([gtin_order(MOST_ORDERS, 5), gtin_order(MOST_ORDERS + 1, 5)]))
    replies = [f"reply {MOST_ORDERS} taken", f"reply {MOST_ORDERS} kept 3 Silent", f"reply {MOST_ORDERS + 1} full"]
    wanted = (0, b"C301\n0B9C\n" * 8, text_of(replies))
    told = differs("a drive that appends", wanted, run(program, ["drive", orders, journal], b"--\n" * 16))
    pairs = b"".join(bytes(it) for it in zip(range(0x03, 0x09), GTIN_BYTES))
    kept += b"B" + struct.pack(">Q", MOST_ORDERS) + b"\x00" * 8 + b"\x05\x06" + pairs + b"E\x03"
    return told or (None if journal.read_bytes() == kept else "a drive that appends: the journal is another one")


def test_drive_upgrades(program, room):
    """The largest journal of version 1 is written anew, with its moments of 0."""
    journal, orders = room / "journal", room / "orders"
    journal.write_bytes(ended_orders(range(1, MOST_ORDERS + 1), 1))
    orders.write_text("[]")
    told = differs("a journal written anew", (0, b"", b""), run(program, ["drive", orders, journal]))
    wanted = HEADER + ended_orders(range(1, MOST_ORDERS + 1), 2)
    return told or (None if journal.read_bytes() == wanted else "a journal written anew: it is another one")


def test_bank(program, _room):
    """The longest text of the longest bank."""
    rows = [f"{it['key']} unknown" for it in FIELDS]
    wanted = ["last FE", "indicator FF", "lock FF", *rows[:2], "format FFFF", *rows[2:]]
    given = LARGEST_BANK.hex(" ").encode().ljust(4096)
    return differs("a bank of 255 bytes", (0, text_of(wanted), b""), run(program, ["show", "-"], given))


def test_texts_of_banks(program, _room):
    """The limits of a bank's text and of its bytes: the order of the tests says which of the two is reported."""
    cases = [(b" " * 4096, 0, None), (b"0" * 510, 0, None), (b" " * 4097, 1, b"fault 13 TooBig\n"),
             (b"0" * 512, 1, b"fault 13 TooBig\n"), (b"g" * 4097, 1, b"fault 13 TooBig\n"), (b"0" * 513, 1, b"fault 14 Hex\n")]
    for given, status, line in cases:
        ended = run(program, ["show", "-"], given)
        if ended[0] != status or line not in (None, ended[1]):
            return f"a bank's text of {len(given)} bytes: {ended[:2]}"
    return None


def main(program):
    """Run all, tell what failed, and return the status."""
    told = []
    for name, test in list(globals().items()):
        if name.startswith("test_"):
            with tempfile.TemporaryDirectory() as room:
                told.append(test(program, pathlib.Path(room)))
    failed = [it for it in told if it]
    for it in failed:
        print(f"FAILED: {it}")
    print(f"{len(told) - len(failed)} passed, {len(failed)} failed")
    return len(failed) > 0


if __name__ == "__main__":
    sys.exit(main(pathlib.Path(sys.argv[1]).resolve()))
