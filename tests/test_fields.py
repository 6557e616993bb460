#!/usr/bin/env python3
"""Test the table of fields: that the program prints tools/fields.json, that docs/FIELDS.md says the same, how each
field is written and shown, and that the JSON Schema which is made of the table refuses only what `check` refuses.

    test_fields.py [PROGRAM [FOLDER]]

PROGRAM and FOLDER are as of test_drive.py. The schema is tried by Debian's python3-jsonschema; where that is missing a line
says so that begins with `skipped`. The last line is `N passed, M failed`, and the status is 0 only where none failed.
"""

import importlib.util
import json
import random
import re
import subprocess
import sys
import unittest

sys.dont_write_bytecode = True

import beside  # noqa: E402
import fuzz_inputs  # noqa: E402
from base import BenchTest, settings  # noqa: E402
from cases import case_of  # noqa: E402
from driven import FIELDS, ROOT, simulated_link  # noqa: E402
from read_plan import bytes_of  # noqa: E402

TABLE = ROOT / "tools" / "fields.json"
SCHEMA = ROOT / "examples" / "orders.schema.json"
ORDERS = 1000
# The order of all fields, and its bytes by location, which the case `full` has, each written there by hand.
FULL = json.loads((ROOT / "examples" / "full.json").read_text(encoding="utf-8"))[0]
FULL_BYTES = {int(location, 16): int(byte, 16) for location, byte in
              re.findall("^([0-9A-F]{2}) ([0-9A-F]{2})$", case_of("full").wanted.decode(), re.MULTILINE)}
# The rows of `show` that are no fields: where each begins, its bytes, and its word; and how a value of each form is shown.
OWN_ROWS = [(0x00, 1, "last"), (0x01, 1, "indicator"), (0x02, 1, "lock"), (0x11, 2, "format")]
SHOWN = {"gtin": "{:0>14}", "identification": "{}", "number": "{}", "text": "text {}"}
# A row of the table of docs/FIELDS.md: a field, what it tells, where it begins, its bytes, and what it takes.
ROW = re.compile(r"\| `(\w+)` \| ([^|]+) \| ([0-9A-F]{2})h \| (\d+) \| ([^|]+) \|")
TAKEN = {"gtin": "the digits of a GTIN", "identification": "16 hexadecimal digits", "number": "{} to {}",
         "text": "a text of {} to {} characters"}
# Spellings of numbers that Python takes for whole ones, and `check` doesn't.
SPELLED = [b"1.0", b"1e0", b"10E-1", b"-0"]
CROSSED = {"min_voltage": 240, "max_voltage": 239}


def run(words, given=b""):
    """Run the program on words, and give how it ended."""
    return subprocess.run([settings["program"], *words], input=given, capture_output=True, timeout=60)


def schema():
    """Give the schema."""
    return json.loads(SCHEMA.read_text(encoding="utf-8"))


def validator():
    """Make what judges by the schema."""
    if importlib.util.find_spec("jsonschema") is None:
        raise unittest.SkipTest("jsonschema isn't installed (Debian: python3-jsonschema)")
    import jsonschema

    jsonschema.Draft202012Validator.check_schema(schema())
    return jsonschema.Draft202012Validator(schema())


def order_text(rng):
    """Give the text of a file of one order, made by chance."""
    order = fuzz_inputs.order(rng)
    if rng.random() < 0.02 and isinstance(order, dict):
        order = {**order, **CROSSED}
    text = json.dumps([order]).encode()
    if rng.random() < 0.2:
        text = re.sub(b": [0-9]+(?=[,}])", b": " + rng.choice(SPELLED), text, count=1)
    return text.replace(b'"}', b'\\n"}') if rng.random() < 0.05 else text


def why_only_checked(text, fault):
    """Give why `check` refuses a text, with this fault, that the schema takes, or None where that is no reason."""
    order = json.loads(text)[0]
    if fault == "4 Gtin":
        return "a check digit"
    if fault == "7 Voltage":
        return "the minimum voltage over the maximum"
    if fault in ("2 Kind", "9 Shape") and (b"." in text or re.search(b"[0-9][eE]|-0", text)):
        return "a number with a fraction, an exponent or a sign"
    if fault == "5 Text" and any(str(value).endswith("\n") for value in order.values()):
        return "a line feed at the end, which Python's patterns let through"
    return None


class FieldsTest(BenchTest):
    """The table, and what is made of it."""

    def test_program_prints_the_table(self):
        ended = run(["fields"])
        self.assertEqual((ended.returncode, ended.stdout, ended.stderr), (0, TABLE.read_bytes(), b""))
        with open("/dev/full", "wb") as full:
            ended = subprocess.run([settings["program"], "fields"], stdout=full, stderr=subprocess.PIPE, timeout=60)
        self.assertEqual((ended.returncode, ended.stderr), (2, b"error: the output can't be written: no storage space\n"))

    def test_book_says_the_same(self):
        rows = ROW.findall((ROOT / "docs" / "FIELDS.md").read_text(encoding="utf-8"))
        wanted = []
        for it in FIELDS:
            name = "".join(word.capitalize() for word in it["key"].split("_"))
            unit = f", {it['unit']}" if it["unit"] else ""
            wanted.append((name, it["help"] + unit, f"{it['first']:02X}", str(it["bytes"]),
                           TAKEN[it["form"]].format(it["least"], it["most"])))
        self.assertEqual([(*row[:4], row[4].removesuffix(" (*profile*)")) for row in rows], wanted)

    def test_unknown_is_written_so(self):
        for it in FIELDS:
            ended = run(["check", "-"], json.dumps([{"order": 1, "unit": 5, it["key"]: None}]).encode())
            rows = [f"{it['first'] + at:02X} FF" for at in range(it["bytes"])]
            wanted = [f"item 1 order 1 unit 5 bytes {it['bytes']}", *rows, "accepted 1 refused 0"]
            self.assertEqual((it["unknown"], ended.stdout.decode().splitlines()), ("FF" * it["bytes"], wanted))

    def test_ranges_are_those_of_check(self):
        for it in (it for it in FIELDS if it["least"] is not None):
            for size, is_taken in ((it["least"] - 1, False), (it["least"], True), (it["most"], True),
                                   (it["most"] + 1, False)):
                value = size if it["form"] == "number" else size * "A"
                ended = run(["check", "-"], json.dumps([{"order": 1, "unit": 5, it["key"]: value}]).encode())
                self.assertEqual((it["key"], value, ended.returncode), (it["key"], value, 0 if is_taken else 1))


def full_bank():
    """Give the bank of a unit, blank before, that has the order of all fields."""
    return bytes(FULL_BYTES.get(at, byte) for at, byte in enumerate(simulated_link.BLANK_BANK_1))


def shown(bank):
    """Give the lines of `show` on the bytes of a bank."""
    ended = run(["show", "-"], f"{bank.hex()}\n".encode())
    assert (ended.returncode, ended.stderr) == (0, b""), ended
    return ended.stdout.decode().splitlines()


def bytes_of_no_value(field):
    """Give bytes of a field that spell none of its values, and aren't unknown."""
    if field["form"] == "text":
        return [it.ljust(field["bytes"], b"\0") for it in (b"", b"\0x", b"x\0x", b"x\x1f", b"x\x7f")]
    numbers = {"gtin": [1], "identification": [], "number": [(field["least"] or 0) - 1, (field["most"] or 0) + 1]}
    return [it.to_bytes(field["bytes"], "big") for it in numbers[field["form"]] if 0 <= it < 256 ** field["bytes"] - 1]


class FullTest(BenchTest):
    """An order of all fields, and a bank that has it."""

    def test_it_has_all_fields(self):
        self.assertEqual(list(FULL), ["order", "unit", *(it["key"] for it in FIELDS)])

    def test_encoder_of_the_tests_gives_its_bytes(self):
        self.assertEqual(bytes_of(FULL), FULL_BYTES)

    def test_run_writes_it(self):
        scenario = {"limit": 1, "units": [{"address": 5}], "events": [{"submit": FULL}, {"steps": 2000}]}
        ended = run(["run", "-"], json.dumps(scenario).encode())
        count = len(FULL_BYTES)
        # The frames of an order over the format: 21 look, and 14 for each byte and 21 follow (docs/SESSIONS.md).
        self.assertEqual(ended.stdout.decode().splitlines()[:10], [
            "ask 1", "reply 1 taken", f"keep B order 1 unit 5 at 0 bytes {count}", "frames 21", "keep O unit 5",
            f"frames {14 * count + 21}", "keep E 0 Done", "reply 1 kept 0 Done", f"total {14 * count + 42}",
            f"journal {4 + 23 + 2 * count}"])
        bank = subprocess.run([ROOT / "scripts" / "bank_of_run", "5"], input=ended.stdout, stdout=subprocess.PIPE,
                              check=True, timeout=60).stdout
        self.assertEqual(bytes.fromhex(bank.decode()), full_bank())

    def test_show_tells_it(self):
        """Of each number of its bytes: a row that they end before is absent."""
        bank = full_bank()
        rows = [(at, size, word, bank[at:at + size].hex().upper()) for at, size, word in OWN_ROWS]
        rows += [(it["first"], it["bytes"], it["key"], SHOWN[it["form"]].format(FULL[it["key"]])) for it in FIELDS]
        for length in range(len(bank) + 1):
            wanted = [f"{word} {text if at + size <= length else 'absent'}" for at, size, word, text in sorted(rows)]
            self.assertEqual((length, shown(bank[:length])), (length, wanted))

    def test_show_tells_bytes_of_no_value(self):
        for it in FIELDS:
            for held in bytes_of_no_value(it):
                bank = bytearray(full_bank())
                bank[it["first"]:it["first"] + it["bytes"]] = held
                line = f"{it['key']} raw {held.hex().upper()}"
                self.assertEqual(set(shown(bank)) - set(shown(full_bank())), {line})


class SchemaTest(BenchTest):
    """The JSON Schema of a file of orders."""

    def test_schema_is_made_of_the_table(self):
        made = subprocess.check_output([ROOT / "scripts" / "orders_schema"], timeout=60)
        self.assertEqual(made, SCHEMA.read_bytes())

    def test_schema_has_each_key(self):
        self.assertEqual(list(schema()["items"]["properties"]), list(FULL))

    def test_schema_takes_the_examples(self):
        judge, taken = validator(), []
        for path in sorted((ROOT / "examples").glob("*.json")):
            if run(["check", path]).returncode == 0:
                judge.validate(json.loads(path.read_text(encoding="utf-8-sig")))
                taken.append(path.stem)
        assert {"gtin", "full", "lengths"} <= set(taken), taken

    def test_schema_refuses_what_check_refuses(self):
        judge, rng, ends, reasons = validator(), random.Random(1), {}, set()
        for _ in range(ORDERS):
            text = order_text(rng)
            told = run(["check", "-"], text).stdout.decode().splitlines()[0]
            fault = told.partition("fault ")[2]
            is_valid = judge.is_valid(json.loads(text))
            ends[is_valid, not fault] = ends.get((is_valid, not fault), 0) + 1
            self.assertEqual((text, is_valid or bool(fault)), (text, True))
            if is_valid and fault:
                reason = why_only_checked(text, fault)
                self.assertNotEqual((text, fault, reason), (text, fault, None))
                reasons.add(reason)
        assert len(reasons) == 4 and min(ends.get((it, it), 0) for it in (True, False)) > ORDERS // 10, (reasons, ends)


if __name__ == "__main__":
    sys.exit(beside.main(__doc__, ["test_fields"], sys.argv[1:]))
