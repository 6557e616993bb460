#!/usr/bin/env python3
"""Test what a built dali_bench says on standard error of common mistakes, and that its answer never hangs on that.

    test_notes.py PROGRAM

The last line is `N passed, M failed`, and the status is 0 only where none failed.
"""

import os
import pty
import subprocess
import sys
import tempfile

sys.dont_write_bytecode = True

from driven import FIELDS  # noqa: E402

WHOLE = "a whole number from 0 to 18446744073709551615"
SHORT = "a whole number from 0 to 63"
GTIN = "a string of 8, 12, 13 or 14 digits, the last its check digit, or null"
IDENTIFICATION = "a string of 16 hexadecimal digits, or null"
WATTS = "a whole number of watts from 0 to 65534, or null"
VOLTS = "a whole number of volts from 0 to 65534, or null"
COLOUR = "a string of 1 to 24 characters, each from space to ~ in ASCII, or null"
LUMENS = "a whole number of lumens from 0 to 16777214, or null"
MOST = next(it["most"] for it in FIELDS if it["key"] == "luminaire")
LUMINAIRE = f"a string of 1 to {MOST} characters, each from space to ~ in ASCII, or null"
# The words before the range of a number, by its unit.
UNITS = {None: "", "W": " of watts", "V": " of volts", "lm": " of lumens", "K": " of kelvins"}
MISSING = "No such file or directory (os error 2)"
LEFT_OUT = "more is left out: these are the first 1000 lines"
# An item whose line on standard error is long.
LONG = '{"order": 1, "unit": 5, "luminaire": "' + (MOST + 1) * "x" + '"}'
JSON = "here the input is no JSON any more, or nests too deep"
COMMENT = "here a comment begins, and JSON has none"
COMMA = "the comma before this bracket is one too many"
LINES = "here a second value follows, as in JSON lines, and the input has to be one: orders stand in one array"
SEMICOLON = "order;unit;gtin\n1;5;4006381333931\n"
A_JOURNAL = "the input is a journal, which `journal` takes"
A_BANK = "the input is hexadecimal digits, as the text of a bank, which `show` takes"
AN_ARRAY = "the input is an array of JSON, as orders are, which `check` takes"
AN_OBJECT = "the input is an object of JSON, as a scenario is, which `run` takes"
NO_BANK = "and the bytes of a bank are hexadecimal digits"
# The last line on a wrong input of `show` or `journal`.
REFUSES = "error: the input is refused: standard input"
# A journal of version 2 with one record, that order 1 of unit 5 begins with one update, and one of version 1.
BEGAN = bytes.fromhex("42 0000000000000001 0000000000000000 05 01 13 18")
OLD_BEGAN = bytes.fromhex("42 0000000000000001 05 01 13 18")
HEADER = b"DB1\x02"
NO_HEADER = "the input begins with 44h, as a journal of version 2 does, and not with the whole header 44 42 31 02"
NO_RECORD = "here is neither a record (B, O, E or C, and what belongs to it) nor, at the end, a part of one"
MAY_NOT_FOLLOW = ("a record that may not follow: an order begins (B), its unit is opened (O), it ends (E), and a left"
                  " unit is closed (C)")
YEAR = "a whole number from 0 to 99, or null"
DROPPED = ", and a spreadsheet may have dropped leading zeros"
NO_ARTICLE = "gtin: all of its digits are zeros, which is no article's number"
AGAIN = "the key stands there more than once, and the last one counts"
A_TABLE = "the input is a table, as CSV, and has to be JSON: make orders of it by orders_from_csv"
A_WORKBOOK = ("the input is a workbook of a spreadsheet, and has to be JSON: save its sheet as CSV in UTF-8, and make"
              " orders of it by orders_from_csv")
CURLY = "here stands a curly quote, as of a word processor, and JSON has straight double quotes alone"
NO_NUMBER = "here stands a number that is none, as NaN, and JSON has none such: null writes a field as unknown"
PYTHON = "here stands a word of Python, as None, and JSON has null, true and false"
ADDRESS = "and a short address is 0 to 63"
# Two refused orders with two mistakes each, and a sound one between them; and the lines on each.
REFUSED = (b'[{"order": 7, "unit": 5, "yeer": 1, "week": 54}, {"order": 8, "unit": 5, "year": 1},'
           b' {"order": 18446744073709551615, "unit": 64, "year": 100}]')
REFUSED_FIRST = [
    "item 1 order 7: yeer: no such key (year?)",
    "item 1 order 7: week: the number 54, and it is a whole number from 1 to 53, or null",
]
REFUSED_THIRD = [
    f"item 3 order 18446744073709551615: unit: the number 64, {ADDRESS}",
    f"item 3 order 18446744073709551615: year: the number 100, and it is {YEAR}",
]

# Mistakes in one item: its text after its number 6 and its unit 5, and the lines without their `item 1 order 6: `.
ITEMS = [
    ('"gtin": 4006381333931', [f"gtin: the number 4006381333931, and it is {GTIN}"]),
    # (GS1: after 400638133393 the check digit is 1, and after 40063813339 it is 0)
    ('"gtin": "4006381333932"', [
        f'gtin: the text "4006381333932", and it is {GTIN}; its check digit is 2, and would be 1',
    ]),
    ('"gtin": "04006381333930"', [
        f'gtin: the text "04006381333930", and it is {GTIN}; its check digit is 0, and would be 1',
    ]),
    ('"gtin": "400638133393"', [
        f'gtin: the text "400638133393", and it is {GTIN}; its check digit is 3, and would be 0',
    ]),
    ('"gtin": "12345678"', [f'gtin: the text "12345678", and it is {GTIN}; its check digit is 8, and would be 0']),
    ('"gtin": "40063813339"', [f'gtin: the text "40063813339", and it is {GTIN}; it has 11 digits{DROPPED}']),
    ('"gtin": "7"', [f'gtin: the text "7", and it is {GTIN}; it has 1 digits{DROPPED}']),
    ('"gtin": "400638133393100"', [f'gtin: the text "400638133393100", and it is {GTIN}; it has 15 digits']),
    ('"gtin": ""', [f'gtin: the text "", and it is {GTIN}; it has 0 digits']),
    ('"gtin": "4006381-33393"', [f'gtin: the text "4006381-33393", and it is {GTIN}; its character 8 is "-"']),
    ('"gtin": "400638133393\u00b9"', [
        f'gtin: the text "400638133393\\u{{b9}}", and it is {GTIN}; its character 13 is "\\u{{b9}}"',
    ]),
    ('"gtin": "400638133393\\n"', [
        f'gtin: the text "400638133393\\u{{a}}", and it is {GTIN}; its character 13 is "\\u{{a}}"',
    ]),
    ('"gtin": true', [f"gtin: true, and it is {GTIN}"]),
    ('"gtim": "4006381333931"', ["gtim: no such key (gtin?)"]),
    ('"GTIN": "4006381333931"', ["GTIN: no such key (gtin?)"]),
    ('"Gtim": "4006381333931"', ["Gtim: no such key (gtin?)"]),
    ('"InputPower": 5', ["InputPower: no such key (input_power?)"]),
    ('"Input_Power": 5', ["Input_Power: no such key (input_power?)"]),
    ('"ORDER": 5', ["ORDER: no such key (order?)"]),
    ('"": 5', ['"": no such key']),
    ('"gtin ": "4006381333931"', ['"gtin ": no such key (gtin?)']),
    ('"gitn": "4006381333931"', ["gitn: no such key (gtin?)"]),
    ('"color": "RAL 9016"', ["color: no such key (colour?)"]),
    ('"weeks": 5', ["weeks: no such key (week?)"]),
    ('"input_powe": 5', ["input_powe: no such key (input_power?)"]),
    ('"a\\nitem 2 order 7: b": 1', ['"a\\u{a}item 2 order 7: b": no such key']),
    ('"\\u001b[31m": 1', ["\\u{1b}[31m: no such key"]),
    ('"identification": "0011223344556"', [
        f'identification: the text "0011223344556", and it is {IDENTIFICATION}; it has 13 digits',
    ]),
    ('"identification": "0x112233445566"', [
        f'identification: the text "0x112233445566", and it is {IDENTIFICATION}; its character 2 is "x"',
    ]),
    ('"year": 2024', [f"year: the number 2024, and it is {YEAR}; two digits: 24"]),
    ('"year": "24"', [f'year: the text "24", and it is {YEAR}']),
    ('"year": 24.5', [f"year: the number 24.5, and it is {YEAR}"]),
    ('"week": 0', ["week: the number 0, and it is a whole number from 1 to 53, or null"]),
    ('"week": 54', ["week: the number 54, and it is a whole number from 1 to 53, or null"]),
    ('"input_power": 65535', [f"input_power: the number 65535, and it is {WATTS}"]),
    ('"min_dim_power": -1', [f"min_dim_power: the number -1, and it is {WATTS}"]),
    ('"min_voltage": [220]', [f"min_voltage: an array, and it is {VOLTS}"]),
    ('"max_voltage": {"volts": 240}', [f"max_voltage: an object, and it is {VOLTS}"]),
    ('"min_voltage": 241, "max_voltage": 240', [
        "min_voltage: the number 241, which is over max_voltage: the number 240",
    ]),
    ('"light_output": 16777215', [f"light_output: the number 16777215, and it is {LUMENS}"]),
    ('"cri": 101', ["cri: the number 101, and it is a whole number from 0 to 100, or null"]),
    ('"cct": 65534', ["cct: the number 65534, and it is a whole number of kelvins from 0 to 65533, or null"]),
    ('"distribution": 255', ["distribution: the number 255, and it is a whole number from 0 to 254, or null"]),
    ('"colour": ""', [f'colour: the text "", and it is {COLOUR}']),
    ('"colour": "wei\u00df"', [f'colour: the text "wei\\u{{df}}", and it is {COLOUR}; its character 4 is "\\u{{df}}"']),
    ('"colour": "' + 30 * "x" + '"', [
        f'colour: the text "{30 * "x"}", and it is {COLOUR}; it has 30 characters, 6 too many',
    ]),
    ('"colour": 9016', [f"colour: the number 9016, and it is {COLOUR}"]),
    ('"luminaire": "' + (MOST + 1) * "x" + '"', [
        f'luminaire: the text "{40 * "x"}...", and it is {LUMINAIRE}; it has {MOST + 1} characters, 1 too many',
    ]),
    ('"luminaire": "a\\u0000b"', [
        f'luminaire: the text "a\\u{{0}}b", and it is {LUMINAIRE}; its character 2 is "\\u{{0}}"',
    ]),
    ('"luminaire": "' + 40 * "x" + (MOST - 30) * "\u00fc" + '"', [
        f'luminaire: the text "{40 * "x"}...", and it is {LUMINAIRE};'
        f' its character 41 is "\\u{{fc}}"; it has {MOST + 10} characters, 10 too many',
    ]),
    ('"year": 100, "week": 54, "yaer": 1', [
        "yaer: no such key (year?)",
        f"year: the number 100, and it is {YEAR}",
        "week: the number 54, and it is a whole number from 1 to 53, or null",
    ]),
]

# The same of an item that is accepted: what is odd about it.
ODD_ITEMS = [
    ('"gtin": "00000000"', [NO_ARTICLE]),
    ('"gtin": "00000000000000", "year": 7', [NO_ARTICLE]),
    ('"gtin": null', []),
    ('"gtin": "96385074"', []),
    ('"year": 7, "colour": "a", "year": 8', [f"year: {AGAIN}"]),
    ('"gtin": null, "year": 7, "unit": 5, "gtin": "00000000", "order": 6, "gtin": "00000000"',
     [f"gtin: {AGAIN}", f"order: {AGAIN}", f"unit: {AGAIN}", NO_ARTICLE]),
]

# Other mistakes: a command, its input, and the lines on standard error.
INPUTS = [
    ("check", b'[{"order": 1, "unit": 5}]', [
        "item 1 order 1: no field is given, and an order has one at least, as gtin or year",
    ]),
    ("check", b'[{"order": 1, "unit": 64, "year": 1}]', [f"item 1 order 1: unit: the number 64, {ADDRESS}"]),
    ("check", REFUSED, [*REFUSED_FIRST, *REFUSED_THIRD]),
    ("check", b'[{"order": 6, "unit": 5, "yeer": 1}, {"order": 7, "unit": 5, "colours": 1}]', [
        "item 1 order 6: yeer: no such key (year?)",
        "item 2 order 7: colours: no such key (colour?)",
    ]),
    ("check", b'[{"order": "1", "unit": 5, "year": 1}]', [f'item 1: order: the text "1", and it is {WHOLE}']),
    ("check", b'[{"unit": 5, "year": 1}, 7]', [
        f"item 1: order: missing, and it is {WHOLE}",
        "item 2: the number 7, and an order is an object with order, unit and fields",
    ]),
    ("check", b'[{"order": 1, "unit": "5", "year": 1}, {"order": 2, "unit": -1, "year": 1}, {"order": 3, "year": 1}]', [
        f'item 1 order 1: unit: the text "5", and it is {SHORT}',
        f"item 2 order 2: unit: the number -1, and it is {SHORT}",
        f"item 3 order 3: unit: missing, and it is {SHORT}",
    ]),
    ("check", b'{"order": 1, "unit": 5, "year": 1}', [
        "the input is one order, and orders are an array: it stands between [ and ]",
    ]),
    ("check", b'{"orders": []}', ["the input is an object, and orders are an array"]),
    ("check", b'{"limit": 1, "units": [], "events": []}', [
        "the input is an object with events, which `run` takes, and orders are an array",
    ]),
    ("check", b'', ["the input is empty, and has to be JSON"]),
    ("check", b'[{"order": 1,}]', [f"line 1 column 14: {COMMA}"]),
    ("run", b'{"limit": 1, "units": [\n  {"address": 5},\n ],\n "events": []}', [f"line 3 column 2: {COMMA}"]),
    ("check", b'[\n{"order": 1 "unit": 5}\n]', [f"line 2 column 13: {JSON}"]),
    ("check", '[{"colour": "\u00fc\u20ac\U0001f4a1" 1}]'.encode(), [f"line 1 column 19: {JSON}"]),
    ("check", b'[{"order": 1, "unit": 5}', ["line 1 column 25: the input ends before its JSON does"]),
    ("check", b'[{"order": 1}, // the first\n {"order": 2}]', [f"line 1 column 16: {COMMENT}"]),
    ("check", b'/* orders */ []', [f"line 1 column 1: {COMMENT}"]),
    ("check", b'[\n# the first\n]', [f"line 2 column 1: {COMMENT}"]),
    ("check", b"[{'order': 1}]", ["line 1 column 3: here stands a single quote, and JSON has double quotes alone"]),
    ("check", b'{"order": 1, "unit": 5}\n{"order": 2, "unit": 5}\n', [f"line 2 column 1: {LINES}"]),
    ("check", b'{"order": 1, "unit": 5},\n{"order": 2, "unit": 5}\n', [f"line 2 column 1: {LINES}"]),
    ("check", b'[{"order": 1, "unit": 5}]\n ]', ["line 2 column 2: here the input goes on behind its JSON"]),
    ("check", "[{\"colour\": \"wei\u00df\"}]".encode("latin-1"), [
        "line 1 column 17: the byte DFh is a letter in Latin-1, and the input has to be in UTF-8",
    ]),
    ("run", b'{\n"limit\x81": 1}', ["line 2 column 7: the byte 81h is no UTF-8 here, which the input has to be in"]),
    ("check", SEMICOLON.encode(), [A_TABLE]),
    ("check", b"\xef\xbb\xbf" + SEMICOLON.encode(), [A_TABLE]),
    ("check", b"order,unit,year\r\n1,5,24\r\n", [A_TABLE]),
    ("check", b"order\tunit\n1\t5\n", [A_TABLE]),
    ("run", SEMICOLON.encode(), ["the input is a table, as CSV, and has to be JSON"]),
    ("check", b"PK\x03\x04\x14\0,\0\n", [A_WORKBOOK]),
    ("check", b"\xd0\xcf\x11\xe0\xa1\xb1", [A_WORKBOOK]),
    ("check", b'<?xml version="1.0"?>\n<a>1,2</a>\n', ["the input is XML, and has to be JSON"]),
    ("check", b"\xef\xbb\xbf\r\n <orders>", ["the input is XML or HTML, and has to be JSON"]),
    ("check", b"<!DOCTYPE html>\n<html>", ["the input is HTML, as of a page on the web, and has to be JSON"]),
    ("run", b"<HTML>", ["the input is HTML, as of a page on the web, and has to be JSON"]),
    ("check", b'[{"order": 1, "unit": 5, "year": NaN}]', [f"line 1 column 34: {NO_NUMBER}"]),
    ("check", b'[{"order": 1, "unit": 5, "year": -Infinity}]', [f"line 1 column 34: {NO_NUMBER}"]),
    ("check", b'[{"order": 1, "unit": 5, "year": None}]', [f"line 1 column 34: {PYTHON}"]),
    ("check", b'[True]', [f"line 1 column 2: {PYTHON}"]),
    ("check", '[{\u201corder\u201d: 1}]'.encode(), [f"line 1 column 3: {CURLY}"]),
    ("check", '[{"order": 1, "unit": 5, "colour": \u00abred\u00bb}]'.encode(), [f"line 1 column 36: {CURLY}"]),
    ("check", b'[{"order": 1, "unit": 5, "year": 2024}]',
     [f"item 1 order 1: year: the number 2024, and it is {YEAR}; two digits: 24"]),
    ("check", b'[{"order": 1, "unit": 5, "year": 2007, "year": 1900}]',
     [f"item 1 order 1: year: {AGAIN}", f"item 1 order 1: year: the number 1900, and it is {YEAR}; two digits: 00"]),
    ("check", HEADER + BEGAN, [f"{A_JOURNAL}, and has to be JSON"]),
    ("check", HEADER, [f"{A_JOURNAL}, and has to be JSON"]),
    ("run", OLD_BEGAN, [f"{A_JOURNAL}, and has to be JSON"]),
    ("check", b"77 FF FF 03\n", [f"{A_BANK}, and has to be JSON"]),
    ("check", b" " * 16777217, ["the input has more than 16777216 bytes, the most that it may have"]),
    ("check", b"\xef\xbb\xbf[]", ["the input begins with a byte order mark, and has to be UTF-8 without one"]),
    ("check", b"\xff\xfe[\0]\0", ["the input is in UTF-16, and has to be in UTF-8"]),
    ("check", b'[{"order": 1, "unit": 5, "year": 1}, {"order": 1, "unit": 6, "year": 1}]', [
        "item 2 order 1: the number of item 1, which is another order: behind that one it is told as reused",
    ]),
    ("run", b"[]", ["the input is an array: orders are for `check` and `drive`, and a scenario is an object"]),
    ("run", b'{"limit": 1, "units": [{"adress": 5}], "events": []}', [
        "units[0].adress: no such key (address?)",
        f"units[0].address: missing, and it is {SHORT}",
    ]),
    ("run", b'{"limit": 1, "units": [], "": 1, "events": []}', ['"": no such key']),
    ("run", b'{"units": [{"address": 256, "fixed": [3, -1]}], "Events": []}', [
        "Events: no such key (events?)",
        "limit: missing, and it is a whole number from 1 to 100000",
        "events: missing, and it is an array",
        f"units[0].address: the number 256, and it is {SHORT}",
        "units[0].fixed: an array, and it is an array of whole numbers from 3 to 254",
    ]),
    ("run", b'{"limit": 1, "units": [], "fates": [{"times": 20000}, {"times": 1}], "events": []}', [
        "the scenario is over 20000 events or fates, each `steps` and each fate counted as often as it stands for",
    ]),
    ("run", b'{"limit": 1, "units": [], "events": [{"steps": 1}, {"steps": 0}]}', [
        "events[1].steps: the number 0, and it is a whole number from 1 to 20000",
    ]),
    ("run", b'{"limit": 1, "units": [], "event": []}', [
        "event: no such key (events?)",
        "events: missing, and it is an array",
    ]),
    ("run", b'{"limit": 1, "units": [], "events": [{"stop": 1, "steps": 1}]}', [
        "events[0]: an event has one of submit, steps, stop and power, and this one has 2",
    ]),
    ("run", b'{"limit": 1, "units": [], "events": [{"power": 64}]}', [
        "events[0].power: the number 64, and it is a whole number from 0 to 63",
    ]),
    ("run", b'{"limit": 1, "units": [], "fates": [{"lost": [64], "refuse": 1}], "events": []}', [
        "fates[0].lost: an array, and it is an array of whole numbers from 0 to 63",
        "fates[0].refuse: the number 1, and it is true or false",
    ]),
    ("run", b'{"limit": 1, "units": [{"address": 5, "bank": "7 7"}], "events": []}', [
        'units[0].bank: the text "7 7", and it is a string of 34 to 510 hexadecimal digits, two for each byte',
    ]),
    ("run", b'{"limit": 1, "units": [{"address": 5, "dtr": [1, 2]}], "events": []}', [
        "units[0].dtr: an array, and it is an array of three whole numbers from 0 to 255",
    ]),
    ("run", b'{"limit": 0, "units": [], "events": []}', ["limit: a journal has from 1 to 100000 orders"]),
    ("run", b'{"limit": 1, "units": [{"address": 64}], "events": []}', [
        f"unit 1: address: the number 64, {ADDRESS}",
    ]),
    ("run", b'{"limit": 1, "units": [{"address": 5, "bank": "77"}], "events": []}', [
        "unit 1: bank: 1 bytes, and it has 17 to 255, the first of which is the last location",
    ]),
    ("run", b'{"limit": 1, "units": [{"address": 5, "fixed": [5, 4]}], "events": []}', [
        "unit 1: fixed: the locations rise, from 03h to the last of the bank",
    ]),
    ("run", b'{"limit": 1, "units": [{"address": 5}, {"address": 5}], "events": []}', [
        "units: two have the short address 5",
    ]),
    ("run", b'{"limit": 1, "units": [], "events": [{"steps": 1}, {"submit": {"order": 1, "unit": 5, "yeer": 1}}]}', [
        "event 2 order 1: yeer: no such key (year?)",
    ]),
    ("run", b'{"limit": 1, "units": [], "events": [{"submit": {"order": 7, "unit": 5, "year": 1}},'
            b' {"submit": {"order": 9, "unit": 64, "yeer": 1}}]}', [
        "event 2 order 9: yeer: no such key (year?)",
        f"event 2 order 9: unit: the number 64, {ADDRESS}",
    ]),
    ("show", b"77 FF\nF8 0G\n", ['line 2 column 5: the character "G" is no hexadecimal digit', REFUSES]),
    ("show", b"0x77", ['line 1 column 2: the character "x" is no hexadecimal digit', REFUSES]),
    ("show", b"77, FF", ['line 1 column 3: the character "," is no hexadecimal digit', REFUSES]),
    ("show", b"77 \xc3\xbc", ["line 1 column 4: the byte C3h is no hexadecimal digit", REFUSES]),
    ("show", b"77 FF F", ["the input has 5 hexadecimal digits, and each byte has two", REFUSES]),
    ("show", 256 * b"FF ", ["the input has 256 bytes, 1 too many: a bank has at most 255", REFUSES]),
    ("show", 4097 * b" ", ["the input has more than 4096 bytes, the most that it may have", REFUSES]),
    ("show", b'[{"order": 1}]', [f"{AN_ARRAY}, {NO_BANK}", REFUSES]),
    ("show", b'\n{"limit": 1}', [f"{AN_OBJECT}, {NO_BANK}", REFUSES]),
    ("show", HEADER + BEGAN, [f"{A_JOURNAL}, {NO_BANK}", REFUSES]),
    ("show", b"77", []),
    ("journal", b'[{"order": 1}]', [f"{AN_ARRAY}, and no journal", REFUSES]),
    ("journal", b'{"limit": 1}', [f"{AN_OBJECT}, and no journal", REFUSES]),
    ("journal", b"77 FF", [f"{A_BANK}, and no journal", REFUSES]),
    ("journal", b"order,unit\n", ["the input is a table, as CSV, and no journal", REFUSES]),
    ("journal", b"DB1\x03", [NO_HEADER, REFUSES]),
    ("journal", b"DB1", [NO_HEADER, REFUSES]),
    ("journal", b"\0", [
        f"byte 0, counted from 0: {NO_RECORD}", REFUSES,
    ]),
    ("journal", HEADER + BEGAN + b"X", [
        f"byte 25, counted from 0: {NO_RECORD}", REFUSES,
    ]),
    ("journal", HEADER + BEGAN + b"C\x05", [
        f"byte 25, counted from 0: {MAY_NOT_FOLLOW}", REFUSES,
    ]),
    ("journal", HEADER + BEGAN + b"E\x03" + BEGAN, [
        "byte 27, counted from 0: an order begins whose number an earlier one has", REFUSES,
    ]),
    ("journal", 33554433 * b"B", ["the input has more than 33554432 bytes, the most that it may have", REFUSES]),
    ("journal", HEADER + BEGAN + b"E", []),
]

# Arguments of `frame` that are no word, and the message for each.
WORDS = [
    ("A30", "it has 3 hexadecimal digits, and a word is four"),
    ("A3030", "it has 5 hexadecimal digits, and a word is four"),
    ("", "it has 0 hexadecimal digits, and a word is four"),
    ("A3G3", 'its character 3 is "G", and a word is four hexadecimal digits'),
    ("+A30", 'its character 1 is "+", and a word is four hexadecimal digits'),
    ("A3 0", 'its character 3 is " ", and a word is four hexadecimal digits'),
]

# The line after a wrong moment, and the tip after an option that a command doesn't have.
A_MOMENT = "A moment is a whole number from 0 to 18446744073709551615, as the clock's seconds: --moment $(date +%s)"
HELP = "  tip: dali_bench {} --help tells what it takes"

# The line after a wrong unit of `read`.
A_UNIT = "UNIT, 0 to 63, comes first, then HEXFILE"

# Wrong command lines: their words, and lines of the message.
COMMAND_LINES = [
    (["drive", "--moment", "now", "o", "j"], ["error: invalid value 'now' for '--moment <M>': invalid digit found in"
                                              " string", A_MOMENT]),
    (["drive", "--moment=-1", "o", "j"], [A_MOMENT]),
    (["drive", "--moment", "-1", "o", "j"], ["error: unexpected argument '-1' found", HELP.format("drive"), A_MOMENT]),
    (["drive", "--moment", "2027-01-01", "o", "j"], [A_MOMENT]),
    (["drive", "--moment", "1.5", "o", "j"], [A_MOMENT]),
    (["drive", "--moment", "", "o", "j"], [A_MOMENT]),
    (["drive", "--moment", "18446744073709551616", "o", "j"], [A_MOMENT]),
    (["drive", "--follow", "--moment", "o", "j"], [A_MOMENT]),
    (["drive", "--moment"], [A_MOMENT]),
    (["drive", "--moment", "--follow", "o", "j"], [A_MOMENT]),
    (["check", "-q", "o"], ["error: unexpected argument '-q' found", HELP.format("check")]),
    (["check", "--json", "o"], ["error: unexpected argument '--json' found",
                                "  tip: a similar argument exists: '--journal'", HELP.format("check")]),
    (["check", "--updates", "o"], [HELP.format("check")]),
    (["drive", "-q", "o", "j"], [HELP.format("drive")]),
    (["verify", "-v", "o"], [HELP.format("verify")]),
    (["read", "-1", "b"], [HELP.format("read")]),
    (["read", "5", "-b"], [HELP.format("read")]),
    (["journal", "-u", "j"], [HELP.format("journal")]),
    (["journal", "--update", "j"], ["  tip: a similar argument exists: '--updates'", HELP.format("journal")]),
    (["run", "s", "--frame"], ["  tip: a similar argument exists: '--frames'", HELP.format("run")]),
    (["frame", "--json", "A303"], [HELP.format("frame")]),
    (["frame", "--json"], [HELP.format("frame")]),
    (["read", "r.hex", "5"], ["error: invalid value 'r.hex' for '<UNIT>': invalid digit found in string", A_UNIT]),
    (["read", "64", "r.hex"], [A_UNIT]),
    (["frame", "-303"], ["error: unexpected argument '-3' found", "  tip: to pass '-3' as a value, use '-- -3'"]),
]


def run(program, command, given, stderr=subprocess.PIPE):
    """Run a command on standard input, and give its end."""
    words = [program, command, "-"]
    return subprocess.run(words, input=given, stdout=subprocess.PIPE, stderr=stderr, timeout=60)


def above(field):
    """Give an item with a value one above a field's range, and its line."""
    key, least, most = field["key"], field["least"], field["most"]
    if field["form"] == "number":
        wanted = f"a whole number{UNITS[field['unit']]} from {least} to {most}, or null"
        return f'"{key}": {most + 1}', [f"{key}: the number {most + 1}, and it is {wanted}"]
    text = (most + 1) * "x"
    told = text if most < 40 else text[:40] + "..."
    wanted = f"a string of {least} to {most} characters, each from space to ~ in ASCII, or null"
    line = f'{key}: the text "{told}", and it is {wanted}; it has {most + 1} characters, 1 too many'
    return f'"{key}": "{text}"', [line]


def fails_on_lines(program):
    """Give what is wrong with the lines of each mistake, and how many mistakes there are."""
    rows = [*INPUTS]
    for item, lines in (*ITEMS, *(above(it) for it in FIELDS if it["most"]), *ODD_ITEMS):
        given = f'[{{"order": 6, "unit": 5, {item}}}]'.encode()
        rows.append(("check", given, [f"item 1 order 6: {it}" for it in lines]))
    for command, given, lines in rows:
        wanted = "".join(f"{it}\n" for it in lines)
        said = run(program, command, given).stderr.decode()
        yield None if said == wanted else f"{command} {given!r}: it says\n{said}and not\n{wanted}"


def fails_on_streams(program):
    """Give what differs where standard error is closed, full, unread, or read slowly."""
    given = b'[{"order": 1, "unit": 5, "yeer": 1}, {"order": 2, "unit": 5, "year": 1}]'
    whole = run(program, "check", given)
    words = ["sh", "-c", 'exec "$0" check - 2>&-', program]
    closed = subprocess.run(words, input=given, stdout=subprocess.PIPE, timeout=60)
    with open("/dev/full", "wb") as full:
        filled = run(program, "check", given, full)
    reads, writes = os.pipe()
    os.close(reads)
    broken = run(program, "check", given, writes)
    os.close(writes)
    for name, ended in (("closed", closed), ("full", filled), ("broken", broken)):
        same = (ended.returncode, ended.stdout) == (whole.returncode, whole.stdout)
        yield None if same else f"standard error {name}: {ended}"
    most = f"[{','.join(1000 * [LONG])}]".encode()
    slow = subprocess.run(["sh", "-c", '"$0" check - 2>&1 >"$1" | (sleep 1; wc -l)', program, os.devnull], input=most,
                          stdout=subprocess.PIPE, timeout=60)
    yield None if slow.stdout.split() == [b"1000"] else f"standard error read slowly: {slow}"


def at_a_terminal(words, given, is_output, is_error):
    """Run a command with a terminal for standard output, standard error or both. Give what each of the three got."""
    main, other = pty.openpty()
    output, error = (other if is_output else subprocess.PIPE), (other if is_error else subprocess.PIPE)
    running = subprocess.Popen(words, stdin=subprocess.PIPE, stdout=output, stderr=error)
    os.close(other)
    running.stdin.write(given)
    running.stdin.close()
    shown = b""
    while True:
        try:
            part = os.read(main, 65536)
        except OSError:  # Nobody writes there any more.
            break
        shown += part
    os.close(main)
    piped = [it.read().decode() if it else None for it in (running.stdout, running.stderr)]
    running.wait(60)
    return (*piped, shown.decode().replace("\r\n", "\n"))


def fails_at_a_terminal(program):
    """Give what is wrong where standard output and standard error, or one of both, are a terminal."""
    words, whole = [program, "check", "-"], run(program, "check", REFUSED)
    output, error = whole.stdout.decode(), whole.stderr.decode()
    lines = output.splitlines()
    second = lines.index("item 2 order 8 unit 5 bytes 1")
    third = lines.index("item 3 fault 1 Unit")
    both = [*lines[:second], *REFUSED_FIRST, *lines[second:third + 1], *REFUSED_THIRD, *lines[third + 1:]]
    for is_output, is_error, wanted in ((True, True, (None, None, "".join(line + "\n" for line in both))),
                                        (True, False, (None, error, output)), (False, True, (output, None, error))):
        found = at_a_terminal(words, REFUSED, is_output, is_error)
        yield None if found == wanted else f"at a terminal, {is_output} {is_error}: {found}"


def fails_on_many(program):
    """Give what is wrong if more than a thousand lines could be printed, of many items or of one."""
    told = "item {0}: the number 7, and an order is an object with order, unit and fields"
    items = run(program, "check", f"[{','.join(1002 * ['7'])}]".encode())
    wanted = [told.format(it) for it in range(1, 1001)] + [LEFT_OUT]
    yield None if items.stderr.decode().splitlines() == wanted else f"many items: {items.stderr[-200:]}"
    yield None if len(items.stdout.splitlines()) == 1003 else f"many items: {items.stdout[-200:]}"
    keys = ", ".join(f'"key{it:04}": 0' for it in range(1200))
    one = run(program, "check", f'[{{"order": 1, "unit": 5, {keys}}}]'.encode())
    wanted = [f"item 1 order 1: key{it:04}: no such key" for it in range(1000)] + [LEFT_OUT]
    yield None if one.stderr.decode().splitlines() == wanted else f"many keys: {one.stderr[-200:]}"


def fails_on_readers(program):
    """Give what is wrong where nobody reads the output any more, and where it can't be written."""
    many = f"[{','.join(20000 * ['7'])}]".encode()
    for command, given in (("check", many), ("--help", b"")):
        reads, writes = os.pipe()
        os.close(reads)
        ended = subprocess.run([program, command, *(["-"] if given else [])], input=given, stdout=writes,
                               stderr=subprocess.PIPE, timeout=60)
        os.close(writes)
        said = [it for it in ended.stderr.decode().splitlines() if not it.startswith(("item ", "more is left"))]
        yield None if (ended.returncode, said) == (2, []) else f"{command} with no reader: {ended.returncode} {said}"
    with open("/dev/full", "wb") as full:
        ended = subprocess.run([program, "check", "-"], input=b"[]", stdout=full, stderr=subprocess.PIPE, timeout=60)
    wanted = (2, "error: the output can't be written: no storage space\n")
    yield None if (ended.returncode, ended.stderr.decode()) == wanted else f"a full output: {ended}"


def fails_on_words(program):
    """Give what is wrong with the messages for words that the command line doesn't take."""
    for word, told in WORDS:
        ended = subprocess.run([program, "frame", "--", word], capture_output=True, timeout=60)
        wanted = (1, b"fault 14 Hex\n", f'the argument "{word}": {told}\n')
        yield None if (ended.returncode, ended.stdout, ended.stderr.decode()) == wanted else f"frame {word}: {ended}"
    ended = subprocess.run([program, "frame", "C705", "a\x1b[31m\u00e4"], capture_output=True, timeout=60)
    first = ended.stderr.decode().split("\n", 1)[0]
    wanted = (1, b"", "error: unexpected argument 'a\\u{1b}[31m\\u{e4}' found")
    yield None if (ended.returncode, ended.stdout, first) == wanted else f"a wrong word: {ended}"


def fails_on_command_lines(program):
    """Give what is wrong with the messages for command lines that are none."""
    for words, wanted in COMMAND_LINES:
        ended = subprocess.run([program, *words], stdin=subprocess.DEVNULL, capture_output=True, timeout=60)
        lines = ended.stderr.decode().splitlines()
        missing = [it for it in wanted if it not in lines]
        others = [it for it in lines if it == A_MOMENT or it.startswith("  tip: ")]
        good = (ended.returncode, ended.stdout, missing) == (1, b"", []) and set(others) <= set(wanted)
        yield None if good else f"{words}: {ended}"


def fails_on_drives(program):
    """Give what is wrong with what `drive` tells of orders that it can't drive."""
    with tempfile.TemporaryDirectory() as room:
        orders, journal = os.path.join(room, "orders.json"), os.path.join(room, "journal")
        for given, wanted in (
            (b'[{"order": 6, "unit": 5, "yeer": 1}]', "item 1 fault 10 Key\n"),
            (REFUSED, "item 1 fault 10 Key\nitem 3 fault 1 Unit\n"),
            (b'[{"order": 6,}]', "fault 11 Json\n"),
            (b"{}", "fault 12 Document\n"),
        ):
            with open(orders, "wb") as file:
                file.write(given)
            ended = subprocess.run([program, "drive", orders, journal], stdin=subprocess.DEVNULL, capture_output=True,
                                   timeout=60)
            good = (ended.returncode, ended.stdout, ended.stderr.decode()) == (1, b"", wanted)
            yield None if good and not os.path.exists(journal) else f"drive {given!r}: {ended}"
        ended = subprocess.run([program, "drive", room, journal], stdin=subprocess.DEVNULL, capture_output=True,
                               timeout=60)
        wanted = f"error: the file can't be used: {room}: is a directory\nfault 21 File\n"
        yield None if (ended.returncode, ended.stderr.decode()) == (2, wanted) else f"drive of a folder: {ended}"


def fails_on_causes(program):
    """Give what is wrong with the causes of inputs that can't be read, and with names that could spoil a terminal."""
    with tempfile.TemporaryDirectory() as room:
        odd = os.path.join(room, "a\x1b[31m\nreply 1 taken")
        os.mkdir(odd)
        told = room + "/a\\u{1b}[31m\\u{a}reply 1 taken"
        for words, wanted in (
            (["check", room], f"error: the input can't be read: {room}: is a directory\n"),
            (["show", odd], f"error: the input can't be read: {told}: is a directory\n"),
            (["run", odd + "/none"], f"error: the input can't be opened or read: {told}/none: {MISSING}\n"),
        ):
            ended = subprocess.run([program, *words], capture_output=True, timeout=60)
            good = (ended.returncode, ended.stdout, ended.stderr.decode()) == (2, b"fault 21 File\n", wanted)
            yield None if good else f"{words}: {ended}"
        spoilt = os.path.join(odd, "spoilt")
        with open(spoilt, "wb") as file:
            file.write(b"7")
        for command, fault in (("show", b"fault 14 Hex\n"), ("journal", b"journal fault 3 Record at 0\n")):
            ended = subprocess.run([program, command, spoilt], capture_output=True, timeout=60)
            last = ended.stderr.decode().splitlines()[-1]
            good = (ended.returncode, ended.stdout, last) == (1, fault, f"error: the input is refused: {told}/spoilt")
            yield None if good else f"{command} of a spoilt file: {ended}"
    for command in ("check", "run", "show", "journal"):
        words = ["sh", "-c", 'exec "$0" "$1" - <&-', program, command]
        ended = subprocess.run(words, capture_output=True, timeout=60)
        wanted = (2, b"fault 21 File\n", "error: the input can't be read: standard input: it is closed\n")
        yield None if (ended.returncode, ended.stdout, ended.stderr.decode()) == wanted else f"closed: {ended}"


def main(program):
    """Run all, tell what failed, and return the status."""
    parts = (fails_on_lines, fails_on_streams, fails_at_a_terminal, fails_on_many, fails_on_readers, fails_on_causes, fails_on_words,
             fails_on_command_lines, fails_on_drives)
    told = [it for part in parts for it in part(program)]
    failed = [it for it in told if it]
    for it in failed:
        print(f"FAILED: {it}")
    print(f"{len(told) - len(failed)} passed, {len(failed)} failed")
    return len(failed) > 0


if __name__ == "__main__":
    sys.exit(main(os.path.abspath(sys.argv[1])))
