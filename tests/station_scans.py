"""Tests of what a station takes from a scan: numbers, GTINs, GS1 element strings, and templates."""

import datetime
import importlib
import json
import sys
import unittest

from base import BenchTest, settings
from driven import ROOT

sys.path.append(str(ROOT / "tools"))
scans, template, program, faults, station_page = (importlib.import_module(f"line_computer.{it}") for it in (
    "scans", "template", "program", "faults", "station_page"))

FNC1 = "\x1d"
# A scan, and its GTIN and serial number.
GS1 = {
    "(01)04006381333931(21)1A2B": ("04006381333931", "1A2B"),
    "(21)1A2B(01)04006381333931": ("04006381333931", "1A2B"),
    "(01)04006381333931(10)LOT(21)1A2B": ("04006381333931", "1A2B"),
    "(01)04006381333931(3100)000124(21)1A2B": ("04006381333931", "1A2B"),
    "]d201040063813339312" + "11A2B": ("04006381333931", "1A2B"),
    "]C10104006381333931211A2B": ("04006381333931", "1A2B"),
    "]Q30104006381333931211A2B": ("04006381333931", "1A2B"),
    "0104006381333931211A2B": ("04006381333931", "1A2B"),
    f"{FNC1}0104006381333931211A2B{FNC1}": ("04006381333931", "1A2B"),
    # A serial number of variable length ends at FNC1; a lot of variable length before it too.
    f"0104006381333931211A2B{FNC1}10LOT": ("04006381333931", "1A2B"),
    f"010400638133393110LOT21{FNC1}211A2B": ("04006381333931", "1A2B"),
    f"]d2211A2B{FNC1}0104006381333931": ("04006381333931", "1A2B"),
    # A date and a weight have their lengths, with FNC1 after them or without.
    "]d20104006381333931112611303100000124211A2B": ("04006381333931", "1A2B"),
    f"]d2010400638133393111261130{FNC1}211A2B": ("04006381333931", "1A2B"),
    # Digits that look like an application identifier stand within a lot, and a serial number.
    f"]d2010400638133393110210121{FNC1}2121012{FNC1}": ("04006381333931", "21012"),
    "]d2211A2B": (None, "1A2B"),
    "]d20104006381333931": ("04006381333931", None),
    "(01)00000096385074(21)12345678901234567890": ("00000096385074", "12345678901234567890"),
}
PLAIN = ("1A2B", "4006381333931", "0104006381333931", "A lamp", "18446744073709551615")
REFUSED = {
    "]d10104006381333931211A2B": "the code's symbology identifier is ]d1, and GS1's are ]d2, ]C1, ]Q3",
    "]C00104006381333931211A2B": "the code's symbology identifier is ]C0, and GS1's are ]d2, ]C1, ]Q3",
    "(01)04006381333932(21)1A2B": "the check digit of the GTIN 04006381333932 is wrong",
    "0104006381333932211A2B": "the check digit of the GTIN 04006381333932 is wrong",
    "(01)4006381333931(21)1A2B": "(01) has 14 digits, and not 4006381333931",
    "]C1010400638133": "the element string of (01) is cut short",
    f"]C1010400638133{FNC1}211A2B": "the element string of (01) is cut short",
    "]d20104006381333931AB": "there is no application identifier of GS1 at AB",
    "(01)04006381333931(21)123456789012345678901": "(21) has 1 to 20 characters, and not 123456789012345678901",
    "(21)1A2B(21)1A2C": "the code has (21) twice, with 1A2B and 1A2C",
    "(01)04006381333931(21": "a bracket is missing, as of (01)04006381333931(21)1A2B",
    "\x07": "a scan has 1 to 200 characters from space to tilde, and FNC1 as 1Dh",
    "1A2B\u00e9": "a scan has 1 to 200 characters from space to tilde, and FNC1 as 1Dh",
    201 * "1": "a scan has 1 to 200 characters from space to tilde, and FNC1 as 1Dh",
}
NUMBERS = {("1A2B", "hex"): "0000000000001A2B", ("6699", "decimal"): "0000000000001A2B", ("0", "hex"): 16 * "0",
           ("fffffffffffffffe", "hex"): 15 * "F" + "E", ("18446744073709551614", "decimal"): 15 * "F" + "E",
           ("0011223344556677", "hex"): "0011223344556677"}
NO_NUMBERS = {
    ("1A2G", "hex"): "the number 1A2G isn't 1 to 16 hexadecimal digits",
    ("10000000000000000", "hex"): "the number 10000000000000000 isn't 1 to 16 hexadecimal digits",
    ("1A2B", "decimal"): "the number 1A2B isn't decimal digits",
    (16 * "F", "hex"): f"the number {16 * 'F'} doesn't fit: the greatest is 18446744073709551614, FFFFFFFFFFFFFFFEh",
    ("18446744073709551615", "decimal"): "the number 18446744073709551615 doesn't fit: the greatest is"
                                         " 18446744073709551614, FFFFFFFFFFFFFFFEh",
}
FIXED = {"unit": 5, "gtin": "4006381333931", "identification": "scan"}
BOTH = {"unit": 5, "gtin": "scan", "identification": "scan"}
GTIN_ALONE = {"unit": 5, "gtin": "scan", "colour": "scan"}
NOTHING = {"unit": 5, "year": 24}
# A template and a scan, with the fields of the order, and what tells the luminaire from others.
WANTED = [
    (FIXED, "(01)04006381333931(21)1a2b", {"gtin": "4006381333931", "identification": "0000000000001A2B"},
     "04006381333931 0000000000001A2B"),
    (FIXED, "1A2B", {"gtin": "4006381333931", "identification": "0000000000001A2B"}, "04006381333931 0000000000001A2B"),
    (FIXED, "(21)1A2B", {"gtin": "4006381333931", "identification": "0000000000001A2B"},
     "04006381333931 0000000000001A2B"),
    (BOTH, "(01)00000096385074(21)1A2B", {"gtin": "00000096385074", "identification": "0000000000001A2B"},
     "00000096385074 0000000000001A2B"),
    ({"unit": 5, "identification": "scan"}, "1A2B", {"identification": "0000000000001A2B"}, "- 0000000000001A2B"),
    ({"unit": 5, "gtin": None, "identification": "scan"}, "(01)00000096385074(21)1A2B",
     {"gtin": None, "identification": "0000000000001A2B"}, "- 0000000000001A2B"),
    (GTIN_ALONE, "96385074", {"gtin": "00000096385074", "colour": "scan"}, "scan - 96385074"),
    (GTIN_ALONE, "(01)04006381333931", {"gtin": "04006381333931", "colour": "scan"},
     "scan 04006381333931 (01)04006381333931"),
    (NOTHING, "A lamp", {"year": 24}, "scan - A lamp"),
    (NOTHING, "(01)04006381333931(21)A/7", {"year": 24}, "scan 04006381333931 A/7"),
]
UNWANTED = [
    (FIXED, "(01)00000096385074(21)1A2B",
     "the code's GTIN is 00000096385074, and the template's is 4006381333931: it is another product"),
    (FIXED, "(01)04006381333931", "the code has no serial number, (21)"),
    (FIXED, "(01)04006381333931(21)A/7", "the number A/7 isn't 1 to 16 hexadecimal digits"),
    (FIXED, "4006381333931", "that is the GTIN of the template: scan the code that has the luminaire's number"),
    (FIXED, "0104006381333931", "that is the GTIN of the template: scan the code that has the luminaire's number"),
    (BOTH, "1A2B", "the template takes GTIN and number, which a GS1 code alone has both"),
    (BOTH, "(21)1A2B", "the code has no GTIN, (01)"),
    (GTIN_ALONE, "4006381333932", "the check digit of the GTIN 4006381333932 is wrong"),
    (GTIN_ALONE, "400638133393", "the check digit of the GTIN 400638133393 is wrong"),
    (GTIN_ALONE, "123", "a GTIN has 8, 12, 13 or 14 digits, and not 123"),
]
# A day, and its year and week: the year is that of the week if both are asked for, else of the calendar.
DAYS = {
    ("2026-11-30", "year", "week"): {"year": 26, "week": 49},
    ("2027-01-01", "year", "week"): {"year": 26, "week": 53},
    ("2024-12-30", "year", "week"): {"year": 25, "week": 1},
    ("2027-01-01", "year"): {"year": 27},
    ("2024-12-30", "week"): {"week": 1},
}
NO_TEMPLATES = {
    "{": "the template is no JSON: FILE: Expecting property name enclosed in double quotes: line 1 column 2 (char 1)",
    "[]": "the template is an object with keys of an order, without its number: FILE",
    '{"order": 1, "unit": 5, "year": 24}': "the template is an object with keys of an order, without its number: FILE",
    '{"unit": 5, "year": "scan"}': "the template is refused: FILE: item 1: year: the text \"scan\", and it is a whole"
                                   " number from 0 to 99, or null",
    '{"unit": 64, "year": "now"}': "the template is refused: FILE: item 1: unit: the number 64, and a short address is"
                                   " 0 to 63",
    '{"unit": 5}': "the template is refused: FILE: item 1: no field is given, and an order has one at least, as gtin or"
                   " year",
}


def refused(act, *arguments):
    """Give why something is refused."""
    try:
        return f"not refused: {act(*arguments)}"
    except faults.Refused as fault:
        return str(fault)


class ScanTest(unittest.TestCase):
    """The reading of a scan."""

    def test_gs1(self):
        for text, (gtin, serial) in GS1.items():
            self.assertEqual((text, *scans.read(f" {text}\t")[1:]), (text, True, gtin, serial))
        for text in PLAIN:
            self.assertEqual((text, scans.read(text)), (text, scans.Scan(text, False)))
        for text, why in REFUSED.items():
            self.assertEqual((text, refused(scans.read, text)), (text, why))

    def test_the_lengths_of_element_strings(self):
        """By the table of the General Specifications: each, with a serial number after it, and one character less."""
        lengths = {"00": 20, "01": 16, "02": 16, "03": 16, "04": 18, "11": 8, "12": 8, "13": 8, "14": 8, "15": 8,
                   "16": 8, "17": 8, "18": 8, "19": 8, "20": 4, "31": 10, "32": 10, "33": 10, "34": 10, "35": 10,
                   "36": 10, "41": 16}
        for first in range(100):
            prefix, length = f"{first:02}", lengths.get(f"{first:02}")
            if prefix == "21":
                continue
            text = prefix + 18 * "0"
            if length is None:
                self.assertEqual((prefix, scans.read(f"]d2{text}{FNC1}21A")[3]), (prefix, "A"))
            else:
                self.assertEqual((prefix, scans.read(f"]d2{text[:length]}21A")[3]), (prefix, "A"))
                self.assertEqual((prefix, refused(scans.read, f"]d2{text[:length - 1]}{FNC1}21A")),
                                 (prefix, f"the element string of ({prefix}) is cut short"))

    def test_numbers(self):
        for (digits, serial), number in NUMBERS.items():
            self.assertEqual((digits, scans.identification_of(digits, serial)), (digits, number))
        for (digits, serial), why in NO_NUMBERS.items():
            self.assertEqual((digits, refused(scans.identification_of, digits, serial)), (digits, why))


    def test_whose_scans_the_page_takes(self):
        given = {"Host": "localhost:8080", "Origin": "http://localhost:8080"}
        for client in ("127.0.0.1", "127.0.0.2", "::1", "::ffff:127.0.0.1"):
            self.assertEqual((client, station_page.why_foreign(client, given, 8080)), (client, None))
        for client in ("192.0.2.7", "fe80::1%eth0", "::ffff:192.0.2.7", "2001:db8::1"):
            self.assertEqual((client, station_page.why_foreign(client, given, 8080)),
                             (client, "A scan is taken from this computer alone."))
        self.assertEqual(station_page.scan_of(b"scan=%5Dd2010400638133393121A%1D10B+C"),
                         "]d2010400638133393121A\x1d10B C")


class TemplateTest(BenchTest):
    """The order that a template makes of a scan."""

    def made(self, keys):
        """Give a template of these keys."""
        path = self.folder / "template.json"
        path.write_text(keys if isinstance(keys, str) else json.dumps(keys))
        return template.read(str(path), "hex", program.Program(settings["program"]))

    def test_what_is_wanted(self):
        for keys, text, fields, key in WANTED:
            found = self.made(keys).wanted(scans.read(text))
            self.assertEqual((text, found.item.unit, json.loads(found.item.fields), found.key), (text, 5, fields, key))
        for keys, text, why in UNWANTED:
            self.assertEqual((text, refused(self.made(keys).wanted, scans.read(text))), (text, why))

    def test_templates_that_are_refused(self):
        for text, why in NO_TEMPLATES.items():
            self.assertEqual((text, refused(self.made, text).replace(str(self.folder / "template.json"), "FILE")),
                             (text, why))

    def test_now(self):
        for (day, *keys), wanted in DAYS.items():
            found = template.moment(dict.fromkeys(keys, "now"), datetime.date.fromisoformat(day))
            self.assertEqual((day, found), (day, wanted))
        self.assertEqual(template.moment({"year": 24, "week": 9, "unit": 5}, datetime.date(2026, 11, 30)), {})
