"""The readings of a scan: a luminaire's number, a GTIN, or both in GS1 element strings (GS1 General Specifications)."""

from __future__ import annotations

import re
from typing import NamedTuple, Optional

from .faults import Refused, plain

MOST = 200  # characters of a scan
SEPARATOR = "\x1d"  # the FNC1 after an element string of variable length, as a scanner sends it
SYMBOLOGIES = ("]d2", "]C1", "]Q3")  # GS1 DataMatrix, GS1-128, GS1 QR Code
GTIN, SERIAL = "01", "21"  # application identifiers
# The element strings of predefined length: how long each is with its application identifier, by the first two digits.
PREDEFINED = {"00": 20, "01": 16, "02": 16, "03": 16, "04": 18, **{str(it): 8 for it in range(11, 20)}, "20": 4,
              **{str(it): 10 for it in range(31, 37)}, "41": 16}
BRACKETED = re.compile(r"(?:\([0-9]{2,4}\)[^()]+)+")
# A GTIN, and then another application identifier: it is GS1 even where nothing else says so.
WITHOUT_MARKS = re.compile("01[0-9]{14}[0-9]{2}.+")
LENGTHS_OF_GTIN = (8, 12, 13, 14)
# An identification number of these digits counts as unknown.
UNKNOWN = 2**64 - 1
SERIALS = {"hex": ("[0-9A-Fa-f]{1,16}", 16, "1 to 16 hexadecimal digits"),
           "decimal": ("[0-9]{1,20}", 10, "decimal digits")}


class Scan(NamedTuple):
    """A scan: its text, and of GS1 the GTIN and the serial number that it has; of any other code neither."""

    text: str
    is_gs1: bool
    gtin: Optional[str] = None
    serial: Optional[str] = None


def read(line: str) -> Scan:
    """Read a line as a scanner types it."""
    text = line.strip(" \t")
    if not re.fullmatch(f"[ -~{SEPARATOR}]{{1,{MOST}}}", text):
        raise Refused(f"a scan has 1 to {MOST} characters from space to tilde, and FNC1 as 1Dh")
    if text[0] == "]":
        if not text.startswith(SYMBOLOGIES):
            raise Refused(f"the code's symbology identifier is {plain(text[:3])}, and GS1's are"
                          f" {', '.join(SYMBOLOGIES)}")
        return of_elements(text, elements(text[3:]))
    if BRACKETED.fullmatch(text):
        return of_elements(text, re.findall(r"\(([0-9]{2,4})\)([^()]+)", text))
    if SEPARATOR in text or WITHOUT_MARKS.fullmatch(text):
        return of_elements(text, elements(text))
    if text[0] == "(":
        raise Refused("a bracket is missing, as of (01)04006381333931(21)1A2B")
    return Scan(text, False)


def elements(text: str) -> list[tuple[str, str]]:
    """Part element strings: each with the first two digits of its application identifier, and its data."""
    found, at = [], 0
    while at < len(text):
        if text[at] == SEPARATOR:
            at += 1
            continue
        prefix = text[at:at + 2]
        if not re.fullmatch("[0-9]{2}", prefix):
            raise Refused(f"there is no application identifier of GS1 at {plain(text[at:at + 8])}")
        end = text.find(SEPARATOR, at) if SEPARATOR in text[at:] else len(text)
        if prefix in PREDEFINED:
            whole = at + PREDEFINED[prefix]
            if whole > end:
                raise Refused(f"the element string of ({prefix}) is cut short")
            end = whole
        found.append((prefix, text[at + 2:end]))
        at = end
    return found


def of_elements(text: str, found: list[tuple[str, str]]) -> Scan:
    """Take GTIN and serial number out of element strings, and pass all others over."""
    known: dict = {}
    for identifier, data in found:
        if identifier in (GTIN, SERIAL) and known.setdefault(identifier, data) != data:
            raise Refused(f"the code has ({identifier}) twice, with {plain(known[identifier])} and {plain(data)}")
    gtin, serial = known.get(GTIN), known.get(SERIAL)
    if gtin is not None and len(gtin) != 14:
        raise Refused(f"(01) has 14 digits, and not {plain(gtin)}")
    if serial is not None and not 1 <= len(serial) <= 20:
        raise Refused(f"(21) has 1 to 20 characters, and not {plain(serial)}")
    return Scan(text, True, gtin and gtin_of(gtin), serial)


def gtin_of(digits: str) -> str:
    """Give the 14 digits of a GTIN."""
    if not re.fullmatch("[0-9]+", digits) or len(digits) not in LENGTHS_OF_GTIN:
        raise Refused(f"a GTIN has 8, 12, 13 or 14 digits, and not {plain(digits)}")
    total = sum(int(digit) * (1 if at % 2 == 0 else 3) for at, digit in enumerate(reversed(digits)))
    if total % 10:
        raise Refused(f"the check digit of the GTIN {digits} is wrong")
    return digits.zfill(14)


def identification_of(digits: str, serial: str) -> str:
    """Give the 16 hexadecimal digits of an identification number, which is spelled as `serial` says."""
    pattern, base, words = SERIALS[serial]
    if not re.fullmatch(pattern, digits):
        raise Refused(f"the number {plain(digits)} isn't {words}")
    number = int(digits, base)
    if number >= UNKNOWN:
        raise Refused(f"the number {digits} doesn't fit: the greatest is {UNKNOWN - 1}, FFFFFFFFFFFFFFFEh")
    return f"{number:016X}"
