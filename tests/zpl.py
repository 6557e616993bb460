"""A reader of labels in ZPL II, as far as tests/line_labels.py has them: what a printer would make of each field."""

import re
from typing import NamedTuple

COMMAND = re.compile(r"[\^~]([A-Za-z][A-Za-z0-9@])([^\^~]*)")
KNOWN = ("XA", "XZ", "FO", "FD", "FS", "FH", "FX", "BX", "BC", "A0", "CI", "PW", "LL")
FUNCTION = "\x1d"  # what a scanner sends for FNC1 within a bar code
ESCAPE = 6  # the place of the escape character among the parameters of ^BX


class Field(NamedTuple):
    """A field of a label: what is printed, and the bar code's parameters, if it is one."""

    text: str
    bars: tuple


class Reader:
    """Reads what a printer is sent."""

    def __init__(self, data):
        """Read labels, each a list of its fields; raise where a command isn't known, or anything stands outside."""
        self.labels, self.is_open = [], False
        text, at = data.decode("latin-1"), 0
        self.begin()
        for found in COMMAND.finditer(text):
            assert not text[at:found.start()].strip(), f"between commands: {text[at:found.start()]!r}"
            self.take(found[1].upper(), found[2])
            at = found.end()
        assert not text[at:].strip() and not self.is_open, f"a label that isn't ended: {text!r}"

    def begin(self):
        """Begin a field."""
        self.data, self.indicator, self.bars = None, None, ()

    def take(self, name, words):
        """Do what a command says."""
        assert name in KNOWN, f"a command that no label has: {name}{words!r}"
        assert self.is_open == (name != "XA"), f"outside of a label: {name}"
        if name in ("XA", "XZ"):
            self.is_open = name == "XA"
            self.labels += [[]] * self.is_open
            assert not words.strip(), words
        elif name == "FH":
            self.indicator = words or "_"
        elif name in ("BX", "BC"):
            self.bars = (name, *words.split(","))
        elif name == "FD":
            self.data = words
        elif name == "FS":
            self.end(words)

    def end(self, words):
        """End a field."""
        assert not words.strip(), f"behind a field: {words!r}"
        if self.data is not None:
            self.labels[-1].append(Field(self.printed(), self.bars))
        self.begin()

    def printed(self):
        """Give what the data of a field prints."""
        text = self.data
        if self.indicator:
            text = re.sub(re.escape(self.indicator) + "([0-9A-Fa-f]{2})", lambda it: chr(int(it[1], 16)), text)
        text = text.encode("latin-1").decode()
        return self.encoded(text) if self.bars[:1] == ("BX",) else text

    def encoded(self, text):
        """Give what a scanner reads of a DataMatrix, of whose data this is the text."""
        assert self.bars[1:][2] == "200", self.bars
        escape = self.bars[1:][ESCAPE]
        signs = {f"{escape}1": FUNCTION, 2 * escape: escape}
        return re.sub(f"{re.escape(escape)}(.?)", lambda it: signs[it[0]], text)


def labels_of(data):
    """Give the labels that a printer was sent."""
    return Reader(data).labels


def has_check_digit(digits):
    """Tell whether the last digit of a GTIN is the one that the others call for."""
    sums = sum(int(digit) * (3 if at % 2 else 1) for at, digit in enumerate(reversed(digits)))
    return sums % 10 == 0


def elements(text):
    """Give GTIN and serial number of a GS1 code with these two."""
    assert text.startswith(FUNCTION), f"no FNC1 in front: {text!r}"
    found = re.fullmatch("01([0-9]{14})21([!-z]{1,20})", text[1:])
    assert found and has_check_digit(found[1]), text
    return found[1], found[2]
