"""Templates of labels: a text with placeholders, as `{gtin}`, that is filled with what a label has.

A placeholder that would come out wrong is refused as the template is read: one that isn't known, or one in a place
where the text of a label printer's language (ZPL II) can't escape it.
"""

from __future__ import annotations

import html
import json
import os
import re
from typing import Callable, NamedTuple

from .faults import Failed, Refused, plain, why
from .identities import LENGTH_OF_GTIN
from .labels import FIELDS, Label
from .moments import moment

PLACEHOLDER = re.compile(r"\{([a-z][a-z0-9_]*)\}")
# Members that are made of others, and of which.
MADE = {"date": ("ended",), "decimal": ("identification",), "gs1": ("gtin", "identification"),
        "gs1_decimal": ("gtin", "identification")}
NAMES = ("order", "bus", "unit", "reference", "ended", "printed", *FIELDS, *MADE)
# The GS1 application identifiers of a GTIN, whose length is fixed, so that the next one follows it as it is, and of a
# serial number of at most 20 characters: sixteen hexadecimal digits, or their number in decimal.
GTIN, SERIAL = "01", "21"
# The values in which other characters may stand than digits, letters and those of a moment. They are escaped, and except
# the number of the ERP they stand in no bar code, each kind of which has its own characters that mean more.
TEXTS, NO_BARS = ("bus", "reference", "colour", "luminaire"), ("bus", "colour", "luminaire")
END_OF_FIELD = re.compile(r"\^FS", re.IGNORECASE)
DATA = re.compile(r"\^F[DV]", re.IGNORECASE)
BAR_CODE = re.compile(r"\^B[0-9A-XZ]", re.IGNORECASE)
HEXADECIMAL = re.compile(r"\^FH_?(?=\^|\Z)", re.IGNORECASE)
# Other characters in the place of ^ and ~.
CHANGED = re.compile(r"[\^~](?:CC[^^]|CT[^~])", re.IGNORECASE)
NO_DIGITS = re.compile("_(?![0-9A-F]{2})", re.IGNORECASE)


def in_zpl(text: str) -> str:
    """Spell a text as the data of a field after ^FH, where digits stand for the characters that mean more in ZPL."""
    return "".join(chr(byte) if 0x20 <= byte <= 0x7E and chr(byte) not in "^~_" else f"_{byte:02X}"
                   for byte in text.encode("utf-8", "replace"))


def want_zpl(text: str) -> None:
    """Refuse what a printer would print wrongly, or not at all."""
    if not re.search(r"\^XA.*\^XZ\s*$", text, re.IGNORECASE | re.DOTALL):
        raise Refused("it has to begin a label with ^XA and to end it with ^XZ, or the printer prints nothing")
    if CHANGED.search(text):
        raise Refused("it gives ZPL other characters than ^ and ~, and values are escaped for these")
    for field in END_OF_FIELD.split(text):
        head, *data = DATA.split(field, maxsplit=1)
        outside = PLACEHOLDER.search(head)
        if outside:
            raise Refused(f"{outside[0]} has to stand in a field's data, between ^FD and ^FS")
        if data:
            want_field(head, data[0])


def want_field(head: str, data: str) -> None:
    """Refuse a field whose data would come out as something else."""
    names, is_hexadecimal = PLACEHOLDER.findall(data), HEXADECIMAL.search(head)
    if names and "^" in data:
        raise Refused(f"the field has to end with ^FS before the next command: {data}")
    if names and is_hexadecimal and NO_DIGITS.search(PLACEHOLDER.sub("  ", data)):
        raise Refused(f"behind ^FH a _ begins two hexadecimal digits, and here it doesn't: {data}")
    for name in names:
        if name in TEXTS and not is_hexadecimal:
            raise Refused(f"{{{name}}} may have characters that ZPL takes for commands: put ^FH right before its ^FD")
        if name in NO_BARS and BAR_CODE.search(head):
            raise Refused(f"{{{name}}} may have characters that a bar code takes for commands: print it in words")


class Kind(NamedTuple):
    """A kind of templates."""

    escaped: Callable[[str], str]
    want: Callable[[str], None] = lambda text: None


# By the end of a file's name. A value of JSON stands within quotes.
KINDS = {".zpl": Kind(in_zpl, want_zpl), ".txt": Kind(str), ".json": Kind(lambda text: json.dumps(text)[1:-1]),
         ".html": Kind(html.escape), ".svg": Kind(html.escape)}


class Template(NamedTuple):
    """A template of labels."""

    name: str
    text: str
    kind: Kind

    def of(self, label: Label) -> str:
        """Fill it for a label."""
        return self.filled(label.number, values_of(label.members()))

    def filled(self, number: int, values: dict[str, str]) -> str:
        """Fill it with values, all that it names, for the label of the order of this number."""
        for name in PLACEHOLDER.findall(self.text):
            if name not in values:
                lacks = " and no ".join(it for it in MADE.get(name, (name,)) if it not in values)
                raise Refused(f"order {number} has no {lacks}, and {self.name} wants {{{name}}}, so no label is put"
                              f" out: print that of order {number} by itself, with another template or with none")
        return PLACEHOLDER.sub(lambda found: self.kind.escaped(values[found[1]]), self.text)


def read(name: str) -> Template:
    """Read the template in a file of this name."""
    kind = KINDS.get(os.path.splitext(name)[1].lower())
    if not kind:
        raise Refused(f"the template {name}: its name has to end with {', '.join(KINDS)}, which says what is escaped")
    try:
        with open(name, encoding="utf-8-sig", newline="") as file:
            text = file.read()
        want_placeholders(text)
        kind.want(text)
    except OSError as fault:
        raise Failed(f"the template can't be read: {why(fault)}") from fault
    except UnicodeDecodeError as fault:
        raise Refused(f"the template {name}: it isn't in UTF-8") from fault
    except Refused as fault:
        raise Refused(f"the template {name}: {plain(str(fault))}") from fault
    return Template(name, text, kind)


def want_placeholders(text: str) -> None:
    """Refuse a text without placeholders, as one that was cut off, and one with a placeholder that isn't known."""
    for at, line in enumerate(text.split("\n"), 1):
        for name in PLACEHOLDER.findall(line):
            if name not in NAMES:
                raise Refused(f"line {at}: there is no {{{name}}}: there are {', '.join(NAMES)}")
    if not PLACEHOLDER.search(text):
        raise Refused("it has no placeholder, as {order}, so all labels would be the same")


def values_of(members: dict) -> dict[str, str]:
    """Give what stands for placeholders, of what is on a label: what is unknown has no value."""
    known = {"printed": 0, **{name: value for name, value in members.items() if value is not None}}
    values = {name: str(value) for name, value in known.items() if name in NAMES}
    values |= {name: f"{known[name]:02}" for name in ("year", "week") if name in known}
    values |= {"ended": moment(known["ended"]), "date": moment(known["ended"]).partition(" ")[0]}
    if "identification" in known:
        values["identification"] = known["identification"].upper()
        values["decimal"] = str(int(known["identification"], 16))
    if "gtin" in known and "identification" in known:
        front = f"{GTIN}{known['gtin'].zfill(LENGTH_OF_GTIN)}{SERIAL}"
        values |= {"gs1": front + values["identification"], "gs1_decimal": front + values["decimal"]}
    return values
