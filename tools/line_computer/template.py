"""The order of a station for each luminaire: keys with fixed values, and those that a scan and the clock fill."""

from __future__ import annotations

import datetime
import json
from typing import NamedTuple, Optional

from . import incoming
from .faults import Refused, why
from .identities import LENGTH_OF_GTIN
from .orders import Item
from .program import Program
from .scans import Scan, gtin_of, identification_of

SCANNED, NOW = "scan", "now"
# Samples in the place of a scan, by which a template is tried out.
SAMPLES = {"gtin": "00000000", "identification": 16 * "0"}


class Wanted(NamedTuple):
    """The order of a scan, which has no number yet, and what tells this luminaire from each other one."""

    item: Item
    key: str
    name: str  # by which a person knows it: the number as it was scanned


class Template(NamedTuple):
    """A template, and how its scans spell identification numbers."""

    keys: dict
    serial: str
    program: Program

    def takes(self, key: str) -> bool:
        """Tell whether a key is filled by the scan."""
        return self.keys.get(key) == SCANNED

    def wanted(self, scan: Scan) -> Wanted:
        """Give what a scan calls for."""
        gtin, identification = self._gtin(scan), self._identification(scan)
        order = {**self.keys, **moment(self.keys, datetime.date.today())}
        if self.takes("gtin"):
            order["gtin"] = gtin
        name = scan.serial or scan.text
        if identification is None:
            return Wanted(self.item(order), f"scan {scan.gtin or '-'} {name}", name)
        order["identification"] = identification
        return Wanted(self.item(order), key_of(order.get("gtin"), identification), name)

    def item(self, order: dict) -> Item:
        """Give an order as it is added, which `check` has accepted."""
        return incoming.items_of(json.dumps([order]).encode("ascii"), False, self.program)[0]

    def _gtin(self, scan: Scan) -> Optional[str]:
        """Give the GTIN that a scan has, which has to be the template's where that has one."""
        own = None if self.takes("gtin") else self.keys.get("gtin")
        if not scan.is_gs1 and self.takes("gtin"):
            if self.takes("identification"):
                raise Refused("the template takes GTIN and number, which a GS1 code alone has both")
            return gtin_of(scan.text)
        if scan.gtin is None and self.takes("gtin"):
            raise Refused("the code has no GTIN, (01)")
        if own is not None and scan.gtin is not None and int(own) != int(scan.gtin):
            raise Refused(f"the code's GTIN is {scan.gtin}, and the template's is {own}: it is another product")
        return scan.gtin

    def _identification(self, scan: Scan) -> Optional[str]:
        """Give the identification number that a scan has, where the template takes one."""
        if not self.takes("identification"):
            return None
        if scan.is_gs1:
            if scan.serial is None:
                raise Refused("the code has no serial number, (21)")
            return identification_of(scan.serial, self.serial)
        own = self.keys.get("gtin")
        if own is not None and scan.text.removeprefix("01").lstrip("0") == own.lstrip("0"):
            raise Refused("that is the GTIN of the template: scan the code that has the luminaire's number")
        return identification_of(scan.text, self.serial)


def key_of(gtin: Optional[str], identification: str) -> str:
    """Give what tells a luminaire from each other one: a number is unique among those of a GTIN."""
    return f"{'-' if gtin is None else gtin.zfill(LENGTH_OF_GTIN)} {identification}"


def moment(keys: dict, today: datetime.date) -> dict:
    """Give year and week for `now`: a week of ISO 8601 with its year, or without a week the calendar's year."""
    year, week, _ = today.isocalendar()
    if keys.get("week") != NOW:
        year = today.year
    return {key: value for key, value in (("year", year % 100), ("week", week)) if keys.get(key) == NOW}


def read(path: str, serial: str, program: Program) -> Template:
    """Read the template of a file. It is refused where `check` refuses its orders."""
    try:
        keys = json.loads(incoming.read(path))
    except (ValueError, RecursionError) as fault:
        raise Refused(f"the template is no JSON: {path}: {why(fault)}") from fault
    if not isinstance(keys, dict) or "order" in keys:
        raise Refused(f"the template is an object with keys of an order, without its number: {path}")
    template = Template(keys, serial, program)
    order = {**keys, **moment(keys, datetime.date.today())}
    order |= {key: value for key, value in SAMPLES.items() if template.takes(key)}
    try:
        template.item(order)
    except Refused as fault:
        raise Refused(f"the template is refused: {path}: {fault}", fault.lines) from fault
    return template
