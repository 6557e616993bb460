"""The advice for a person beside an order that isn't done, in a few words. Its home is docs/BENCH.md, "What the last
reply means", and for what isn't a reply docs/LINE_COMPUTER.md.
"""

from __future__ import annotations

from typing import Optional

OF_CODE = {
    1: "take another unit, or fewer fields; add it anew",
    2: "take another unit; add it anew",
    3: "look at power, wire and address; add it anew",
    4: "look at power and wire; add the same anew. In doubt again: take the unit out",
    5: "keep the unit on the bus, look at power and wire; add the same anew. In doubt again: take the unit out",
}
OF_STATE = {
    "full": "nothing: the journal is retired by itself",
    "refused": "mend what it says; add it anew",
    "reused": "add it anew",
}


def advice(state: str, code: Optional[int], told: Optional[str]) -> str:
    """Tell what to do beside an order, where there is something."""
    if state == "blocked":
        unit = (told or "").partition("blocked ")[2] or "that was left"
        return f"put unit {unit} back, or any unit at its address; or cancel the order"
    return OF_CODE.get(code, "") if state == "ended" else OF_STATE.get(state, "")
