"""Cases of `drive --follow` made by chance, for tests/fuzz: its fault of a line is that of `check` for the item by
itself, and units and journal hold what they have to, with losses and kills.
"""

import json
import re
from typing import NamedTuple

import driven
import fuzz_inputs
import fuzz_links

BLANK = [b"", b" ", b"\t", b"\r", b" \t \r"]
ODD = [b"{", b"\xff", b"\0", b"[", b"{} {}", b'{"order":1,', b"'", b"\xef\xbb\xbf{}", b"nul"]
NO_SUBMISSIONS = [{"moment": -1}, {"moment": "5"}, {"steps": 5}, {"moment": None}, {"moment": 1.0}, {"submitted": {}}]
TOO_BIG = b" " * 16384 + b"{}"


class Line(NamedTuple):
    """A line, its order's moment and number where it has one that is accepted, and its fault where it is refused, with
    the number that its order has all the same."""

    text: bytes
    moment: int
    number: int | None
    fault: str | None
    refused: int | None = None


def fault_of(run, program, item):
    """Give the fault of an item, by `check` alone, or none."""
    told = run([program, "check", "/dev/stdin"], json.dumps([item]).encode())[1].decode().splitlines()
    found = re.fullmatch(r"(?:item 1 )?fault (\d+ \w+)", told[0])
    return found[1] if found else None


def line_of(rng, moment, run, program):
    """Give a line, most often of an order."""
    kind = rng.random()
    if kind < 0.1:
        return Line(rng.choice(BLANK), 0, None, None)
    if kind < 0.15:
        return Line(rng.choice(ODD), 0, None, "11 Json")
    if kind < 0.17:
        return Line(TOO_BIG, 0, None, "13 TooBig")
    item, value = fuzz_inputs.order(rng), None
    if kind < 0.22:
        value = {"submit": item, **rng.choice(NO_SUBMISSIONS)}
        fault = fault_of_text(run, program, item) or "12 Document"
        return Line(json.dumps(value).encode(), 0, None, fault, number_of(item, fault))
    if kind < 0.5:
        moment = fuzz_inputs.moment(rng)
        value = {"submit": item, "moment": moment} if moment or rng.random() < 0.5 else {"submit": item}
    fault = fault_of(run, program, item)
    text = json.dumps(item if value is None else value).encode() + rng.choice([b"", b"", b"\r", b"  "])
    return Line(text, moment, None if fault else item["order"], fault, number_of(item, fault))


def number_of(item, fault):
    """Give the number of a refused item's order, where it has one."""
    number = item.get("order") if isinstance(item, dict) and fault != "11 Json" else None
    return number if type(number) is int and 0 <= number < 2 ** 64 else None


def fault_of_text(run, program, item):
    """Give the fault of an item whose text is no JSON, or none."""
    fault = fault_of(run, program, item)
    return fault if fault == "11 Json" else None


def judge_told(lines, told, said_first):
    """Raise unless each line came in its turn; give the moments at which orders were taken, by their numbers."""
    told, taken = list(told), {}
    if said_first is not None:
        assert re.fullmatch(rf"reply {said_first} kept \d \w+", told.pop(0)), told
    assert told.pop(0) == "ready", told
    for count, line in enumerate(lines, 1):
        if line.fault:
            order = "" if line.refused is None else f" order {line.refused}"
            assert told.pop(0) == f"item {count}{order} fault {line.fault}", (count, line, told)
        elif line.number is not None:
            reply = told.pop(0)
            assert re.fullmatch(rf"reply {line.number} (taken|reused|full|kept \d \w+)", reply), (line, reply)
            if reply.endswith("taken"):
                taken.setdefault(line.number, set()).add(line.moment)
                reply = told.pop(0)
                assert re.fullmatch(rf"reply {line.number} (kept \d \w+|blocked \d+)", reply), (line, reply)
    assert not told, told
    return taken


def try_over_units(program, rng, folder, run):
    """Try it over simulated units that lose frames, answers and power, killed now and then, and judge each end."""
    moment = fuzz_inputs.moment(rng)
    lines = [line_of(rng, moment, run, program) for _ in range(rng.randint(0, 7))]
    text = b"".join(line.text + b"\n" for line in lines)
    desk = driven.Following(program, folder, text[:-1] if rng.random() < 0.3 else text)
    desk.options = ["--moment", str(moment)]
    frames = range(1, rng.choice([60, 400, 1500]))
    banks, bus = fuzz_links.bus_of(rng, frames)
    for _ in range(rng.choice([0, 1, 3])):
        desk.over(bus, (rng.choice(frames), rng.choice(["sent", "carried"])))
        driven.judge(bus, banks, desk.held() if desk.journal.exists() else b"")
    before = driven.groups_of(desk.held()) if desk.journal.exists() else []
    ended = desk.over(bus)
    driven.judge(bus, banks, desk.held())
    said_first = before[-1].number if before and before[-1].code is None else None
    taken = judge_told(lines, ended.told.splitlines(), said_first)
    assert ended.status == (1 if any(line.fault for line in lines) else 0), ended
    after = driven.groups_of(desk.held())
    assert [group[:4] for group in after[:len(before)]] == [group[:4] for group in before], (before, after)
    assert all(group.moment in taken[group.number] for group in after[len(before):]), (taken, after)
