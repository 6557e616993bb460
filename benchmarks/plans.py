#!/usr/bin/env python3
"""Count what an order takes on the bus, by the checked plan, by the short plan, and by a plain writer.

1. A year, a GTIN, a GTIN with identification number, and all fields, on a simulated unit, by both plans. Each frame is
   lost with a chance of 0, 1, 2, 5 and 10 in a hundred, in each draw others: frames and seconds on the wire (29 ms for a
   frame without an answer, 49 ms for one with), the median and the most over the draws, and how many orders are done.
   The aim: in no row is the short plan worse, in orders that are done, in the median or in the most frames.
2. The same orders by a plain writer, one that promises nothing: for each byte a frame for DTR1, one for
   DTR0, the write and one read. It loses nothing, and would not see it.
3. With --draw: pictures of the seconds by what is lost, and of the frames by the number of updates, by both plans with
   nothing and with one answer in twenty lost, and the most that is proved, whatever is lost.

Status 0: with nothing lost the numbers are the proved ones, and the aim is held. Status 1: they aren't, or a run didn't
end. Status 2: the program couldn't be run. Status 3: the aim isn't held.
"""

import concurrent.futures
import functools
import json
import os
import random
import statistics
import subprocess
import sys
from typing import NamedTuple

import pictures
from measuring import REPOSITORY, Wrong, argument_parser, judged
from orders import FIELDS

PLANS = ("checked", "short")
CHANCES = (0, 0.01, 0.02, 0.05, 0.1)
# Seconds of a frame without an answer and of one with.
UNANSWERED, ANSWERED = 0.029, 0.049
# More steps than any order takes: 112 n + 565 with 115 updates.
STEPS = 14000
YEAR = {"year": 24}
GTIN = {"gtin": "4006381333931"}
IDENTIFIED = {**GTIN, "identification": "0011223344556677"}
BYTES = {it["key"]: it["bytes"] for it in FIELDS}
# Orders by the number of their updates.
BY_UPDATES = {sum(BYTES[key] for key in order): order for order in (
    YEAR, GTIN, IDENTIFIED, {**GTIN, "colour": "A"}, {"luminaire": "B"}, {"colour": "A", "luminaire": "B"},
    {**IDENTIFIED, "colour": "A", "luminaire": "B"},
)}
# The frames of each order with nothing lost, by the checked and by the short plan, and its bytes.
PROVED = {"year": (56, 44, 1), "GTIN": (112, 49, 6), "GTIN, identification": (224, 81, 14),
          "all fields": (1652, 536, 115)}


def orders():
    """Give the orders by their names."""
    full = json.loads((REPOSITORY / "examples" / "full.json").read_text(encoding="utf-8"))[0]
    return dict(zip(PROVED, (YEAR, GTIN, IDENTIFIED, full)))


class Taken(NamedTuple):
    """The cost of an order: frames, seconds on the wire, and whether it was done."""

    frames: int
    seconds: float
    is_done: bool


class Row(NamedTuple):
    """The draws of an order by one plan at one loss: medians, the most, and how many were done."""

    frames: float
    seconds: float
    most_frames: int
    most_seconds: float
    done: int

    def text(self):
        """Give it as cells of a table."""
        return f"{self.frames:.0f} ({self.most_frames}) | {self.seconds:.1f} ({self.most_seconds:.1f}) | {self.done}"

    def is_no_worse(self, other):
        """Tell whether it does as many orders as another row, in no more frames, neither as a rule nor at most."""
        return self.done >= other.done and self.frames <= other.frames and self.most_frames <= other.most_frames


def row_of(taken):
    """Give the row of what these draws took."""
    frames, seconds, done = zip(*taken)
    return Row(statistics.median(frames), statistics.median(seconds), max(frames), max(seconds), sum(done))


def fates(chance, seed):
    """Give fates under which each frame is lost with this chance."""
    rng, found, between = random.Random(seed), [], 0
    for _ in range(STEPS if chance else 0):
        if rng.random() < chance:
            found += [{"times": between}] * (between > 0) + [{"lost": [5]}]
            between = 0
        else:
            between += 1
    return found


def ended(program, order, plan, fates):
    """Give what an order took."""
    events = [{"submit": {**order, "order": 1, "unit": 5}}, {"steps": STEPS}]
    scenario = {"limit": 1, "plan": plan, "units": [{"address": 5}], "fates": fates, "events": events}
    words = [program, "run", "--frames", "/dev/stdin"]
    told = subprocess.run(words, input=json.dumps(scenario), capture_output=True, text=True, check=True).stdout
    sent = [line for line in told.splitlines() if line.startswith("send ")]
    wire = sum(UNANSWERED if line.endswith("--") else ANSWERED for line in sent)
    return Taken(len(sent), wire, "reply 1 kept 0 Done\n" in told)


def measured_row(bench, pool, order, plan, chance):
    """Measure the draws of an order by a plan at a loss, as many at once as there are processors."""
    seeds = range(bench.runs if chance else 1)
    return row_of(pool.map(lambda seed: ended(bench.program, order, plan, fates(chance, seed)), seeds))


def measure_losses(bench):
    """Measure both plans on lines that lose frames, beside a plain writer."""
    print(f"Of {bench.runs} draws the median, and the most in brackets.\n")
    print("| order | lost in 100 | plan | frames | seconds | done |\n|---|---|---|---|---|---|")
    drawn = {plan: [] for plan in PLANS}
    with concurrent.futures.ThreadPoolExecutor(os.cpu_count()) as pool:
        for name, order in orders().items():
            for chance in CHANCES:
                rows = {plan: measured_row(bench, pool, order, plan, chance) for plan in PLANS}
                for plan, row in rows.items():
                    print(f"| {name} | {100 * chance:g} | {plan} | {row.text()} |", flush=True)
                if not chance and [(row.frames, row.done) for row in rows.values()] != [(it, 1) for it in PROVED[name][:2]]:
                    raise Wrong(f"{name}: other frames than the proved ones")
                bench.aims.want(rows["short"].is_no_worse(rows["checked"]), f"{name}, {chance}: the short plan is no worse")
                if name == "all fields":
                    for plan, row in rows.items():
                        drawn[plan].append((100 * chance, row))
    draw_seconds(bench, drawn)


def draw_seconds(bench, drawn):
    """Draw the seconds of an order with all fields by what is lost."""
    if bench.arguments.draw:
        lines = {f"{plan} plan, {name}": [(chance, take(row)) for chance, row in rows] for plan, rows in drawn.items()
                 for name, take in (("median", lambda row: row.seconds), ("most", lambda row: row.most_seconds))}
        pictures.save("plans", "Seconds of an order with all fields", "frames lost in 100", "seconds", lines)


def tell_floor(_):
    """Tell what a plain writer would take, and the share of the frames that safety costs."""
    print("\n| order | a plain writer: frames, seconds | more frames by the checked plan | by the short plan |")
    print("|---|---|---|---|")
    for name, (*frames, count) in PROVED.items():
        floor = 4 * count
        shares = " | ".join(f"{taken - floor} of {taken}" for taken in frames)
        print(f"| {name} | {floor}, {count * (2 * UNANSWERED + 2 * ANSWERED):.1f} | {shares} |")


def draw_frames(bench):
    """Draw the frames by the number of updates."""
    if not bench.arguments.draw:
        return
    frames_of = functools.partial(ended, bench.program)
    lossy = [{"times": 19}, {"answer_lost": True}] * 400
    ways = {
        "nothing lost": ("checked", []),
        "nothing lost, short plan": ("short", []),
        "one answer in twenty lost": ("checked", lossy),
        "one answer in twenty lost, short plan": ("short", lossy),
    }
    lines = {name: [(count, frames_of(order, *way).frames) for count, order in BY_UPDATES.items()]
             for name, way in ways.items()}
    lines["at most, whatever is lost"] = [(count, 112 * count + 560) for count in BY_UPDATES]
    pictures.save("frames", "Frames of an order", "updates", "frames", lines)


if __name__ == "__main__":
    parser = argument_parser(__doc__.splitlines()[0], 200)
    parser.add_argument("--draw", action="store_true", help="draw the pictures anew")
    sys.exit(judged(parser, measure_losses, tell_floor, draw_frames))
