#!/usr/bin/env python3
"""Count what `dali_bench address` takes to give short addresses to 1, 2, 10 and 64 new units.

The units are simulated. Each frame is lost with a chance of 0, 1, 2, 5 and 10 in a hundred, to all units, and so is each
answer; in each draw the units draw other random addresses. Told are frames and minutes on the wire, the median and the
most over the draws, and in how many draws all units had an address of their own after one run, and after at most three.

Status 0: with nothing lost each unit has its own after one run. Status 1: one hasn't. Status 2: the program couldn't be
run.
"""

import multiprocessing
import os
import statistics
import sys

from measuring import REPOSITORY, Wrong, argument_parser, judged

sys.dont_write_bytecode = True
sys.path.insert(0, str(REPOSITORY / "tests"))

from address_desk import crowd  # noqa: E402
from address_runs import program_over  # noqa: E402

UNITS = [1, 2, 10, 64]
LOST = [0, 1, 2, 5, 10]
MOST_RUNS = 3


def draw(what):
    """Give how many frames and seconds one run took, and after how many runs all had their own, or None."""
    program, count, chance, seed = what
    bus, after = crowd(count, seed=seed, loss=chance), None
    frames = seconds = 0
    for number in range(1, MOST_RUNS + 1):
        program_over(program)(bus, (), None)
        if number == 1:
            frames, seconds = bus.frames, bus.clock.now
        if len({unit.short_address for unit in bus.units} - {None}) == count:
            after = number
            break
    return frames, seconds, after


def measure(bench):
    """Measure all, as many draws at once as there are processors."""
    print(f"Of {bench.runs} draws the median, and the most in brackets.\n")
    print("| units | lost in 100 | frames | minutes | all after one run | after three |\n|---|---|---|---|---|---|")
    with multiprocessing.Pool(os.cpu_count()) as pool:
        for count in bench.arguments.units:
            for lost in bench.arguments.lost:
                draws = pool.map(draw, [(bench.program, count, lost / 100, seed) for seed in range(bench.runs)])
                frames, seconds, after = zip(*draws)
                once = sum(it == 1 for it in after)
                cells = (f"{statistics.median(frames):.0f} ({max(frames)})",
                         f"{statistics.median(seconds) / 60:.1f} ({max(seconds) / 60:.1f})", once,
                         sum(it is not None for it in after))
                print(f"| {count} | {lost} | {' | '.join(map(str, cells))} |", flush=True)
                if not lost and once != bench.runs:
                    raise Wrong(f"{count} units: {bench.runs - once} draws with a unit that has no address of its own")


if __name__ == "__main__":
    parser = argument_parser(__doc__.splitlines()[0], 200)
    parser.add_argument("--units", type=int, nargs="+", default=UNITS, help="how many new units (default: %(default)s)")
    parser.add_argument("--lost", type=int, nargs="+", default=LOST, help="lost in 100 (default: %(default)s)")
    sys.exit(judged(parser, measure))
