#!/usr/bin/env python3
"""Measure the commands over files: `check` beside its peers, and each on inputs of the largest size.

1. The start of the program, by itself and by the launcher.
2. `check` on orders of 1 to 16 MiB, beside a plain Python program (baseline.py), whose output and status have to be the
   same, and beside jq and Python's json, which only read. With --draw the pictures of BENCHMARKS.md are drawn.
3. Each command on inputs of the largest size, also those that are made to cost most.
4. `run` on the largest scenarios: the processor's time by frame, and how it grows with the events.

Status 0: all ended as it has to. Status 1: something didn't. Status 2: a program couldn't be run. Status 3: an aim
isn't held.
"""

import filecmp
import pathlib
import sys

import pictures
from inputs import INPUTS, MOST_EVENTS, SCENARIOS, Scenario, write_journal, FULL, MOST_ORDERS
from measuring import MEBIBYTE, PROGRAM, READERS, REPOSITORY, Wrong, argument_parser, best_of, judged, run
from orders import write_orders

SIZES = (1, 2, 4, 8, 16)
JSON = "Python's json, reading alone"
# Of `check` on the largest size: how many times as fast as the plain program, how the time may grow with four times the
# input, the most memory by the input.
LEAST_RATIO, MOST_GROWTH, MOST_MEMORY = 10, 4.5, 3
MOST_MICROSECONDS_PER_FRAME = 20


def measure_start(bench):
    """Measure the starts of the program, and by the launcher where that has built it."""
    launched = [("start by the launcher", REPOSITORY / "dali_bench")] if bench.program == PROGRAM else []
    for name, program in [("start", bench.program), *launched]:
        best = best_of([run([program, "frame", "A303"], bench.folder / "frame.txt") for _ in range(10 * bench.runs)])
        if best.status:
            raise Wrong(f"{program} frame: status {best.status}")
        print(f"{name:48} {best.seconds * 1e3:8.1f} ms", flush=True)


def read_by_each(bench, path):
    """Have each program read orders; give what each took, by its name."""
    commands = {
        "dali_bench check": [bench.program, "check"],
        # -E: a variable such as PYTHONUNBUFFERED would make the baseline slower.
        "the same in Python": [sys.executable, "-E", REPOSITORY / "benchmarks" / "baseline.py", "check"],
        **READERS,
    }
    outputs = [bench.folder / f"output_{at}.txt" for at in range(len(commands))]
    runs = {name: [] for name in commands}
    for _ in range(bench.runs):
        for (name, words), output in zip(commands.items(), outputs):
            runs[name].append(run([*words, path], output))
    best = {name: best_of(each) for name, each in runs.items()}
    ours, plain = list(best.values())[:2]
    if ours.status != plain.status or not filecmp.cmp(*outputs[:2], shallow=False):
        raise Wrong(f"{path.name}: the outputs or statuses of the program and the plain one differ")
    return best


def measure_check(bench):
    """Measure `check` beside its peers, by the size of its input."""
    path, found = bench.folder / "orders.json", {}
    for size in SIZES:
        count = write_orders(path, size * MEBIBYTE)
        found[size] = read_by_each(bench, path)
        for name, best in found[size].items():
            print(
                f"{size:3} MiB, {count:6} orders, {name:28} {best.seconds:8.3f} s"
                f" {best.peak_memory / MEBIBYTE:7.1f} MiB {best.peak_memory / path.stat().st_size:5.1f} x input",
                flush=True,
            )
    ours, plain, reader = (found[16][name] for name in ("dali_bench check", "the same in Python", JSON))
    ratio, growth = plain.seconds / ours.seconds, ours.seconds / found[4]["dali_bench check"].seconds
    bench.aims.want(ratio >= LEAST_RATIO, f"{LEAST_RATIO} times as fast as the plain program: {ratio:.1f}")
    bench.aims.want(ours.seconds <= reader.seconds, f"at most the time in which Python reads: {reader.seconds:.3f} s")
    bench.aims.want(growth <= MOST_GROWTH, f"at most {MOST_GROWTH} times the time for 4 times the input: {growth:.1f}")
    if bench.arguments.draw:
        draw(found)


def draw(found):
    """Draw the time and the memory of each program over the size."""
    for name, title, unit, of in (("check_time", "Time", "seconds", lambda best: best.seconds),
                                  ("check_memory", "Peak memory", "MiB", lambda best: best.peak_memory / MEBIBYTE)):
        lines = {program: [(size, of(found[size][program])) for size in SIZES] for program in found[SIZES[0]]}
        pictures.save(name, f"{title} of reading orders", "MiB of orders", unit, lines)


def measure_inputs(bench):
    """Measure each command on inputs of the largest size."""
    path, full = bench.folder / "input", bench.folder / "journal"
    for given in INPUTS:
        given.write(path, 16 * MEBIBYTE)
        size, runs = path.stat().st_size, []
        for _ in range(bench.runs):
            words = [bench.program, given.command, path]
            if given.command == "drive":
                write_journal(full, range(MOST_ORDERS), FULL, b"", 1)
                words.append(full)
            runs.append(run(words, bench.folder / "output.txt"))
        best = best_of(runs)
        print(
            f"{given.command:8} {given.name:52} {size / MEBIBYTE:5.1f} MiB {best.seconds:7.3f} s"
            f" {best.peak_memory / MEBIBYTE:8.1f} MiB {best.peak_memory / size:6.1f} x input",
            flush=True,
        )
        if best.status != given.status:
            raise Wrong(f"{given.command}, {given.name}: status {best.status}, and {given.status} is due")
        if given.command == "check":
            held = best.peak_memory <= MOST_MEMORY * size
            bench.aims.want(held, f"{given.name}: at most {MOST_MEMORY} times the input in memory")


def measured_run(bench, scenario):
    """Run a scenario, which has to send its frames, and give what that took."""
    path, output = bench.folder / "scenario.json", bench.folder / "run.txt"
    scenario.write(path)
    best = best_of([run([bench.program, "run", path], output) for _ in range(bench.runs)])
    told = [line.split()[1] for line in output.read_text(encoding="ascii").splitlines() if line.startswith("total ")]
    if best.status or told != [str(scenario.frames)]:
        raise Wrong(f"a scenario: status {best.status}, frames {told}, and {scenario.frames} are due")
    return best


def measure_run(bench):
    """Measure `run` on scenarios, by their number of events."""
    start = measured_run(bench, Scenario([], [], [], 0)).processor_seconds
    for name, make in SCENARIOS.items():
        scenario = make(MOST_EVENTS)
        fewer, best = measured_run(bench, make(MOST_EVENTS // 4)), measured_run(bench, scenario)
        by_frame = best.processor_seconds * 1e6 / scenario.frames
        growth = (best.processor_seconds - start) / (fewer.processor_seconds - start)
        print(
            f"run {name:24} {scenario.frames:6} frames {best.processor_seconds * 1e3:7.1f} ms"
            f" {by_frame:5.2f} us a frame {best.peak_memory / MEBIBYTE:6.1f} MiB,"
            f" {growth:.1f} times the time for 4 times the events",
            flush=True,
        )
        most = MOST_MICROSECONDS_PER_FRAME
        bench.aims.want(by_frame < most, f"{name}: a frame takes under {most} us")
        bench.aims.want(growth <= MOST_GROWTH, f"{name}: at most {MOST_GROWTH} times the time for 4 times the events")


if __name__ == "__main__":
    parser = argument_parser(__doc__.splitlines()[0], 3)
    parser.add_argument("--draw", action="store_true", help=f"draw {pathlib.Path('docs/pictures')} anew")
    sys.exit(judged(parser, measure_start, measure_check, measure_inputs, measure_run))
