#!/usr/bin/env python3
"""Measure `dali_bench journal` and the calls of a journal.

1. `journal FILE` on 100000 orders with all fields, and with a GTIN, in both versions, beside a plain Python program
   (journal_baseline.py), whose output has to be the same; and loading alone: the same file with a byte after it that
   is no record, so that nothing but the fault is printed.
2. With --calls: `load`, `kept` and a whole order of a writer (submit, two records, sixteen frames without an answer,
   the saying) over journals of 10, 1000 and 99000 orders, and over numbers chosen to fall together in the index
   (colliding.c). The program for that (crates/dali_speed_tests) is proved and built first, unless one is given that a
   gate has built.

Status 0: both programs gave the same output. Status 1: an output differs. Status 2: a program couldn't be built or run.
Status 3: an aim isn't held.
"""

import itertools
import pathlib
import subprocess
import sys

from inputs import FULL, GTIN, MOST_ORDERS, write_journal
from measuring import MEBIBYTE, REPOSITORY, Wrong, argument_parser, best_of, built, judged, run

# Of loading alone: the most seconds, the least times as fast as the baseline, the most memory by the file's size.
MOST_SECONDS, LEAST_RATIO, MOST_MEMORY = 1, 20, 4


def measure_journals(bench):
    """Run the program and the baseline on all files."""
    whole, ended, *outputs = (bench.folder / name for name in ("whole", "ended", "program", "baseline", "loading"))
    for (name, pairs), version in itertools.product([("all fields", FULL), ("a GTIN", GTIN)], (2, 1)):
        write_journal(whole, range(MOST_ORDERS), pairs, b"", version)
        write_journal(ended, range(MOST_ORDERS), pairs, b"A", version)
        commands = [[bench.program, "journal", whole],
                    [sys.executable, REPOSITORY / "benchmarks" / "journal_baseline.py", whole],
                    [bench.program, "journal", ended]]
        told, plain, loaded = (
            best_of([run(words, output) for _ in range(bench.runs)]) for words, output in zip(commands, outputs)
        )
        if outputs[0].read_bytes() != outputs[1].read_bytes():
            raise Wrong("the outputs of the program and the plain one differ")
        size, ratio = whole.stat().st_size, plain.seconds / loaded.seconds
        memory, what = told.peak_memory / size, f"{MOST_ORDERS} orders with {name}, version {version}"
        print(
            f"{what}, {size / MEBIBYTE:.1f} MiB: journal {told.seconds:.3f} s, loading alone {loaded.seconds:.3f} s,"
            f" memory {told.peak_memory / MEBIBYTE:.1f} MiB ({memory:.1f} x file),"
            f" baseline {plain.seconds:.2f} s ({ratio:.0f} x of loading)",
            flush=True,
        )
        bench.aims.want(loaded.seconds <= MOST_SECONDS, f"{what}: loading takes at most {MOST_SECONDS} s")
        bench.aims.want(ratio >= LEAST_RATIO, f"{what}: {LEAST_RATIO} times as fast as the baseline: {ratio:.1f}")
        bench.aims.want(memory <= MOST_MEMORY, f"{what}: memory is at most {MOST_MEMORY} x file: {memory:.1f}")


def measure_calls(bench):
    """Measure calls by the number of orders, and with chosen numbers."""
    if not bench.arguments.calls:
        return
    program, path = bench.arguments.calls_program, bench.folder / "calls"
    if program is None:
        crate = REPOSITORY / "crates" / "dali_speed_tests"
        subprocess.run(["rt", "run"], cwd=crate, check=True, capture_output=True)
        program = crate / "out" / "dali_speed_tests"
    words = [built("benchmarks/colliding.c"), "3fff", str(MOST_ORDERS)]
    chosen = list(map(int, subprocess.run(words, check=True, capture_output=True, text=True).stdout.split()))
    for what, numbers in (
        *(("", range(count)) for count in (10, 1000, 99000)),
        *((", numbers chosen to fall together", chosen[:count]) for count in (1000, 10000, MOST_ORDERS)),
    ):
        write_journal(path, numbers, GTIN)
        told = subprocess.run([program, path], check=True, capture_output=True, text=True).stdout
        known, loaded, found, kept, begun, carried = map(int, told.split())
        order = f", an order {carried / begun / 1000:.2f} us" if begun else ""
        print(f"{known} orders{what}: load {loaded / 1000:.1f} ms, kept {kept / 1000:.0f} ns{order}", flush=True)


if __name__ == "__main__":
    parser = argument_parser(__doc__.splitlines()[0], 3)
    parser.add_argument("--calls", action="store_true", help="measure calls too")
    parser.add_argument("--calls-program", type=pathlib.Path, metavar="FILE", help="a built dali_speed_tests")
    sys.exit(judged(parser, measure_journals, measure_calls))
