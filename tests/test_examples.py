#!/usr/bin/env python3
"""Run the cases of examples/ with the launcher, and some of them with one allocation after the other refused.

    test_examples.py PROGRAM ROOM    PROGRAM is what the launcher starts, ROOM has refuse_alloc.so

A run with a refused allocation ends as want of memory, or as the case says if it can do without; the last run, in which
none is refused, ends as the case says. The last line is `N passed, M failed`.
"""

import concurrent.futures
import os
import pathlib
import subprocess
import sys
import tempfile

from cases import ROOT, all_cases

# The cases whose allocations are refused.
SWEPT = ("gtin", "full", "show_bank", "frame_dtr0", "fields", "run_gtin", "run_left", "run_full", "run_stop",
         "journal_left")


def ran(program, case, room, **environment):
    """Run a program on a case."""
    words = [program, *case.words_in(room)]
    return subprocess.run(words, input=case.given, capture_output=True, cwd=ROOT, env={**os.environ, **environment})


def fault_of(case, room):
    """Run a case, and tell what isn't as it has to be, or give None."""
    done = ran(ROOT / "dali_bench", case, room)
    if done.returncode != case.status:
        return f"it ended with status {done.returncode}, and not {case.status}"
    if not case.is_wanted(done.stdout):
        return f"it printed {done.stdout[:2000]!r}"
    if case.error is not None and done.stderr != case.error:
        return f"it said on standard error {done.stderr[:2000]!r}"
    return None


def fault_without_memory(program, case, room, shims):
    """Run a case with each allocation refused in turn, and tell what isn't as it has to be, or give None."""
    number = ran_out = 0
    while True:
        number += 1
        done = ran(program, case, room, REFUSED_ALLOCATION=str(number), LD_PRELOAD=f"{shims}/refuse_alloc.so")
        is_whole = done.returncode == 0 and case.is_wanted(done.stdout)
        if b"an allocation was refused\n" not in done.stderr:
            print(f"refused allocations: {case.name} has {number - 1}, of which {ran_out} ended as want of memory")
            return None if ran_out and is_whole else "the last run"
        if done.returncode == 2 and done.stdout == b"fault 20 Memory\n":
            ran_out += 1
        elif not is_whole:
            return f"with allocation {number} refused the status is {done.returncode}"


def main(arguments):
    """Run all, tell what failed, and return the status."""
    program, shims = (pathlib.Path(it).resolve() for it in arguments)
    cases = list(all_cases())
    with tempfile.TemporaryDirectory() as room, concurrent.futures.ThreadPoolExecutor(os.cpu_count()) as pool:
        swept = [it for it in cases if it.name in SWEPT]
        runs = [(it.name, pool.submit(fault_without_memory, program, it, room, shims)) for it in swept]
        # One after the other, since some go on from the journals of those before them.
        faults = [(it.name, fault_of(it, room)) for it in cases]
        faults += [(f"{name} without memory", it.result()) for name, it in runs]
    used = {word for case in cases for word in case.words}
    inputs = [it.relative_to(ROOT).as_posix() for it in sorted((ROOT / "examples").glob("*.json"))
              if it.name != "orders.schema.json"]
    faults += [(it, None if it in used else "no case runs on it") for it in inputs]
    failed = [(name, fault) for name, fault in faults if fault]
    for name, fault in failed:
        print(f"FAILED: examples: {name}: {fault}")
    print(f"{len(faults) - len(failed)} passed, {len(failed)} failed")
    return bool(failed)


if __name__ == "__main__":
    sys.exit(main(sys.argv[1:]))
