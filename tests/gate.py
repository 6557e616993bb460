#!/usr/bin/env python3
"""The gate: `./test` runs it, and CI runs nothing else.

    ./test [--anew | --seed SEED]
    ./test --built [PART..]

It looks at the texts and the scripts, has `rt ci` prove all crates and run the tests in the language, has wrong bodies
tried beside that, and then tests the program that was built: on the cases of examples/, and at the edges of the system.

A crate that was proved before on this machine over the same files isn't proved again. Of the edits that the record
(refused.txt) has as refused over the same files forty are tried, by chance: with --seed those of another run. With --anew
all is proved and tried. With --built only the program is tested, as it is built, all of it or these parts: `drive` for
tests/test_drive.py.

The last line is `N passed, M failed` over all, and above it is what each part took. The status is 0 only if none failed.
"""

import os
import pathlib
import re
import resource
import signal
import subprocess
import sys
import tempfile
import time

sys.dont_write_bytecode = True

ROOT = pathlib.Path(__file__).resolve().parent.parent
PROGRAM = ROOT / "crates" / "dali_bench" / "out" / "dali_bench"
NUMBERS = re.compile(r"(\d+) passed, (\d+) failed")
# The tests of texts and scripts, and the scripts that test; the last two of these print nothing if all is well.
TEXTS = ("documents", "layout", "forms", "build", "refused", "closure", "reach")
SCRIPTS = (("scripts/believe", "--limits"), ("scripts/wrong_bodies", "--apply"))
# The tests of the built program, by their names: most are given it and the folder of what is preloaded to it.
PARTS = ("edges", "memory", "examples", "drive", "read", "address", "desk", "adapters", "bench", "service", "mistakes",
         "line", "line_computer", "notes", "largest", "table", "fields", "known", "fuzz", "release", "completions",
         "package")
TAKE_NOTHING = ("desk", "adapters")
TAKE_PROGRAM = ("notes", "largest")
FUZZ = ("tests/fuzz", str(PROGRAM), "--cases", "3000")
SHIMS = ("drive_shim", "refuse_alloc")


def processor_seconds():
    """Give the seconds of the processor that this process and those that it has ended took."""
    used = (resource.getrusage(who) for who in (resource.RUSAGE_SELF, resource.RUSAGE_CHILDREN))
    return sum(it.ru_utime + it.ru_stime for it in used)


class Gate:
    """The numbers that passed and failed, and the time of each part."""

    def __init__(self, room):
        """Begin, with a folder for files."""
        self.room, self.passed, self.failed, self.parts = room, 0, 0, []
        self.moment = time.monotonic(), processor_seconds()

    def look(self, is_well, what):
        """Count what is well, and print what isn't."""
        self.passed += bool(is_well)
        if not is_well:
            self.failed += 1
            print(f"FAILED: {what}", flush=True)

    def add(self, name, told):
        """Show what a test printed, except its last line, whose numbers are added."""
        *lines, last = told.rstrip("\n").split("\n")
        found = NUMBERS.fullmatch(last)
        shown = [it for it in lines if not NUMBERS.fullmatch(it)] + ([] if found else [last])
        print("".join(f"{it}\n" for it in shown if it), end="", flush=True)
        if found:
            self.passed, self.failed = self.passed + int(found[1]), self.failed + int(found[2])
        else:
            self.look(False, f"{name}: it did not come to its end")

    def run(self, name, *words):
        """Run a test, and add its numbers."""
        how = {"stdin": subprocess.DEVNULL, "stdout": subprocess.PIPE, "stderr": subprocess.STDOUT}
        self.add(name, subprocess.run(words, cwd=ROOT, text=True, errors="replace", check=False, **how).stdout)

    def end_part(self, name):
        """Note that a part is over."""
        now = time.monotonic(), processor_seconds()
        self.parts.append((name, now[0] - self.moment[0], now[1] - self.moment[1]))
        self.moment = now

    def end(self):
        """Print what each part took, and the numbers; give the status."""
        print("minutes by the clock, of the processor:")
        together = ("together", *(sum(column) for column in tuple(zip(*self.parts))[1:]))
        for name, clock, processor in (*self.parts, together):
            print(f"{clock / 60:7.1f} {processor / 60:7.1f}  {name}")
        print(f"{self.passed} passed, {self.failed} failed")
        return int(self.failed > 0)


class WrongBodies:
    """Wrong bodies of a crate, which are tried beside `rt ci` once that has proved the crate."""

    def __init__(self, gate, words):
        """Begin. A group of their own, so that all can be ended; no session of their own: niceness wouldn't apply."""
        self.gate, self.told = gate, gate.room / "wrong_bodies"
        self.log = gate.room / "gate"
        self.log.touch()
        words = ["nice", "-n", "19", "scripts/wrong_bodies", *words, "--gate", self.log]
        with open(self.told, "wb") as told:
            self.process = subprocess.Popen(words, cwd=ROOT, stdin=subprocess.DEVNULL, stdout=told,
                                            stderr=subprocess.STDOUT, env={**os.environ, "TMPDIR": str(gate.room)},
                                            preexec_fn=os.setpgrp)

    def __enter__(self):
        """Give this."""
        return self

    def __exit__(self, *_):
        """End what still runs."""
        if self.process.poll() is None:
            os.killpg(self.process.pid, signal.SIGTERM)
            self.process.wait()

    def wait(self):
        """Wait until all were tried, and add their numbers."""
        self.process.wait()
        self.gate.add("the wrong bodies", self.told.read_text(encoding="utf-8", errors="replace"))


def from_launcher(text, *words):
    """Run a command of the launcher's file, and give what it prints."""
    words = ["bash", "-c", f'root=$1; . scripts/built.sh; shift; {text} "$@"', "bash", ROOT, *words]
    return subprocess.run(words, cwd=ROOT, stdout=subprocess.PIPE, text=True, check=True).stdout


def test_texts(gate):
    """Test the texts and the scripts."""
    for name in TEXTS:
        gate.run(name, f"tests/test_{name}.py")
    for words in SCRIPTS:
        gate.run(words[0], *words)
    unused = subprocess.run(["scripts/unused"], cwd=ROOT, stdout=subprocess.PIPE, text=True, check=False)
    gate.look(not unused.returncode, f"unused:\n{unused.stdout}")
    gate.end_part("texts and scripts")


def prove(gate, anew, edits):
    """Have all proved, with wrong bodies tried beside it; give whether the program is built by that."""
    second, total = int(time.time()), from_launcher("sum_of_sources").strip()
    with WrongBodies(gate, edits) as bodies, open(bodies.log, "w", encoding="utf-8") as log:
        process = subprocess.Popen(["rt", "ci", *anew], cwd=ROOT, stdout=subprocess.PIPE, text=True, errors="replace")
        last = ""
        for line in process.stdout:
            last = line
            log.write(line)
            log.flush()
            print(line if not NUMBERS.fullmatch(line.strip()) else "", end="", flush=True)
        process.wait()
        failed_before = gate.failed
        gate.add("rt ci", last)
        log.write("the gate is over\n")
        log.flush()
        gate.end_part("rt ci: proofs, and tests in the language")
        is_built = gate.failed == failed_before and os.access(PROGRAM, os.X_OK)
        bodies.wait()
    gate.end_part("wrong bodies: by the clock, what they took after rt ci")
    if is_built:
        from_launcher("note_built", total, str(second))
    return is_built


def test_program(gate, parts):
    """Test the built program."""
    for name in SHIMS:
        words = ["cc", "-shared", "-fPIC", "-o", gate.room / f"{name}.so", f"tests/{name}.c", "-ldl"]
        subprocess.run(words, cwd=ROOT, check=True)
    for name in parts:
        given = () if name in TAKE_NOTHING else (PROGRAM,) if name in TAKE_PROGRAM else (PROGRAM, gate.room)
        gate.run(name, *(FUZZ if name == "fuzz" else (f"tests/test_{name}.py", *given)))
        gate.end_part(f"tests of the program: {name}")


def whole(gate, anew, edits):
    """Do all of it."""
    test_texts(gate)
    if prove(gate, anew, edits):
        test_program(gate, PARTS)
    else:
        gate.look(False, "the program was not tested, since the gate failed")


def way_of(words):
    """Give what is done for these words of the command line, or None if they are no such words."""
    if not words:
        return lambda gate: whole(gate, [], [])
    if words == ["--anew"]:
        return lambda gate: whole(gate, ["--anew"], ["--all"])
    if words[0] == "--seed" and len(words) == 2:
        return lambda gate: whole(gate, [], words)
    if words[0] == "--built" and set(words[1:]) <= set(PARTS):
        return lambda gate: test_program(gate, tuple(words[1:]) or PARTS)
    return None


def main(words):
    """Do what the words ask for, and return the status."""
    way = way_of(words)
    if way is None:
        print(__doc__.partition("\n\n")[2].partition("\n\n")[0], file=sys.stderr)
        return 2
    # So that a gate that is ended also ends the wrong bodies, and leaves no files.
    signal.signal(signal.SIGTERM, lambda *_: sys.exit(1))
    with tempfile.TemporaryDirectory() as folder:
        gate = Gate(pathlib.Path(folder))
        way(gate)
        return gate.end()


if __name__ == "__main__":
    sys.exit(main(sys.argv[1:]))
