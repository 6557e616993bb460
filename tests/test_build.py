#!/usr/bin/env python3
"""Test the progress that a build prints: by hand, and over a kit that proves nothing.

The last line is `N passed, M failed`, and the status is 0 only where none failed.
"""

import collections
import fcntl
import json
import os
import re
import shutil
import subprocess
import sys
from unittest import mock

sys.dont_write_bytecode = True

import adapter_desk  # noqa: E402
from base import want  # noqa: E402
from driven import ROOT, load  # noqa: E402

sys.path.insert(0, str(ROOT / "scripts"))
crates, progress = (load(ROOT / "scripts" / f"{name}.py") for name in ("crates", "progress"))
LAUNCHED = ("crates.txt", "HANDLES", "dali_bench", "scripts/built.sh", "scripts/start.sh", "scripts/build",
            "scripts/crates.py", "scripts/progress.py", "scripts/build_seconds.json", "scripts/sums.py")
RT = '#!/bin/sh\ncase $1 in doc) echo {kit}/START-HERE.md ;; version) echo kit 1 logic 2 ;; *) exit 1 ;; esac\n'
OUT_OF = 'while [ $# -gt 0 ]; do [ "$1" = -o ] && out=$2; shift; done\n'
RATTLE = f'#!/bin/sh\n{OUT_OF}echo >"$out"\n'
LINK = f'#!/bin/sh\n{OUT_OF}printf \'#!/bin/sh\\necho ran\\n\' >"$out"; chmod +x "$out"\n'
NEEDS = (r"dali_bench: {} and the program take {} on four cores, up to 2.8 GB of disk \(\d+\.\d GB are"
         r" free\) and at least 4.3 GB of memory \(\d+\.\d GB are free\)")
NAMES = json.loads((ROOT / "scripts/build_seconds.json").read_text())
# All of them but the program.
LIBRARIES = len(NAMES) - 1
IS_PROVED = re.compile(rf"dali_bench: (dali_\w+) is proved: (\d+) of {LIBRARIES} libraries, (a|some \d+) minutes? left")


# A program over four libraries, and the seconds that each took where it was measured.
USED = {"low": [], "left": ["low"], "right": ["low"], "top": ["left", "right"], "dali_bench": ["top"]}
SECONDS = {"low": 60, "left": 300, "right": 120, "top": 60, "dali_bench": 60}


def told(known, *turns, processors=2):
    """Give the lines printed if libraries begin and are done at these minutes."""
    minutes = 0
    with mock.patch.object(progress, "measured", lambda: SECONDS):
        state = progress.Progress(known, USED, processors, lambda: 1000 + 60 * minutes)
    lines = []
    for minutes, verb, name in turns:
        lines.append(getattr(state, verb)(name))
    return [line for line in lines if line is not None]


def test_each_library_has_its_seconds(folder):
    want(set(progress.measured()), {"dali_bench", *crates.below("dali_bench", crates.uses())})


def test_time_of_a_build(folder):
    # The longest chain with enough processors; all of it by one; what is at work takes what is left of it.
    want([progress.time_of(SECONDS, USED, count) for count in (1, 2, 9)], [600, 480, 480])
    want(progress.time_of({"top": 60, "left": 300, "right": 120}, USED, 1, {"right": 20}), 20 + 300 + 60)
    want([progress.time_of({}, USED, 4), progress.time_of({"dali_bench": 60}, USED, 4)], [0, 60])
    # The longer chain comes first: else it would take 120 + 300 + 60.
    want(progress.time_of({"right": 120, "left": 300, "right_too": 120, "top": 60},
                          {**USED, "right_too": ["low"], "top": ["left", "right", "right_too"]}, 2), 360)


def test_time_that_is_left(folder):
    # As it was measured.
    turns = ((0, "begin", "low"), (1, "done", "low"), (1, "begin", "left"), (1, "begin", "right"), (3, "done", "right"),
             (6, "done", "left"), (6, "begin", "top"), (7, "done", "top"))
    want(told(set(), *turns), ["1 of 4 libraries, some 7 minutes left", "2 of 4 libraries, some 5 minutes left",
                               "3 of 4 libraries, some 2 minutes left", "4 of 4 libraries, a minute left"])
    # On a machine that takes three times as long: so it is from the first one on.
    slow = tuple((3 * minutes, verb, name) for minutes, verb, name in turns)
    want(told(set(), *slow), ["1 of 4 libraries, some 21 minutes left", "2 of 4 libraries, some 15 minutes left",
                              "3 of 4 libraries, some 6 minutes left", "4 of 4 libraries, some 3 minutes left"])


def test_time_of_what_was_proved_before(folder):
    turns = ((0, "begin", "low"), (0, "done", "low"), (0, "begin", "left"), (0, "begin", "right"), (0, "done", "left"),
             (4, "done", "right"))
    want(told({"low", "left"}, *turns), ["1 of 4 libraries, some 4 minutes left", "2 of 4 libraries, some 4 minutes left",
                                         "3 of 4 libraries, some 4 minutes left"])


def test_no_time_where_nobody_knows_what_is_proved(folder):
    want(told(None, (0, "begin", "low"), (5, "done", "low")), ["1 of 4 libraries"])


def test_processors_of_a_check_that_is_alone(folder):
    # A check may take 4 GiB, and one has begun in any case.
    for gigabytes, processors, jobs in ((24, 4, 4), (12, 4, 3), (3, 4, 1), (None, 4, 4), (24, 2, 2), (256, 64, 8),
                                        (None, 64, 8)):
        free = gigabytes and gigabytes << 30
        with mock.patch.object(crates, "free_memory", lambda free=free: free):
            want(crates.jobs_of(processors), jobs)


def test_shares_of_the_processors(folder):
    want(progress.shares({"low": 60, "top": 20.04}, collections.Counter({"low": 90, "top": 30})).splitlines(), [
        "seconds by the clock, of the processors, and their share:",
        "     60.0      90.0  75.0 %  low",
        "     20.0      30.0  25.0 %  top"])


def repository(folder):
    """Make a repository of empty crates, and a kit that proves and makes whatever it is given."""
    root, kit = folder / "repository", folder / "kit"
    for name in LAUNCHED:
        (root / name).parent.mkdir(parents=True, exist_ok=True)
        shutil.copy(ROOT / name, root / name)
    for name in NAMES:
        for part in ("src", "specs", "proofs"):
            (root / "crates" / name / part).mkdir(parents=True)
        (root / "crates" / name / "src" / "lib.rt").write_text(name)
    (kit / "bin").mkdir(parents=True)
    for name, text in (("rt", RT.format(kit=kit)), ("rattle", RATTLE), ("rattle-link", LINK)):
        (kit / "bin" / name).write_text(text)
        (kit / "bin" / name).chmod(0o755)
    return root, {**os.environ, "PATH": f"{kit}/bin:{os.environ['PATH']}"}


def build(root, environment):
    """Start the launcher, and give what it tells."""
    ended = subprocess.run([root / "dali_bench", "--help"], stdin=subprocess.DEVNULL, capture_output=True, text=True,
                           env=environment, timeout=60)
    want((ended.returncode, ended.stdout), (0, "ran\n"))
    return ended.stderr.splitlines()


def test_the_first_command_tells_how_far_it_is(folder):
    root, environment = repository(folder)
    first, needs, *proved, last = build(root, environment)
    want((first, last), ("dali_bench: proving and building the program, once for these sources; this takes minutes",
                         "dali_bench: built"))
    assert re.fullmatch(NEEDS.format(f"{LIBRARIES} libraries", r"some \d+ minutes"), needs), needs
    found = [IS_PROVED.fullmatch(line) for line in proved]
    assert None not in found, proved
    want(sorted(it[1] for it in found), sorted(set(NAMES) - {"dali_bench"}))
    want([int(it[2]) for it in found], list(range(1, LIBRARIES + 1)))
    want(build(root, environment), [])


def test_a_build_waits_for_another(folder):
    root, environment = repository(folder)
    (root / "crates/dali_bench/out").mkdir()
    with open(root / "crates/dali_bench/out/build.lock", "w") as lock:
        fcntl.flock(lock, fcntl.LOCK_EX)
        launcher = subprocess.Popen([root / "dali_bench", "--help"], stdin=subprocess.DEVNULL, stdout=subprocess.PIPE,
                                    stderr=subprocess.PIPE, text=True, env=environment)
        lines = [launcher.stderr.readline() for _ in range(2)]
        want(lines[1], "dali_bench: another build is at work here, and this one waits for it\n")
        want(launcher.poll(), None)
    output, complaint = launcher.communicate(timeout=60)
    want((launcher.returncode, output, complaint.splitlines()[-1]), (0, "ran\n", "dali_bench: built"))


def test_rooms_of_a_killed_build_are_cleared(folder):
    root, environment = repository(folder)
    left = root / "crates/dali_bench/out/rooms-killed"
    (left / "dali_frame").mkdir(parents=True)
    (left / "dali_frame/crates.txt").write_text("dali_frame:\n")
    build(root, environment)
    want(left.exists(), False)


def test_a_later_build_counts_what_is_left(folder):
    root, environment = repository(folder)
    build(root, environment)
    (root / "crates/dali_file_commands/src/lib.rt").write_text("another")
    _, needs, *proved, _ = build(root, environment)
    # Those of that library and of the program, one after the other.
    minutes = progress.about(NAMES["dali_file_commands"] + NAMES["dali_bench"])
    assert re.fullmatch(NEEDS.format("1 library", minutes), needs), needs
    want(len(proved), LIBRARIES)
    assert proved[0].endswith(f" is proved: 1 of {LIBRARIES} libraries, {minutes} left"), proved[0]


if __name__ == "__main__":
    sys.exit(adapter_desk.main(__name__))
