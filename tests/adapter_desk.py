"""The base of the tests of adapters: a stand-in command, a run of an adapter with it, and how tests are run."""

import concurrent.futures
import datetime
import importlib
import os
import pathlib
import re
import subprocess
import sys
import tempfile
import traceback

from base import want
from driven import ROOT

ADAPTERS = ROOT / "adapters"

# A stand-in command. Each of its words is a frame that it sends, or what it does: `pause`, `kill` itself, `close` its
# input, `cut` a line. At its end it prints the answers to standard error, and ends with status 7; it ends with
# status 4 where its input ends.
PLAYER = """
import os, signal, sys, time
answers, closed = [], False
for word in sys.argv[1:]:
    if word == "pause":
        time.sleep(0.2)
    elif word == "kill":
        os.kill(os.getpid(), signal.SIGKILL)
    elif word == "close":
        os.close(0)
        closed = True
    elif word == "cut":
        os.write(1, b"A3")
        break
    else:
        os.write(1, word.encode() + b"\\n")
        if closed:
            break
        line = sys.stdin.readline()
        if not line.endswith("\\n"):
            answers.append("end")
            break
        answers.append(line.strip())
os.write(2, ("answers " + " ".join(answers) + "\\n").encode())
sys.exit(4 if answers[-1:] == ["end"] else 7)
"""

# A command that sends frames, and writes what it reads into a file.
WRITER = 'file=$1; shift; for it do echo "$it"; read -r answer; echo "$answer" >>"$file"; done'
# A line of --frames.
SHOWN = re.compile(r"frame ([0-9]+) ([0-9A-F]{4}) (\S\S) at (\d{4}-\d\d-\d\dT\d\d:\d\d:\d\d\.\d{3}) took (\d+\.\d) ms")

# A command that tells which descriptors it has besides the standard streams, and what stands in the first that it names.
HOLDER = """
import os, sys
for number in range(3, 256):
    try:
        os.fstat(number)
    except OSError:
        continue
    sys.stderr.write(f"{number} ")
sys.stderr.write(os.read(os.open(sys.argv[1], os.O_RDONLY), 16).decode())
"""


def player(words):
    """Make the command line of a stand-in command."""
    return [sys.executable, "-S", "-E", "-c", PLAYER, *words]


def run(script, options, words, **more):
    """Run a script with a stand-in command; return its status, the answers and all of standard error."""
    command = [sys.executable, script, *map(str, options), "--", *player(words)]
    ended = subprocess.run(command, stdin=subprocess.DEVNULL, capture_output=True, text=True, timeout=20, **more)
    assert ended.stdout == "", ended.stdout
    answers = re.search("^answers (.*)$", ended.stderr, re.MULTILINE)
    return ended.returncode, answers[1].split() if answers else None, ended.stderr


def want_named_descriptors(script, options):
    """Raise unless a script hands on those descriptors that its command names and it was handed, and none of its own."""
    for is_all in (False, True):
        reads, writes = os.pipe()
        other = os.dup(writes)
        os.write(writes, b"given")
        os.close(writes)
        names = [f"/dev/fd/{it}" for it in ([reads, *range(3, 256), 2 ** 70] if is_all else [reads])]
        words = [sys.executable, script, *map(str, options), "--", sys.executable, "-S", "-E", "-c", HOLDER, *names]
        ended = subprocess.Popen(words, stdin=subprocess.DEVNULL, stdout=subprocess.PIPE, stderr=subprocess.PIPE,
                                 pass_fds=[reads, other], text=True)
        os.close(reads)
        os.close(other)
        # Another thread may have closed a lower one in between.
        wanted = " ".join(map(str, sorted([reads, other] if is_all else [reads]))) + " given"
        want((ended.communicate(timeout=20), ended.returncode), (("", wanted), 0))


def shown_frames(told):
    """Give the lines of --frames: the frames with their answers, their moments, and the milliseconds that each took."""
    lines = [line for line in told.splitlines() if line.startswith("frame ")]
    found = [SHOWN.fullmatch(line) for line in lines]
    assert None not in found, lines
    want([int(it[1]) for it in found], list(range(1, len(found) + 1)))
    moments = [datetime.datetime.fromisoformat(it[4]) for it in found]
    return [(it[2], it[3]) for it in found], moments, [float(it[5]) for it in found]


def want_link_without_frames(script, options, told_to, frames, folder):
    """Raise unless a link answers the frames where --frames can't be written to what standard error is led to."""
    answers = folder / "answers"
    answers.write_text("")
    words = [sys.executable, script, *map(str, options), "--frames", "--", "sh", "-c", WRITER, "sh", answers, *frames]
    ended = subprocess.run(["sh", "-c", f'exec "$@" 2>{told_to}', "sh", *words], stdin=subprocess.DEVNULL,
                           stdout=subprocess.PIPE, timeout=20)
    want((told_to, ended.returncode, ended.stdout), (told_to, 0, b""))
    return answers.read_text().split()


def passes(name, test):
    """Run one test in a folder of its own; tell whether it passed."""
    try:
        with tempfile.TemporaryDirectory() as folder:
            test(pathlib.Path(folder))
        return True
    except Exception:
        print(f"FAILED: {name}\n{traceback.format_exc()}")
        return False


def main(*modules):
    """Run all tests of the modules of these names beside each other, and return the status."""
    found = [vars(importlib.import_module(module)) for module in modules]
    tests = [(name, test) for names in found for name, test in names.items() if name.startswith("test_")]
    with concurrent.futures.ThreadPoolExecutor(8) as pool:
        results = list(pool.map(passes, *zip(*tests)))
    print(f"{results.count(True)} passed, {results.count(False)} failed")
    return 0 if all(results) else 1
