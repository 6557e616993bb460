"""The common base of the benchmarks: runs of programs, peers, aims, the machine, arguments."""

import argparse
import atexit
import datetime
import functools
import os
import pathlib
import platform
import subprocess
import sys
import tempfile
from typing import NamedTuple

REPOSITORY = pathlib.Path(__file__).resolve().parent.parent
# Not the launcher, which takes time of its own.
PROGRAM = REPOSITORY / "crates" / "dali_bench" / "out" / "dali_bench"

KIBIBYTE = 1024
MEBIBYTE = 1024 * KIBIBYTE

# The commands that only read a file of JSON, for comparison. -E: a variable such as PYTHONUNBUFFERED tells in the time.
READERS = {
    "jq, reading alone": ["jq", "length"],
    "Python's json, reading alone": [sys.executable, "-E", "-c", "import json, sys; json.load(open(sys.argv[1]))"],
}

# The status of a benchmark in which all ended as it has to, and an aim isn't held.
AIM_MISSED = 3


class Wrong(Exception):
    """Something ended otherwise than it has to."""


class Run(NamedTuple):
    """The measures of one run of a program, and its status."""

    seconds: float
    # Of the process and of the kernel for it.
    processor_seconds: float
    peak_memory: int
    status: int


class Aims:
    """Which aims a benchmark found not to be held."""

    def __init__(self):
        self.missed = 0

    def want(self, is_held, aim):
        """Tell of an aim that isn't held."""
        if not is_held:
            self.missed += 1
            print(f"AIM NOT HELD: {aim}", flush=True)

    def status(self):
        """Give the status: 0 where all aims are held."""
        return AIM_MISSED if self.missed else 0


def built(source, *flags):
    """Build a C program of this folder for as long as this process runs."""
    folder = tempfile.TemporaryDirectory(prefix="dali_bench_")
    atexit.register(folder.cleanup)
    path = pathlib.Path(folder.name) / "built"
    done = subprocess.run(["cc", "-O2", *flags, "-o", path, REPOSITORY / source], check=False)
    if done.returncode:
        raise OSError(f"{source} can't be built")
    return path


@functools.cache
def launcher():
    """Give the program that runs a command and measures it."""
    return built("benchmarks/launched.c")


def run(command, output_path):
    """Run a command with its output in a file; what it tells on standard error is dropped."""
    words = [launcher(), output_path, *command]
    told = subprocess.run(words, stdin=subprocess.DEVNULL, stdout=subprocess.PIPE, text=True, check=False).stdout
    if not told:
        raise OSError(f"{command[0]} can't be run")
    nanoseconds, microseconds, memory, status = map(int, told.split())
    return Run(nanoseconds / 1e9, microseconds / 1e6, memory * KIBIBYTE, status)


def best_of(runs):
    """Give the least times and the highest peak memory of several runs."""
    return Run(
        min(each.seconds for each in runs),
        min(each.processor_seconds for each in runs),
        max(each.peak_memory for each in runs),
        runs[0].status,
    )


def processor():
    """Give the processor's name, where the kernel tells it."""
    try:
        with open("/proc/cpuinfo", encoding="utf-8") as file:
            for line in file:
                if line.startswith("model name"):
                    return line.split(":", 1)[1].strip()
    except OSError:
        pass
    return platform.machine()


def print_machine():
    """Print the date and the machine."""
    now = datetime.datetime.now(datetime.timezone.utc)
    print(f"date      {now:%Y-%m-%d %H:%M:%S} UTC")
    system = f"{platform.system()} {platform.release()}, load {os.getloadavg()[0]:.1f}"
    print(f"machine   {os.cpu_count()} cores, {processor()}, {system}")


def positive(text):
    """Read a whole number over zero."""
    number = int(text)
    if number <= 0:
        raise argparse.ArgumentTypeError("must be over zero")
    return number


def argument_parser(description, runs):
    """Give a parser of the arguments that each benchmark has."""
    parser = argparse.ArgumentParser(description=description)
    parser.add_argument("--program", type=pathlib.Path, default=PROGRAM, help="the built program")
    parser.add_argument("--runs", type=positive, default=runs, help="how many runs of each (default: %(default)s)")
    return parser


class Bench:
    """The base of a benchmark's measures: the program, the command line, a folder, aims."""

    def __init__(self, arguments, folder):
        self.arguments, self.runs = arguments, arguments.runs
        self.program, self.folder = arguments.program.resolve(), pathlib.Path(folder).resolve()
        self.aims = Aims()


def judged(parser, *measures, bench_of=Bench):
    """Take these measures on a bench; give the status: 0, or 1 where something ended otherwise than it has to, 2 where
    a program couldn't be built or run, 3 where an aim isn't held.
    """
    arguments = parser.parse_args()
    print_machine()
    try:
        with tempfile.TemporaryDirectory(prefix="dali_bench_") as folder:
            bench = bench_of(arguments, folder)
            for measure in measures:
                measure(bench)
    except (OSError, subprocess.CalledProcessError) as error:
        print(f"a program couldn't be built or run: {error}", file=sys.stderr)
        return 2
    except Wrong as wrong:
        print(f"WRONG: {wrong}")
        return 1
    return bench.aims.status()
