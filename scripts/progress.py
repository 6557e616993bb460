"""How far a build is, and how long the rest takes.

That is by the time that each library took where it was measured, and by how fast this machine was on those that are
done.
"""

import heapq
import json
import pathlib
import shutil
import time

from crates import ONE_CHECK, free_memory

# The seconds by the clock that each library and the program take on four processors, as `build --measure` writes them.
TABLE = pathlib.Path(__file__).with_name("build_seconds.json")
PROGRAM = "dali_bench"
# The processors of the machine for which an estimate is printed before a build begins.
CORES = 4
# The most that a build from nothing has on the disk, in bytes.
DISK = 2_800_000_000


def measured():
    """Give the seconds of each library and of the program."""
    return json.loads(TABLE.read_text(encoding="utf-8"))


def write_measured(seconds):
    """Write the seconds of each library and of the program."""
    text = json.dumps({name: round(took, 1) for name, took in sorted(seconds.items())}, indent=4)
    TABLE.write_text(f"{text}\n", encoding="utf-8")


def shares(clock, processor):
    """Give a table of the seconds that each library and the program took, those with the most of the processors first."""
    together = sum(processor.values())
    rows = [f"{clock[name]:9.1f} {took:9.1f} {100 * took / together:5.1f} %  {name}"
            for name, took in processor.most_common()]
    return "\n".join(["seconds by the clock, of the processors, and their share:", *rows])


def time_of(seconds, used, processors, running=()):
    """Give in how many seconds all of these are done, by this many processors, each after those of them that it rests
    on.

    `running` has those at work with the seconds that they still take. Of those that can begin the one comes first that has
    the longest chain after it.
    """
    left = {name: set(used[name]) & set(seconds) for name in seconds}
    above = {name: [it for it in seconds if name in left[it]] for name in seconds}
    chains = {}

    def chain(name):
        if name not in chains:
            chains[name] = seconds[name] + max((chain(it) for it in above[name]), default=0)
        return chains[name]

    now, ends = 0.0, [(remaining, name) for name, remaining in dict(running).items()]
    heapq.heapify(ends)
    waiting = {name for name in seconds if name not in dict(running)}
    while waiting or ends:
        for name in sorted((it for it in waiting if not left[it]), key=chain, reverse=True)[:processors - len(ends)]:
            waiting.remove(name)
            heapq.heappush(ends, (now + seconds[name], name))
        now, done = heapq.heappop(ends)
        for its in left.values():
            its.discard(done)
    return now


def about(seconds):
    """Give a time in words."""
    minutes = round(seconds / 60)
    return "a minute" if minutes < 2 else f"some {minutes} minutes"


def needed(count, what, free):
    """Give in words how many bytes of something are needed, and how many there are, where that is known."""
    return f"{count / 1e9:.1f} GB of {what}" + (f" ({free / 1e9:.1f} GB are free)" if free is not None else "")


def needs(libraries, used, folder):
    """Give what a build takes that has these libraries to prove."""
    table = measured()
    seconds = {name: table.get(name, 0) for name in {*libraries, PROGRAM}}
    disk, memory = needed(DISK, "disk", shutil.disk_usage(folder).free), needed(ONE_CHECK, "memory", free_memory())
    names = "1 library" if len(libraries) == 1 else f"{len(libraries)} libraries"
    return (f"{names} and the program take {about(time_of(seconds, used, CORES))} on four cores,"
            f" up to {disk} and at least {memory}")


class Progress:
    """How many of the libraries are done, and the time that is left."""

    def __init__(self, known, used, processors, clock=time.monotonic):
        """Begin a build, of which these libraries are known to be proved: None where nobody knows which.

        `used` has what the program and each of its libraries stands on.
        """
        self.known, self.used, self.processors, self.clock = known, used, processors, clock
        table = measured()
        self.left = {name: table.get(name, 0) for name in used}
        self.begun, self.took, self.should = {}, 0, 0

    def begin(self, name):
        """Note that the proof of a library begins."""
        self.begun[name] = self.clock()

    def done(self, name):
        """Give the line on a library that is done."""
        begun, should = self.begun.pop(name), self.left.pop(name)
        count = len(self.used) - 1
        line = f"{count + 1 - len(self.left)} of {count} libraries"
        if self.known is None:
            return line
        if name not in self.known:
            self.took += self.clock() - begun
            self.should += should
        return f"{line}, {about(self.time_left())} left"

    def time_left(self):
        """Give the seconds that the rest takes on this machine."""
        slowness = self.took / self.should if self.should else 1
        seconds = {name: 0 if name in self.known else slowness * its for name, its in self.left.items()}
        running = {name: max(seconds[name] - (self.clock() - begun), 0) for name, begun in self.begun.items()}
        return time_of(seconds, self.used, self.processors, running)
