"""An instance of service/dali-bench-pipe@.service, for which a test plays systemd, and how a unit file is read."""

import contextlib
import errno
import os
import pathlib
import re
import shlex
import signal
import subprocess
import threading
import time

from base import settings, want
from driven import PATIENCE, ROOT, wait_for

UNIT = ROOT / "service" / "dali-bench-pipe@.service"
PROGRAMS, VARIABLES, STATES = "/opt/dali-bench", "/etc/dali-bench", "/var/lib"
# In the place of RestartSec, so that the test takes seconds.
PAUSE = 0.05
YEAR, WEEK = 0x13, 0x14
UNITS = (5, 6, 60)
# Which processes a kill is for: all of them, the adapter, the drive.
ALL, FIRST, LAST = slice(None), slice(1), slice(-1, None)


def settings_of(text):
    """Read a unit file: give the values of each key, in their order."""
    found = {}
    for line in text.replace("\\\n", " ").splitlines():
        if line and line[0] not in "#;[":
            key, value = line.split("=", 1)
            found.setdefault(key, []).append(value)
    return found


def variables_of(text):
    """Read a file of variables."""
    lines = [line.split("=", 1) for line in text.splitlines() if line and line[0] not in "#;"]
    return {name: " ".join(shlex.split(value)) for name, value in lines}


def words_of(command, variables):
    """Give the words of a command: a variable that stands alone is split, and two dollar signs are one."""
    words = []
    for word in shlex.split(command):
        is_variable = re.fullmatch(r"\$[A-Z]+", word)
        words += variables.get(word[1:], "").split() if is_variable else [word.replace("$$", "$")]
    return words


def processes_of(group):
    """Give the processes of a group that haven't ended, each with its state as the system's letter."""
    found = {}
    for path in pathlib.Path("/proc").glob("[0-9]*/stat"):
        try:
            state, _, its_group = path.read_text().rpartition(")")[2].split()[:3]
        except (FileNotFoundError, ProcessLookupError):
            continue
        if int(its_group) == group and state not in "ZX":
            found[int(path.parent.name)] = state
    return found


class Instance:
    """An instance of the unit file in a folder of the test, with a system manager that starts it again."""

    def __init__(self, folder, name="bus1"):
        places = {PROGRAMS: folder / "programs", VARIABLES: folder / "variables", STATES: folder / "states"}
        text = UNIT.read_text()
        for place in (PROGRAMS, VARIABLES):
            assert place in text, f"the unit file has no {place}"
            text = text.replace(place, str(places[place]))
        self.keys = settings_of(text.replace("%S", str(places[STATES])).replace("%i", name))
        self.state = places[STATES] / self.keys["StateDirectory"][0]
        self.variables = pathlib.Path(self.keys["EnvironmentFile"][0])
        for place in places.values():
            place.mkdir(exist_ok=True)
        for path, target in (("dali_bench", settings["program"]), ("adapters", ROOT / "adapters")):
            if not (places[PROGRAMS] / path).exists():
                (places[PROGRAMS] / path).symlink_to(target)
        units = " ".join(f"--unit {unit}" for unit in UNITS)
        self.variables.write_text(f'ADAPTER="{places[PROGRAMS]}/adapters/simulated_link.py {units}"\nOPTIONS=\n')
        self.orders, self.replies, self.journal = (self.state / it for it in ("orders", "replies", "bench.journal"))
        self.main, self.starts, self.kills, self.is_wanted, self.fault = None, 0, [], True, None
        self.manager = threading.Thread(target=self.manage, daemon=True)

    def run(self, key, starter):
        """Run or start the commands of a key."""
        variables = variables_of(self.variables.read_text())
        path = {"PATH": os.environ["PATH"]}
        for command in self.keys[key]:
            yield starter(words_of(command, variables), cwd=self.keys["WorkingDirectory"][0], env={**path, **variables},
                          umask=int(self.keys["UMask"][0], 8), stdin=subprocess.DEVNULL, start_new_session=True,
                          stdout=subprocess.DEVNULL, stderr=subprocess.DEVNULL)

    def start(self):
        """Start it once."""
        self.state.mkdir(int(self.keys["StateDirectoryMode"][0], 8), parents=True, exist_ok=True)
        for made in self.run("ExecStartPre", subprocess.run):
            want(made.returncode, 0)
        self.main, = self.run("ExecStart", subprocess.Popen)
        self.starts += 1

    def end(self, number=signal.SIGKILL):
        """Send a signal to all its processes, wait until none is left, and give the status of the first."""
        os.killpg(self.main.pid, number)
        os.waitid(os.P_PID, self.main.pid, os.WEXITED | os.WNOWAIT)
        os.killpg(self.main.pid, signal.SIGKILL)
        wait_for(lambda: not processes_of(self.main.pid))
        return self.main.wait()

    def manage(self):
        """Start it again after each end, until it is no longer wanted."""
        try:
            while self.is_wanted:
                self.start()
                self.wait_or_kill(*(self.kills.pop(0) if self.kills else (1000, ALL)))
                if self.is_wanted:
                    self.end()
                    time.sleep(PAUSE)
        except BaseException as fault:
            self.fault = fault

    def wait_or_kill(self, seconds, victims):
        """Wait for its end; where it runs for so long, kill all of it, or one of its processes."""
        last = time.monotonic() + seconds
        while self.is_wanted and time.monotonic() < last and self.is_running():
            time.sleep(0.002)
        if self.is_wanted and victims != ALL:
            for process in sorted(processes_of(self.main.pid))[victims]:
                os.kill(process, signal.SIGKILL)
            wait_for(lambda: not self.is_running())

    def is_running(self):
        """Tell whether its first process runs."""
        return os.waitid(os.P_PID, self.main.pid, os.WEXITED | os.WNOHANG | os.WNOWAIT) is None

    def __enter__(self):
        self.manager.start()
        wait_for(lambda: self.main)
        return self

    def __exit__(self, *fault):
        self.is_wanted = False
        self.manager.join(PATIENCE)
        if self.fault:
            raise self.fault
        ended = self.main.returncode
        self.stopped = self.end(getattr(signal, self.keys["KillSignal"][0])) if ended is None else ended

    @contextlib.contextmanager
    def once(self):
        """Start it once, and kill it at the end."""
        self.start()
        try:
            yield
        finally:
            self.end()

    def told(self):
        """Give the lines that came out, except `ready`, which each start prints."""
        lines = self.replies.read_text().splitlines() if self.replies.exists() else []
        return [line for line in lines if line != "ready"]

    def open(self):
        """Open the pipe to write to it, once somebody reads it."""

        def opened():
            try:
                return os.open(self.orders, os.O_WRONLY | os.O_NONBLOCK)
            except (FileNotFoundError, OSError) as fault:
                if fault.errno not in (errno.ENXIO, errno.ENOENT):
                    raise
                return None

        pipe = wait_for(opened)
        os.set_blocking(pipe, True)
        return pipe

    def write(self, line):
        """Write a line as a line computer does that then closes the pipe."""
        pipe = self.open()
        os.write(pipe, line.encode() + b"\n")
        os.close(pipe)

    def journal_lines(self):
        """Give what the program tells of the journal."""
        words = [settings["program"], "journal", "--updates", self.journal]
        return subprocess.run(words, check=True, capture_output=True, text=True).stdout.splitlines()

    def bank(self, unit):
        """Give bank 1 of a unit, as its file has it."""
        return bytes.fromhex((self.state / f"unit_{unit}.hex").read_text())
