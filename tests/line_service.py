"""Tests of the line computer's service: service/dali-bench@.service and service/dali-bench-page.service."""

import os
import pathlib
import random
import re
import shutil
import signal
import stat
import subprocess
import time

from base import BenchTest, want
from driven import PATIENCE, ROOT
from line_bench import GOOD, PROGRAM, Bench, judge, put_as_archive, wait_for
from line_bench import processes_of as chain_of
from release_fixtures import BLOCK, run_commands
from service_fixtures import PROGRAMS, STATES, VARIABLES, processes_of, settings_of, variables_of, words_of

UNIT, PAGE = (ROOT / "service" / name for name in ("dali-bench@.service", "dali-bench-page.service"))
EXAMPLE = ROOT / "service" / "bus1.env"
KILLS = 12


class Service:
    """An instance of the unit file in a folder of the test, which is started again when it is killed."""

    def __init__(self, folder, name):
        places = {PROGRAMS: folder / "programs", VARIABLES: folder / "variables", STATES: folder / "states"}
        text = UNIT.read_text()
        for place in (PROGRAMS, VARIABLES):
            text = text.replace(place, str(places[place]))
        self.keys = settings_of(text.replace("%S", str(places[STATES])).replace("%i", name))
        for place in places.values():
            place.mkdir(exist_ok=True)
        if not (places[PROGRAMS] / "line_computer").exists():
            put_as_archive(places[PROGRAMS])
        units = " ".join(f"--unit {unit}" for unit in GOOD)
        self.states = [places[STATES] / it for it in self.keys["StateDirectory"][0].split()]
        self.variables = {"ADAPTER": f"{places[PROGRAMS]}/adapters/simulated_link.py --folder {name} {units}",
                          "OPTIONS": "--longest-wait 0.2", "LINE_COMPUTER_STORE": "orders.db"}
        self.main = None

    def run(self, key, starter):
        """Run or start the command of a key."""
        for state in self.states:
            state.mkdir(exist_ok=True)
            state.chmod(int(self.keys["StateDirectoryMode"][0], 8))
        words = words_of(self.keys[key][0], self.variables)
        return starter(words, cwd=self.keys["WorkingDirectory"][0], umask=int(self.keys["UMask"][0], 8),
                       env={"PATH": os.environ["PATH"], **self.variables}, stdin=subprocess.DEVNULL,
                       stdout=subprocess.DEVNULL, stderr=subprocess.DEVNULL, start_new_session=True)

    def start(self):
        """Start it."""
        want(self.run("ExecStartPre", subprocess.run).returncode, 0)
        self.main = self.run("ExecStart", subprocess.Popen)

    def end(self, number):
        """Send a signal to its process; give its status."""
        os.kill(self.main.pid, number)
        return self.main.wait(PATIENCE)


class ServiceTest(BenchTest):
    """The service of a line computer, by its unit files."""

    def test_two_buses_of_the_service_are_killed(self):
        chance = random.Random(20261129)
        services = [Service(self.folder, name) for name in ("bus1", "bus2")]
        services[1].variables["OPTIONS"] += " --checked-plan"
        for service in services:
            service.start()
        store = self.folder / "states" / "dali-bench" / "orders.db"
        bench = Bench(store.parent, str(store), ("bus1", "bus2"))
        bench.processes += [service.main for service in services]
        for _ in range(KILLS):
            bench.add([(chance.choice(GOOD), chance.randrange(100), 1) for _ in range(3)],
                      chance.choice(("bus1", "bus2")))
            time.sleep(chance.uniform(0, 0.4))
            service = chance.choice(services)
            self.assertEqual(service.end(signal.SIGKILL), -signal.SIGKILL)
            service.start()
            bench.processes.append(service.main)
        wait_for(lambda: set(bench.states().values()) == {"ended"})
        wait_for(lambda: all(len(chain_of(service.main)) == 3 for service in services))
        for service in services:
            self.assertEqual(service.end(getattr(signal, service.keys["KillSignal"][0])), 0)
            self.assertEqual(processes_of(service.main.pid), {})
        judge(bench, ("bus1", "bus2"))
        self.assertEqual(bench.rows("select distinct bus, plan from bench_orders order by bus"),
                         [("bus1", "short"), ("bus2", "checked")])
        # The group may add orders and take labels, and others may do nothing.
        for path in (store, store.parent, store.parent / "bus1" / "bench.journal"):
            mode = path.stat().st_mode
            self.assertEqual((path.name, bool(mode & stat.S_IWGRP), mode & 0o007), (path.name, True, 0))

    def test_the_commands_of_the_book(self):
        put_as_archive(self.folder)
        run_commands(ROOT / "docs" / "LINE_COMPUTER.md", self.folder, 3)
        kinds = [kind for kind, _ in BLOCK.findall((ROOT / "docs" / "LINE_COMPUTER.md").read_text())]
        self.assertEqual([at for at, kind in enumerate(kinds) if kind == "text" and kinds[at - 1] != "sh"], [])

    def test_what_the_unit_files_say(self):
        keys = settings_of(UNIT.read_text())
        wanted = {"Restart": "always", "RestartSec": "1", "StartLimitIntervalSec": "0", "KillMode": "control-group",
                  "TimeoutStopSec": "5", "NoNewPrivileges": "yes", "IPAddressDeny": "any"}
        self.assertEqual({key: keys[key] for key in wanted}, {key: [value] for key, value in wanted.items()})
        variables = variables_of(EXAMPLE.read_text())
        self.assertEqual(sorted(variables), ["ADAPTER", "LINE_COMPUTER_STORE", "OPTIONS"])
        self.assertEqual(set(re.findall(r"\$([A-Z]+)", keys["ExecStart"][0])), {"ADAPTER", "OPTIONS"})
        adapter = pathlib.Path(variables["ADAPTER"].split()[0])
        assert (ROOT / adapter.relative_to(PROGRAMS)).is_file(), adapter
        page = settings_of(PAGE.read_text())
        assert page["ExecStart"][0].endswith("page --listen $LISTEN $OPTIONS"), page
        assert "LISTEN=127.0.0.1:8080 " in page["Environment"][0], page
        # A page that reads orders has no business with a device.
        self.assertEqual([key for key in page if key.startswith("DeviceAllow")], [])

    def test_systemd_takes_the_unit_files(self):
        if shutil.which("systemd-analyze") is None:
            self.skipTest("there is no systemd-analyze")
        for unit in (UNIT, PAGE):
            path = self.folder / unit.name.replace("@", "@bus1")
            path.write_text(unit.read_text().replace(f"{PROGRAMS}/line_computer", str(PROGRAM)))
            ended = subprocess.run(["systemd-analyze", "verify", "--man=no", path], capture_output=True, text=True,
                                   stdin=subprocess.DEVNULL, check=False)
            if "Operation not permitted" in ended.stderr or "Failed to initialize manager" in ended.stderr:
                self.skipTest(f"systemd-analyze can't verify here: {ended.stderr.strip()}")
            self.assertEqual((ended.returncode, ended.stdout, ended.stderr), (0, "", ""))
