#!/usr/bin/env python3
"""Test service/dali-bench-pipe@.service: play systemd for it, with simulated units, line computers and kills.

    test_service.py [PROGRAM [FOLDER]]

The commands and folders of an instance are read out of the unit file; its paths are led into a folder of the test.
PROGRAM and FOLDER are as of test_drive.py. The last line is `N passed, M failed`, and the status is 0 only where none
failed. A line that begins with `skipped` names each test that this machine can't run.
"""

import os
import pathlib
import random
import re
import shutil
import signal
import subprocess
import sys
import threading
import time

sys.dont_write_bytecode = True

import beside  # noqa: E402
from base import BenchTest, settings, want  # noqa: E402
from driven import PATIENCE, ROOT, simulated_link  # noqa: E402
from service_fixtures import (  # noqa: E402
    ALL,
    FIRST,
    LAST,
    PROGRAMS,
    UNIT,
    UNITS,
    WEEK,
    YEAR,
    Instance,
    processes_of,
    settings_of,
    variables_of,
    wait_for,
)

EXAMPLE = ROOT / "service" / "bus1-pipe.env"
KILLS, LEAST_ORDERS = 15, 60
# Lines that may come out besides because of a kill.
LINE_OF_A_KILL = re.compile("item [0-9]+ fault 11 Json$|drive fault (2 Link|4 End)$|error: the frames can't be written")


def order_line(number, unit, year):
    """Give the line of an order."""
    return f'{{"order": {number}, "unit": {unit}, "year": {year}}}'


def done(*numbers):
    """Give the lines of orders that are done at once."""
    return [line for number in numbers for line in (f"reply {number} taken", f"reply {number} kept 0 Done")]


class LineComputer(threading.Thread):
    """Writes orders to an instance one by one, each again until its kept reply, until the kills are over."""

    def __init__(self, instance, chance):
        super().__init__(daemon=True)
        self.instance, self.chance, self.sent, self.again, self.fault = instance, chance, [], 0, None

    def run(self):
        try:
            while self.instance.starts <= KILLS or len(self.sent) < LEAST_ORDERS:
                order = (len(self.sent) + 1, self.chance.choice(UNITS), self.chance.randrange(100))
                self.sent.append((*order, self.chance.randint(1, 53)))
                self.send(*self.sent[-1])
        except BaseException as fault:
            self.fault = fault

    def send(self, number, unit, year, week):
        """Send an order until it has its kept reply; every third time the pipe stays open until then."""
        order = f'{{"order": {number}, "unit": {unit}, "year": {year}, "week": {week}}}'
        line = order if number % 2 else f'{{"submit": {order}, "moment": {1700000000 + number}}}'
        last = time.monotonic() + PATIENCE
        while time.monotonic() < last:
            pipe = self.instance.open()
            try:
                os.write(pipe, line.encode() + b"\n")
                if number % 3 == 0 and self.has_kept(number):
                    return
            except BrokenPipeError:
                pass
            finally:
                os.close(pipe)
            if self.has_kept(number):
                return
            self.again += 1
        raise TimeoutError(f"order {number} was sent {self.again} times")

    def has_kept(self, number):
        """Wait a little for the kept reply of an order; tell whether it came."""
        last = time.monotonic() + 0.5
        while time.monotonic() < last:
            if any(line.startswith(f"reply {number} kept ") for line in self.instance.told()):
                return True
            time.sleep(0.005)
        return False


def judge(instance, sent):
    """Raise unless each order that was sent is in the journal once, has its kept reply, and is in its unit."""
    lines = instance.journal_lines()
    begun = [line.split() for line in lines if line.startswith("B ")]
    want([(int(words[2]), int(words[4]), int(words[6])) for words in begun],
         [(number, unit, 0 if number % 2 else 1700000000 + number) for number, unit, _, _ in sent])
    want([line for line in lines if line.startswith("E ")], ["E 0 Done"] * len(sent))
    assert lines[-1].endswith(f" orders {len(sent)} standing idle"), lines[-1]
    told = instance.told()
    kept = {line for line in told if " kept " in line}
    want(kept, {f"reply {number} kept 0 Done" for number, *_ in sent})
    # A line of which a kill has taken the first bytes is refused, and changes nothing.
    others = {line for line in told if not LINE_OF_A_KILL.match(line)} - kept
    assert others <= {f"reply {number} taken" for number, *_ in sent}, others
    banks = {unit: bytearray(simulated_link.BLANK_BANK_1) for unit in UNITS}
    for _, unit, year, week in sent:
        banks[unit][YEAR], banks[unit][WEEK] = year, week
    want({unit: instance.bank(unit).hex() for unit in UNITS}, {unit: bank.hex() for unit, bank in banks.items()})


class KillsTest(BenchTest):
    """Two buses, killed now and then."""

    def test_two_buses_that_are_killed(self):
        chance = random.Random(20261127)
        instances = [Instance(self.folder, name) for name in ("bus1", "bus2")]
        for instance in instances:
            instance.kills = [(chance.uniform(0.05, 0.6), victims) for victims in (ALL, FIRST, LAST) * (KILLS // 3)]
        computers = [LineComputer(instance, random.Random(chance.random())) for instance in instances]
        with instances[0], instances[1]:
            for computer in computers:
                computer.start()
            for computer in computers:
                computer.join(3 * PATIENCE)
        for instance, computer in zip(instances, computers):
            self.assertEqual((computer.is_alive(), computer.fault), (False, None))
            counts = f"{len(computer.sent)} orders, {instance.starts} starts, {computer.again} sent again"
            print(f"{instance.state.name}: {counts}")
            judge(instance, computer.sent)


def killed_before_it_read(instance, is_closed):
    """Write two lines that are never read before a kill of all; give the pipe, closed before where that is said."""
    with instance.once():
        pipe = instance.open()
        wait_for(lambda: instance.journal.exists() and instance.journal.stat().st_size == 4)
        os.killpg(instance.main.pid, signal.SIGSTOP)
        wait_for(lambda: set(processes_of(instance.main.pid).values()) == {"T"})
        os.write(pipe, "".join(order_line(number, 6, number) + "\n" for number in (1, 2)).encode())
        if is_closed:
            os.close(pipe)
    want(instance.told(), [])
    return pipe


class PipeTest(BenchTest):
    """The pipe, as a line computer meets it."""

    def test_writers_that_close_the_pipe_end_nothing(self):
        with Instance(self.folder) as instance:
            for number in (1, 2, 3):
                instance.write(order_line(number, 5, number))
                wait_for(lambda: len(instance.told()) == 2 * number)
            self.assertEqual((instance.starts, instance.is_running(), instance.told()), (1, True, done(1, 2, 3)))
            self.assertEqual(instance.replies.read_text().splitlines(), ["ready", *done(1, 2, 3)])
            self.assertEqual(instance.bank(5)[YEAR], 3)
        self.assertEqual(instance.stopped != 0, True)

    def test_lines_wait_while_their_writer_holds_the_pipe(self):
        instance = Instance(self.folder)
        pipe = killed_before_it_read(instance, is_closed=False)
        with instance:
            wait_for(lambda: len(instance.told()) == 4)
            self.assertEqual((instance.told(), instance.starts), (done(1, 2), 2))
            os.close(pipe)
        self.assertEqual(instance.bank(6)[YEAR], 2)

    def test_lines_are_dropped_where_nobody_holds_the_pipe(self):
        instance = Instance(self.folder)
        killed_before_it_read(instance, is_closed=True)
        with instance:
            instance.write(order_line(3, 6, 3))
            wait_for(lambda: len(instance.told()) == 2)
            self.assertEqual((instance.told(), instance.starts), (done(3), 2))

    def test_the_rest_of_a_line_changes_nothing(self):
        with Instance(self.folder) as instance:
            for rest in (order_line(1, 5, 1)[7:], '{"order": 1, "unit": 5, "ye', "[]", order_line(1, 64, 1)):
                instance.write(rest)
            instance.write(order_line(2, 5, 2))
            wait_for(lambda: "reply 2 kept 0 Done" in instance.told())
            self.assertEqual(instance.told(), ["item 1 fault 11 Json", "item 2 fault 11 Json", "item 3 fault 9 Shape",
                                               "item 4 order 1 fault 1 Unit", *done(2)])
            self.assertEqual(instance.starts, 1)

    def test_a_full_journal_is_retired(self):
        instance = Instance(self.folder)
        instance.state.mkdir(parents=True)
        absent = bytes.fromhex("09 01 1318 4503")
        records = (b"B" + number.to_bytes(8, "big") + bytes(8) + absent for number in range(100000))
        instance.journal.write_bytes(bytes.fromhex("44423102") + b"".join(records))
        with instance:
            instance.write(order_line(100000, 5, 24))
            wait_for(instance.told)
            self.assertEqual(instance.told(), ["reply 100000 full"])
        assert instance.journal_lines()[-1].endswith(" orders 100000 standing idle")
        instance.journal.rename(instance.state / "bench_until_99999.journal")
        (instance.state / "journal_made").unlink()
        again = Instance(self.folder)
        with again:
            again.write(order_line(100000, 5, 24))
            wait_for(lambda: len(again.told()) == 3)
            self.assertEqual(again.told()[1:], done(100000))

    def test_a_journal_that_has_gone_is_not_made_anew(self):
        instance = Instance(self.folder)
        for _ in range(2):
            with instance.once():
                wait_for(lambda: instance.journal.exists() and instance.journal.stat().st_size == 4)
        instance.journal.unlink()
        gone = ["error: there is no journal, and none is to be made: bench.journal", "fault 21 File"]
        with instance:
            wait_for(lambda: instance.told()[-4:] == gone * 2)
        self.assertEqual((instance.journal.exists(), set(instance.told())), (False, set(gone)))

    def test_one_that_can_not_start_is_started_again(self):
        instance = Instance(self.folder)
        adapter = instance.variables.read_text()
        instance.variables.write_text('ADAPTER="/none --device 1"\nOPTIONS=\n')
        with instance:
            wait_for(lambda: instance.starts > 3)
            instance.variables.write_text(adapter)
            # A start that still has no adapter may lose the line, so it is sent until its reply.
            LineComputer(instance, None).send(1, 60, 24, 1)
        self.assertLessEqual(set(instance.told()[-2:]), set(done(1)))


class UnitFileTest(BenchTest):
    """The words of the unit file."""

    def test_the_pipe_is_made_once(self):
        instance = Instance(self.folder)
        for _ in range(2):
            with instance.once():
                wait_for(instance.journal.exists)
                self.assertEqual((instance.orders.is_fifo(), oct(instance.orders.stat().st_mode & 0o777)),
                                 (True, "0o620"))
                self.assertEqual(oct(instance.replies.stat().st_mode & 0o777), "0o640")
                number = instance.orders.stat().st_ino
        self.assertEqual(instance.orders.stat().st_ino, number)
        instance.orders.unlink()
        instance.orders.write_text("")
        self.assertEqual([made.returncode for made in instance.run("ExecStartPre", subprocess.run)], [1, 0])

    def test_it_is_started_again_without_end(self):
        keys = settings_of(UNIT.read_text())
        wanted = {"Restart": "always", "RestartSec": "1", "StartLimitIntervalSec": "0", "KillMode": "control-group"}
        self.assertEqual({key: keys[key] for key in wanted}, {key: [value] for key, value in wanted.items()})
        variables = variables_of(EXAMPLE.read_text())
        self.assertEqual(sorted(variables), ["ADAPTER", "OPTIONS"])
        assert set(re.findall(r"\$([A-Z]+)", keys["ExecStart"][0])) == set(variables), keys["ExecStart"]
        adapter = pathlib.Path(variables["ADAPTER"].split()[0])
        assert (ROOT / adapter.relative_to(PROGRAMS)).is_file(), adapter

    def test_systemd_takes_the_unit_file(self):
        if shutil.which("systemd-analyze") is None:
            self.skipTest("there is no systemd-analyze")
        (self.folder / "dali_bench").symlink_to(settings["program"])
        unit = self.folder / UNIT.name.replace("@", "@bus1")
        unit.write_text(UNIT.read_text().replace(f"{PROGRAMS}/dali_bench", str(self.folder / "dali_bench")))
        words = ["systemd-analyze", "verify", "--man=no", unit]
        ended = subprocess.run(words, capture_output=True, text=True, stdin=subprocess.DEVNULL)
        if "Operation not permitted" in ended.stderr or "Failed to initialize manager" in ended.stderr:
            self.skipTest(f"systemd-analyze can't verify here: {ended.stderr.strip()}")
        self.assertEqual((ended.returncode, ended.stdout, ended.stderr), (0, "", ""))


if __name__ == "__main__":
    sys.exit(beside.main(__doc__, ["test_service"], sys.argv[1:]))
