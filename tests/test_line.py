#!/usr/bin/env python3
"""Test what docs/BENCH.md says under "What a line computer does", by a line computer that does just that.

    test_line.py [PROGRAM [FOLDER]]

It brings over 200 orders to one bus, over the service of service/dali-bench-pipe@.service, while adapter and
drive are killed, the interface is unplugged, units have no power, the pipe is full, and the line computer itself is
killed. PROGRAM and FOLDER are as of test_drive.py. The last line is `N passed, M failed`, and the status is 0 only
where none failed.
"""

import collections
import errno
import fcntl
import json
import os
import random
import re
import subprocess
import sys
import time

sys.dont_write_bytecode = True

import beside  # noqa: E402
from base import BenchTest, settings, want  # noqa: E402
from driven import ROOT, simulated_link  # noqa: E402
from service_fixtures import ALL, FIRST, LAST, UNITS, WEEK, YEAR, Instance  # noqa: E402

ADAPTER = ROOT / "tests" / "line_adapter.py"
SEED = 20261128
LUMINAIRES, MOST_AT_ONCE, KILLS, PLUGS = 220, 3, 45, 12
MINUTE = 0.3  # in the place of the minute after which a line without a reply is sent again
PATIENCE = 200
REPLY = re.compile(r"reply (\d+) (taken|kept (\d) (\w+)|reused|full|blocked (\d+))")
# Lines that a kill may cut, or that tell of one.
DEBRIS = re.compile("item [0-9]+ fault (9 Shape|11 Json)")
BROKEN = re.compile("(drive fault (2 Link|4 End)|error: the (frames can't be written|answers can't be read|interface is"
                    " gone|journal is in use).*|fault 21 File)")


class Killed(BaseException):
    """The line computer was killed: what it had in memory is gone."""


class LineComputer:
    """Brings the orders of luminaires to a bus, by the rules of BENCH alone.

    Its file has a line of JSON for each order that it keeps, and for each end of one. A line computer that is made anew
    has that.
    """

    def __init__(self, instance, chance, counts):
        self.instance, self.chance, self.counts = instance, chance, counts
        self.path = instance.state / "line_computer"
        self.orders, self.ends = {}, {}
        for line in self.path.read_text().splitlines() if self.path.exists() else []:
            self.know(json.loads(line))
        self.sent, self.at = {}, instance.replies.stat().st_size if instance.replies.exists() else 0

    def may_be_killed(self):
        """Be killed here, now and then."""
        if self.chance.random() < 0.03:
            self.counts["line computer killed"] += 1
            raise Killed

    def keep(self, *kept):
        """Add lines to the file, in one write: all of them are there or none."""
        with open(self.path, "a", encoding="ascii") as file:
            file.write("".join(json.dumps(it) + "\n" for it in kept))
        for it in kept:
            self.know(it)

    def know(self, kept):
        """Have in memory what is kept."""
        if "end" in kept:
            self.ends[kept["number"]] = kept["end"]
        else:
            self.orders[kept["number"]] = kept

    def bring(self, wanted):
        """Go on until the orders of all luminaires have come to their end."""
        last = time.monotonic() + PATIENCE
        while not self.is_over(wanted):
            assert time.monotonic() < last, f"it isn't over: {self.live()}"
            self.take_next(wanted)
            for number in self.live():
                if time.monotonic() - self.sent.get(number, 0) > MINUTE:
                    self.send(number)
            self.read_replies()
            time.sleep(0.002)

    def live(self):
        """Give the numbers of the orders that have no end yet."""
        return [number for number in self.orders if number not in self.ends]

    def is_over(self, wanted):
        """Tell whether each luminaire has its last order at its end."""
        return not self.live() and len({it["luminaire"] for it in self.orders.values()}) == len(wanted)

    def take_next(self, wanted):
        """Keep the order of the next luminaire, where its address is free."""
        known = {it["luminaire"] for it in self.orders.values()}
        luminaire = len(known)
        busy = {self.orders[number]["order"]["unit"] for number in self.live()}
        if luminaire < len(wanted) and len(busy) < MOST_AT_ONCE and wanted[luminaire]["unit"] not in busy:
            if wanted[luminaire]["is_absent"]:
                self.place(wanted[luminaire]["unit"]).touch()
            self.keep(*self.new_order(luminaire, wanted[luminaire]))

    def place(self, unit):
        """Name the file that takes the power from a unit."""
        return self.instance.state / f"absent_{unit}"

    def new_order(self, luminaire, fields):
        """Make the order of a luminaire under a new number, and its end too where `check` refuses it."""
        number = max(self.orders, default=0) + 1
        order = {"order": number, **{key: fields[key] for key in ("unit", "year", "week")}}
        ended = subprocess.run([settings["program"], "check", "-"], input=json.dumps([order]).encode(),
                               capture_output=True)
        self.may_be_killed()
        kept = {"number": number, "luminaire": luminaire, "order": order}
        return [kept, {"number": number, "end": "refused by check"}] if ended.returncode else [kept]

    def send(self, number):
        """Write the line of an order into the pipe, in one write."""
        order = self.orders[number]["order"]
        line = json.dumps(order if number % 2 else {"submit": order, "moment": 1700000000 + number}) + "\n"
        self.may_be_killed()
        try:
            pipe = os.open(self.instance.orders, os.O_WRONLY | os.O_NONBLOCK)
        except OSError as fault:
            assert fault.errno in (errno.ENXIO, errno.ENOENT), fault
            self.counts[errno.errorcode[fault.errno]] += 1
            return
        try:
            want(os.write(pipe, line.encode()), len(line))
            self.sent[number] = time.monotonic()
            self.counts["lines"] += 1
        except (BrokenPipeError, BlockingIOError) as fault:
            self.counts[errno.errorcode[fault.errno]] += 1
        finally:
            os.close(pipe)
        self.may_be_killed()

    def read_replies(self):
        """Read the lines that were added to the replies; each counts once its line feed is there."""
        if not self.instance.replies.exists():
            return
        with open(self.instance.replies, "rb") as file:
            file.seek(self.at)
            data = file.read()
        whole = data[:data.rfind(b"\n") + 1]
        for line in whole.decode("ascii").splitlines():
            self.take(line)
            self.may_be_killed()
        self.at += len(whole)

    def take(self, line):
        """Do what the table says of a line."""
        if line == "ready":
            self.sent.clear()  # each order without a kept reply is sent again, at once
        known = REPLY.fullmatch(line)
        if not known:
            return  # such an order is sent again in its time
        number, what = int(known[1]), known[2]
        if number not in self.orders or number in self.ends:
            return
        if what == "reused":
            raise AssertionError(f"each number is used once: {line}")
        if what.startswith("kept"):
            self.take_end(number, known[4])

    def take_end(self, number, name):
        """Keep the end of an order; where its unit was silent, see to that, with a new number for the luminaire."""
        kept, end = self.orders[number], {"number": number, "end": name}
        if name == "Silent":
            self.place(kept["order"]["unit"]).unlink(missing_ok=True)
            self.keep(end, *self.new_order(kept["luminaire"], kept["order"]))
        else:
            want((number, name), (number, "Done"))
            self.keep(end)


def wanted_orders(chance):
    """Make the orders of the luminaires: of some the unit is without power at first, and some `check` refuses."""
    made = []
    for luminaire in range(LUMINAIRES):
        year = 100 if luminaire % 40 == 39 else chance.randrange(100)
        is_absent = luminaire % 11 == 5 and year < 100
        made.append({"unit": chance.choice(UNITS), "year": year, "week": chance.randint(1, 53), "is_absent": is_absent})
    return made


class Trouble:
    """Unplugs the interface, fills the pipe and leaves rests of lines in it, at moments from a seed."""

    def __init__(self, instance, chance):
        self.instance, self.chance, self.times = instance, chance, []
        at = 0
        for _ in range(PLUGS):
            for what, most in ((self.leave_rest, 0.4), (self.leave_rest, 0.8), (self.fill, 0.1), (None, 0.5)):
                at += chance.uniform(0.03, most)
                self.times.append((at, what))
        self.began, self.filled = time.monotonic(), 0

    def go_on(self):
        """Do what is due; tell whether the pipe is full."""
        filled = self.filled
        while self.times and time.monotonic() - self.began > self.times[0][0]:
            what = self.times.pop(0)[1]
            if what == self.fill:
                (self.instance.state / "unplugged").touch()
            if what:
                self.write(what)
            else:
                (self.instance.state / "unplugged").unlink()
        return self.filled > filled

    def write(self, what):
        """Open the pipe for something that writes into it, where somebody reads."""
        try:
            pipe = os.open(self.instance.orders, os.O_WRONLY | os.O_NONBLOCK)
        except OSError as fault:
            assert fault.errno in (errno.ENXIO, errno.ENOENT), fault
            return
        try:
            what(pipe)
        except BlockingIOError:
            self.filled += 1
        except OSError as fault:
            # EBUSY: more stands in the pipe than it is to take.
            assert fault.errno in (errno.EPIPE, errno.EBUSY), fault
        finally:
            os.close(pipe)

    def fill(self, pipe):
        """Write empty lines, as another writer might, until the pipe takes no more; what is read is passed over."""
        fcntl.fcntl(pipe, fcntl.F_SETPIPE_SZ, 4096)
        while True:
            os.write(pipe, b"\n" * 64)

    def leave_rest(self, pipe):
        """Write what a kill leaves of the line of the last order that was kept: all but its first bytes."""
        kept = [line for line in (self.instance.state / "line_computer").read_text().splitlines() if "order" in line]
        line = json.dumps(json.loads(kept[-1])["order"]) + "\n"
        os.write(pipe, line[self.chance.randint(1, len(line) - 2):].encode())


class Troubled(LineComputer):
    """The line computer, with the trouble around it going on beside it."""

    trouble = None

    def read_replies(self):
        if self.trouble.go_on():
            for number in self.live():
                self.send(number)
        super().read_replies()


def judge(instance, wanted):
    """Raise unless each order has its right end once, in the journal, in the units and with the line computer."""
    kept = [json.loads(line) for line in (instance.state / "line_computer").read_text().splitlines()]
    orders = {it["number"]: it for it in kept if "luminaire" in it}
    want(sorted(orders), list(range(1, len(orders) + 1)))
    ends = collections.Counter(it["number"] for it in kept if "end" in it)
    want(ends, collections.Counter(dict.fromkeys(orders, 1)))
    end_of = {it["number"]: it["end"] for it in kept if "end" in it}
    lines = [line.split() for line in instance.journal_lines()]
    begun = [int(words[2]) for words in lines if words[0] == "B"]
    codes = [words[2] for words in lines if words[0] == "E"]
    want(sorted(begun), sorted(number for number in orders if end_of[number] != "refused by check"))
    want(dict(zip(begun, codes)), {number: end_of[number] for number in begun})
    want(lines[-1][-2:], ["standing", "idle"])
    banks = {unit: bytearray(simulated_link.BLANK_BANK_1) for unit in UNITS}
    for number, code in zip(begun, codes):
        order = orders[number]["order"]
        if code == "Done":
            banks[order["unit"]][YEAR], banks[order["unit"]][WEEK] = order["year"], order["week"]
    want({unit: instance.bank(unit).hex() for unit in UNITS}, {unit: bank.hex() for unit, bank in banks.items()})
    for luminaire, fields in enumerate(wanted):
        found = [end_of[number] for number in sorted(orders) if orders[number]["luminaire"] == luminaire]
        last = "refused by check" if fields["year"] > 99 else "Done"
        assert found[-1] == last and found[:-1] in ([], ["Silent"]), (luminaire, found)
        want((luminaire, len(found)), (luminaire, 2 if fields["is_absent"] else 1))
    return len(begun)


def judge_told(instance):
    """Raise unless each line is a reply that goes with the journal, debris of a kill, or why a drive broke off."""
    replies = collections.Counter()
    for line in instance.told():
        known = REPLY.fullmatch(line)
        if known:
            replies[known[2].split()[0]] += 1
        else:
            assert DEBRIS.fullmatch(line) or BROKEN.fullmatch(line), line
        replies["debris"] += bool(DEBRIS.fullmatch(line))
    return replies


class LineTest(BenchTest):
    """A line computer that is killed, beside all that it stands on."""

    def test_each_order_has_its_right_end_once(self):
        chance, counts = random.Random(SEED), collections.Counter()
        instance = Instance(self.folder)
        units = ",".join(map(str, UNITS))
        instance.variables.write_text(f'ADAPTER="{ADAPTER} . {units}"\nOPTIONS=\n')
        instance.kills = [(chance.uniform(0.03, 0.5), victims) for victims in (ALL, FIRST, LAST) * (KILLS // 3)]
        wanted = wanted_orders(chance)
        with instance:
            Troubled.trouble = Trouble(instance, chance)
            while True:
                try:
                    Troubled(instance, chance, counts).bring(wanted)
                    break
                except Killed:
                    pass
            counts["full pipe"] = Troubled.trouble.filled
            counts["journal orders"] = judge(instance, wanted)
        counts.update(judge_told(instance))
        counts["starts"] = instance.starts
        print(", ".join(f"{name} {count}" for name, count in sorted(counts.items())))
        for name in ("line computer killed", "ENXIO", "EAGAIN", "starts", "debris"):
            assert counts[name] > 0, (name, counts)


if __name__ == "__main__":
    sys.exit(beside.main(__doc__, ["test_line"], sys.argv[1:]))
