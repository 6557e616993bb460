"""A station with its seat and a person, for tests of the line computer's station: its words, and those that it gets."""

import json
import os
import re
import subprocess
import threading
import time

from driven import PATIENCE, ROOT, simulated_link
from line_bench import Bench

ADAPTER = ROOT / "tests" / "station_adapter.py"
UNIT = 5
GTIN = "04006381333931"
GTIN_BYTES = bytes.fromhex("03A4CEEFADAB")
BLANK = simulated_link.BLANK_BANK_1
TEMPLATE = {"unit": UNIT, "gtin": "4006381333931", "identification": "scan", "year": 24, "week": 9}
NOT_TAKEN = "The scan wasn't taken: the station was at work. Scan again once it asks for it."
LOOKING = "WORK: Looking at what is there. Don't scan."
FIRST = "SCAN: Put a luminaire in, then scan it."
NEXT = "Take the luminaire out. Put the next luminaire in, then scan it."
SCAN_1, SCAN_2 = f"(01){GTIN}(21)1A2B", f"(01){GTIN}(21)1A2C"
NUMBER_1, NUMBER_2 = "0000000000001A2B", "0000000000001A2C"
NAME_1, NAME_2 = "1A2B", "1A2C"
STAYS = ("Leave its luminaire in, or put it back: {name}. Then scan it once more. If it is gone for good, take out what"
         " stands there, and type the word GONE.")


def passed(name, order):
    """Give what a station says of a luminaire that gets its label."""
    return f"PASS: {name}. The label of order {order} is in the store: `labels --take` prints it. {NEXT}"


def stopped(name, order):
    """Give what a station says first after a stop amid an order."""
    return f"FAIL: The station was stopped amid order {order}. {STAYS.format(name=name)}"


def serial_of(number):
    """Give the serial number of a luminaire, as 16 hexadecimal digits."""
    return f"A1B2{0x01000000 + 7 * number:08X}C3D4"


def bank_with(serial):
    """Give the bank of a blank luminaire once it has the template's fields and this serial number."""
    bank = bytearray(BLANK)
    bank[0x03:0x09], bank[0x09:0x11], bank[0x13:0x15] = GTIN_BYTES, bytes.fromhex(serial), bytes([24, 9])
    return bytes(bank)


class StationBench(Bench):
    """A bench with a station at each of its buses."""

    def __init__(self, folder, store=None, buses=("bus1",), template=None):
        super().__init__(folder, store, buses)
        self.loss, self.seed, self.pace = 0, 1, 0
        (folder / "template.json").write_text(json.dumps(template or TEMPLATE))

    def station_words(self, bus="bus1", *options, adapter=None, crash=()):
        """Give the words of a station."""
        adapter = adapter or [ADAPTER, bus, str(self.loss), str(self.seed), str(self.pace)]
        return self.words("station", "--bus", bus, "--longest-wait", "0.2", "--template", "template.json", *options,
                          "--", *adapter, crash=crash)

    def station(self, bus="bus1", *options, adapter=None, crash=()):
        """Start a station."""
        found = Terminal(self.station_words(bus, *options, adapter=adapter, crash=crash), self.folder,
                         self.folder / f"{bus}.log")
        self.processes.append(found.process)
        return found

    def seat(self, bank=BLANK, bus="bus1"):
        """Put a luminaire at the seat, or take the one there away."""
        path, absent = self.folder / bus / f"unit_{UNIT}.hex", self.folder / bus / f"absent_{UNIT}"
        path.unlink(missing_ok=True)
        if bank is None:
            absent.touch()
        else:
            path.write_text(bank.hex())
            absent.unlink(missing_ok=True)

    def seated(self, bus="bus1"):
        """Give the bank of what stands at the seat."""
        return self.bank(bus, UNIT)

    def labels_left(self):
        """Give the identification number of each label that nobody has taken."""
        return [json.loads(line)["identification"] for line in self.does("labels")]


class Terminal:
    """A running station: the lines that it has shown, and a pipe to scan into."""

    def __init__(self, words, folder, log):
        with open(log, "ab") as told:
            self.process = subprocess.Popen(words, cwd=folder, stdin=subprocess.PIPE, stdout=subprocess.PIPE,
                                            stderr=told, bufsize=0)
        self.lines, self.at = [], 0
        self.thread = threading.Thread(target=self._read, daemon=True)
        self.thread.start()

    def _read(self):
        """Read the lines as they come; a kill may have cut the last one."""
        with os.fdopen(os.dup(self.process.stdout.fileno()), "rb") as stream:
            for line in stream:
                if line.endswith(b"\n"):
                    self.lines.append(line.decode().rstrip("\n"))

    def scan(self, *lines):
        """Type lines as a scanner does; tell whether the station was there for them."""
        try:
            self.process.stdin.write("".join(f"{line}\n" for line in lines).encode())
        except BrokenPipeError:
            return False
        return True

    def asked(self, seconds=3 * PATIENCE):
        """Wait until the station asks for something, and give that; None where it has ended before."""
        last = time.monotonic() + seconds
        while True:
            has_ended = self.process.poll() is not None and not self.thread.is_alive()
            while self.at < len(self.lines):
                line = self.lines[self.at]
                self.at += 1
                if re.match("(SCAN|PASS|FAIL): ", line):
                    return line
            if has_ended:
                return None
            assert time.monotonic() < last, f"the station asks for nothing in {seconds} seconds: {self.lines[-3:]}"
            time.sleep(0.005)

    def serves(self, *lines):
        """Scan once the station has asked; give what it says then."""
        assert self.scan(*lines)
        return self.asked()

    def end(self):
        """End standard input; give the status."""
        self.process.stdin.close()
        status = self.process.wait(3 * PATIENCE)
        self.thread.join(PATIENCE)
        self.process.stdout.close()
        return status


def state_of(process):
    """Give the letter of a process's state."""
    try:
        with open(f"/proc/{process}/stat", encoding="ascii", errors="replace") as file:
            return file.read().rpartition(")")[2].split()[0]
    except OSError:
        return "X"
