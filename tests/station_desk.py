"""Tests of the station: what it says and does for a person, a luminaire at a time, and what a stop leaves of that."""

import os
import re
import signal
import subprocess

from base import BenchTest, in_cases
from line_bench import ADAPTER, SHORT_BANK, Server, wait_for
from station_bench import (BLANK, FIRST, LOOKING, NAME_1, NAME_2, NOT_TAKEN, NUMBER_1, NUMBER_2, SCAN_1, SCAN_2, STAYS,
                           StationBench, bank_with, passed, stopped)

SHARES = 3  # of a long test, each a case


class StationTest(BenchTest):
    """A person at a station."""

    def bench(self, **more):
        """Give a bench with a luminaire at its seat."""
        found = StationBench(self.folder, **more)
        found.seat()
        return found

    def test_two_luminaires(self):
        bench = self.bench()
        station = bench.station()
        self.assertEqual(station.asked(), FIRST)
        self.assertEqual(station.serves(SCAN_1), passed(NAME_1, 1))
        self.assertEqual(bench.seated(), bank_with(NUMBER_1))
        bench.seat()
        self.assertEqual(station.serves(SCAN_2), passed(NAME_2, 2))
        self.assertEqual(bench.seated(), bank_with(NUMBER_2))
        self.assertEqual(station.end(), 0)
        # 15 bytes take 280 frames by the checked plan, of which the short one takes 0.45; a look before them takes 30,
        # and `verify` 40.
        times = [f"WORK: {NAME_1}. Leave the luminaire in, and don't scan. It takes some 9 s.",
                 f"WORK: {NAME_1}, order 1. Leave the luminaire in, and don't scan. It takes some 8 s."]
        self.assertEqual(station.lines[:5], [LOOKING, FIRST, *times, passed(NAME_1, 1)])
        self.assertEqual(bench.log(), "")
        self.assertEqual(bench.does("orders"), ["order 1 bus bus1 unit 5 ended: kept 0 Done",
                                                "order 2 bus bus1 unit 5 ended: kept 0 Done"])
        self.assertEqual(bench.labels_left(), [NUMBER_1, NUMBER_2])
        self.assertEqual(bench.does("status")[0], "bus bus1 not running since "
                         + re.search("since (.*)", bench.does("status")[0])[1])

    def test_scans_that_are_refused(self):
        bench = self.bench()
        station = bench.station()
        station.asked()
        for scan, why in {"(01)04006381333932(21)1A2B": "the check digit of the GTIN 04006381333932 is wrong",
                          "4006381333931": "that is the GTIN of the template: scan the code that has the luminaire's"
                                           " number",
                          "A lamp": "the number A lamp isn't 1 to 16 hexadecimal digits"}.items():
            self.assertEqual(station.serves(scan), f"FAIL: The scan isn't taken: {why}. Scan again.")
        self.assertEqual(bench.seated(), BLANK)
        self.assertEqual(station.serves(SCAN_1), passed(NAME_1, 1))
        bench.seat()
        used = (f"FAIL: {NAME_1} has its label already, by order 1. If it is this luminaire, it is done: take it out."
                " To write another one with the same number, type the word AGAIN, then scan.")
        self.assertEqual(station.serves("1A2B"), used)
        self.assertEqual(bench.seated(), BLANK)
        self.assertEqual(station.serves("again"),
                         "SCAN: The next scan is taken even if its luminaire has a label. Scan it now.")
        self.assertEqual(station.serves("1a2b"), passed("1a2b", 2))
        # `again` is for one scan alone.
        self.assertEqual(station.serves("1A2B"), used.replace("order 1", "order 2"))
        self.assertEqual(station.end(), 0)
        station = bench.station("bus1", "--again")
        station.asked()
        self.assertEqual(station.serves("1A2B"), passed(NAME_1, 3))
        self.assertEqual(station.end(), 0)

    def test_a_luminaire_with_a_label_is_not_written_again(self):
        bench = self.bench()
        station = bench.station()
        station.asked()
        station.serves(SCAN_1)
        # The person forgets to put the next one in.
        self.assertEqual(station.serves(SCAN_2),
                         f"FAIL: The luminaire that stands there has its label: {NAME_1}, by order 1. Take it out, put"
                         " the right one in, and scan again. To write it anew, type the word AGAIN, then scan.")
        self.assertEqual(bench.seated(), bank_with(NUMBER_1))
        bench.seat()
        self.assertEqual(station.serves(SCAN_2), passed(NAME_2, 2))
        # By intent.
        station.serves("again")
        self.assertEqual(station.serves("1A2D"), passed("1A2D", 3))
        self.assertEqual(station.end(), 0)

    def test_a_scan_while_work_is_on(self):
        bench = self.bench()
        bench.pace = 5
        station = bench.station()
        station.asked()
        station.scan(SCAN_1, SCAN_1)
        wait_for(lambda: any("order 1" in line for line in station.lines))
        station.scan(SCAN_2)
        self.assertEqual(station.asked(), passed(NAME_1, 1))
        self.assertEqual(station.end(), 0)
        self.assertEqual(station.lines.count(NOT_TAKEN), 2)
        self.assertEqual(len(bench.states()), 1)

    def test_luminaires_that_fail(self):
        bench = self.bench()
        station = bench.station()
        station.asked()
        bench.seat(None)
        self.assertEqual(station.serves(SCAN_1), "FAIL: No luminaire answers at the short address 5. See to its power"
                         " and its wire, then scan it again.")
        bench.seat(SHORT_BANK)
        self.assertEqual(station.serves(SCAN_1), "FAIL: Order 1: kept 1 Short. Its memory bank 1 is too short for the"
                         " template: take it out, it doesn't suit.")
        bench.seat(BLANK[:0x12] + b"\x04" + BLANK[0x13:])
        self.assertEqual(station.serves(SCAN_1), "FAIL: Order 2: kept 2 Format. Its memory bank 1 has another content"
                         " format: take it out, it doesn't suit.")
        (self.folder / "bus1" / "unplugged").touch()
        self.assertEqual(station.serves(SCAN_1), "FAIL: error: the interface is gone; drive fault 4 End. See to that,"
                         " then scan again.")
        (self.folder / "bus1" / "unplugged").unlink()
        bench.seat()
        # A name that was refused or failed may be scanned again.
        self.assertEqual(station.serves(SCAN_1), passed(NAME_1, 3))
        self.assertEqual(station.end(), 0)
        self.assertEqual(bench.labels_left(), [NUMBER_1])

    def test_a_luminaire_in_doubt_and_one_left_open(self):
        bench = self.bench()
        words = [str(ADAPTER), "--folder", "bus1"]
        station = bench.station(adapter=[*words, "--fixed", "5:14"])
        station.asked()
        self.assertEqual(station.serves(SCAN_1), "FAIL: Order 1: kept 4 Doubt. It may be written in part. See to its"
                         " power and its wire, then scan it again. If it fails again, take it out.")
        self.assertEqual(station.end(), 0)
        station = bench.station(adapter=[*words, "--lose-frame", ",".join(map(str, range(60, 900)))])
        station.asked()
        self.assertEqual(station.serves(SCAN_1), "FAIL: Order 2: kept 5 DoubtOpen. Leave it in: it may be written in"
                         " part, and still be open. See to its power and its wire, then scan it again.")
        self.assertEqual(station.end(), 0)
        # It has its power, and the same one is written: no frame but a drive's comes before.
        station = bench.station()
        self.assertEqual(station.asked(), FIRST)
        self.assertEqual(station.serves(SCAN_1), passed(NAME_1, 3))
        self.assertEqual(station.end(), 0)
        self.assertEqual(bench.seated(), bank_with(NUMBER_1))

    def test_a_luminaire_that_is_not_the_same(self):
        """Its bank is exchanged between the end of its order and `verify`."""
        bench = self.bench()
        script = self.folder / "exchanging"
        script.write_text(f"#!/bin/sh\ncase \" $* \" in *\" verify \"*) echo '{BLANK.hex()}' >bus1/unit_5.hex;; esac\n"
                          f"exec {ADAPTER} --folder bus1 \"$@\"\n")
        script.chmod(0o755)
        station = bench.station(adapter=[str(script)])
        station.asked()
        self.assertEqual(station.serves(SCAN_1), "FAIL: Order 1 was written, and its luminaire isn't the same: other 03"
                         " FF. It gets no label. Scan it again. If it fails again, take it out.")
        self.assertEqual(station.end(), 0)
        self.assertEqual(bench.labels_left(), [])
        station = bench.station()
        station.asked()
        self.assertEqual(station.serves(SCAN_1), passed(NAME_1, 2))
        self.assertEqual(station.end(), 0)

    def test_a_luminaire_that_is_silent_when_it_is_verified(self):
        bench = self.bench()
        script = self.folder / "cutting"
        script.write_text("#!/bin/sh\ncase \" $* \" in *\" verify \"*) set -- --unit 9 \"$@\";; esac\n"
                          f"exec {ADAPTER} --folder bus1 \"$@\"\n")
        script.chmod(0o755)
        station = bench.station(adapter=[str(script)])
        station.asked()
        gone = "If it is gone for good, take out what stands there, and type the word GONE."
        silent = ("FAIL: Order 1 is written, and its luminaire doesn't answer now. Leave it in. See to its power and"
                  f" its wire, then scan it once more. {gone}")
        self.assertEqual(station.serves(SCAN_1), silent)
        self.assertEqual(station.serves(SCAN_2), f"FAIL: {NAME_2} isn't taken: order 1 isn't finished. "
                         + STAYS.format(name=NAME_1))
        self.assertEqual(station.serves(SCAN_1), silent)
        self.assertEqual(station.end(), 0)
        station = bench.station()
        self.assertEqual(station.asked(), stopped(NAME_1, 1))
        self.assertEqual(station.serves(SCAN_1), passed(NAME_1, 1))
        self.assertEqual(station.end(), 0)
        self.assertEqual(len(bench.states()), 1)


class StopTest(BenchTest):
    """A station that is stopped, and what it says then."""

    def bench(self):
        """Give a bench with a luminaire at its seat, on a bus that takes its time."""
        found = StationBench(self.folder)
        found.seat()
        found.pace = 5
        return found

    def test_a_stop_before_the_order_is_begun(self):
        bench = self.bench()
        # Four lines are shown, and the fifth is that of the order.
        station = bench.station(crash=("write", "5", "before"))
        station.asked()
        self.assertEqual(station.serves(SCAN_1), None)
        self.assertEqual(bench.states(), {1: "sent"})
        # No other process of the bus takes it, for any luminaire that is there then.
        self.assertEqual(bench.run(adapter=bench.station_words()[-5:]), 0)
        self.assertEqual((bench.states(), bench.seated()), ({1: "sent"}, BLANK))
        station = bench.station()
        self.assertEqual(station.asked(), "SCAN: Order 1 wasn't begun when the station was stopped, and is cancelled."
                         " Put a luminaire in, then scan it.")
        self.assertEqual(bench.states(), {1: "cancelled"})
        self.assertEqual(station.serves(SCAN_1), passed(NAME_1, 2))
        self.assertEqual(station.end(), 0)

    def stopped_amid(self, bench, number=signal.SIGKILL):
        """Stop a station amid its first order."""
        station = bench.station()
        station.asked()
        station.scan(SCAN_1)
        wait_for(lambda: bench.states().get(1) == "taken")
        station.process.send_signal(number)
        status = station.process.wait()
        wait_for(lambda: not processes_in(self.folder))
        return status

    def test_a_stop_amid_an_order(self):
        for number, status in ((signal.SIGKILL, -signal.SIGKILL), (signal.SIGTERM, 0)):
            folder = self.folder
            self.folder = folder / number.name
            self.folder.mkdir()
            bench = self.bench()
            self.assertEqual(self.stopped_amid(bench, number), status)
            station = bench.station()
            self.assertEqual(station.asked(), stopped(NAME_1, 1))
            before = bench.seated()
            # Another luminaire that is there now is not written.
            bench.seat()
            self.assertEqual(station.serves(SCAN_2), f"FAIL: {NAME_2} isn't taken: order 1 isn't finished. "
                             + STAYS.format(name=NAME_1))
            self.assertEqual(bench.seated(), BLANK)
            bench.seat(before)
            self.assertEqual(station.serves(SCAN_1), passed(NAME_1, 1))
            self.assertEqual(station.end(), 0)
            self.assertEqual((bench.seated(), bench.labels_left()), (bank_with(NUMBER_1), [NUMBER_1]))
            self.folder = folder

    def test_a_luminaire_that_is_gone(self):
        bench = self.bench()
        self.stopped_amid(bench)
        station = bench.station()
        station.asked()
        bench.seat(None)
        self.assertEqual(station.serves("gone"), "SCAN: Order 1 is given up, and gets no label. Put the next luminaire"
                         " in, then scan it.")
        bench.seat()
        # Its number may be another one's: it has no label.
        self.assertEqual(station.serves(SCAN_1), passed(NAME_1, 2))
        self.assertEqual(station.serves("GONE"), "SCAN: There is no order to give up. Put the next luminaire in, then"
                         " scan it.")
        self.assertEqual(station.end(), 0)
        self.assertEqual((bench.seated(), bench.labels_left()), (bank_with(NUMBER_1), [NUMBER_1]))

    @in_cases(SHARES)
    def test_a_stop_at_each_commit(self, case):
        """Each time the person scans once more; the luminaire has its numbers and one label, whatever comes."""
        bench = self.bench()
        bench.pace, number, stops = 0, 1 + case, 0
        while True:
            for when in ("before", "behind"):
                serial = f"{2 * number + (when == 'behind'):016X}"
                bench.seat()
                station = bench.station(crash=("commit", str(number), when))
                asked = station.asked()
                said = station.asked() if asked and station.scan(serial) else None
                is_passed = said is not None and said.startswith("PASS")
                if is_passed and station.end() == 0:
                    assert stops > 20 / SHARES, stops
                    print(f"stops of a station at a commit: {stops}", flush=True)
                    return
                self.assertEqual((number, when, said if not is_passed else None), (number, when, None))
                stops += 1
                self.ends_well(bench, serial)
            number += SHARES

    def ends_well(self, bench, serial):
        """Have a person bring a luminaire to its end after a stop."""
        station = bench.station()
        asked = station.asked()
        said = station.serves(serial)
        is_labelled = said.startswith("FAIL: ") and "has its label already" in said
        assert said.startswith("PASS") or is_labelled and asked == FIRST, (asked, said)
        self.assertEqual(station.end(), 0)
        self.assertEqual(bench.seated(), bank_with(serial))
        self.assertEqual(bench.labels_left().count(serial), 1)

    def test_another_order_of_the_bus(self):
        bench = self.bench()
        bench.does("add", "--bus", "bus1", "-", given=b'[{"unit": 5, "year": 9}]')
        station = bench.station()
        station.asked()
        self.assertEqual(station.serves(SCAN_1), "FAIL: Order 1 of the bus stands for no scan. `cancel` it, or end the"
                         " station and have `run` carry it out. Then scan again.")
        self.assertEqual(bench.does("cancel", "1"), ["order 1 cancelled"])
        self.assertEqual(station.serves(SCAN_1), passed(NAME_1, 2))
        # Its bus has one process.
        second = subprocess.run(bench.station_words(), cwd=self.folder, capture_output=True, text=True, check=False,
                                stdin=subprocess.DEVNULL)
        self.assertEqual((second.returncode, second.stderr),
                         (1, "error: the bus bus1 has another process: only one `run` of a bus may be at work\n"))
        self.assertEqual(bench.does("retire", "--bus", "bus1"), ["retired bench_1.journal"])
        bench.seat()
        self.assertEqual(station.serves(SCAN_2), passed(NAME_2, 3))
        self.assertEqual(station.end(), 0)

    def test_a_store_that_is_gone_for_a_while(self):
        with Server(self.folder) as server:
            bench = StationBench(self.folder, server.url)
            bench.seat()
            station = bench.station()
            self.assertEqual(station.asked(), FIRST)
            server.kill()
            wait_for(lambda: any("the store can't be used" in line for line in station.lines))
            server.start()
            self.assertEqual(station.asked(), FIRST)
            self.assertEqual(station.serves(SCAN_1), passed(NAME_1, 1))
            self.assertEqual(station.end(), 0)


def processes_in(folder):
    """Give the processes that work in a folder."""
    found = []
    for name in filter(str.isdigit, os.listdir("/proc")):
        try:
            if os.readlink(f"/proc/{name}/cwd") == str(folder):
                found.append(name)
        except OSError:
            continue
    return found
