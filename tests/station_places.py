"""Tests of the station: where its labels go, its terminal, short addresses, its page, and two stations at once."""

import http.client
import json
import os
import pty
import re
import signal
import socket
import subprocess
import threading
import time
import urllib.parse

from base import BenchTest, settings, want
from line_bench import ADAPTER, Server, wait_for
from line_fixtures import Page, text_of, told_by_browser
from station_bench import (BLANK, FIRST, NAME_1, NAME_2, NEXT, NOT_TAKEN, NUMBER_1, SCAN_1, SCAN_2, StationBench,
                           bank_with, passed)


class PlacesTest(BenchTest):
    """Where a station's labels go, its terminal, and short addresses."""

    def test_labels_go_to_a_command(self):
        bench = StationBench(self.folder)
        bench.seat()
        (self.folder / "jam").touch()
        station = bench.station("bus1", "--label-command", "sh -c 'test ! -e jam && cat >>labels'")
        station.asked()
        jam = ("FAIL: the label of order 1 isn't taken: sh ended with status 1. See to the printer: it is tried again."
               " Leave the luminaire in.")
        self.assertEqual(station.serves(SCAN_1), jam)
        (self.folder / "jam").unlink()
        self.assertEqual(station.asked(), f"PASS: {NAME_1}. The label of order 1 is out: put it on. {NEXT}")
        label = json.loads((self.folder / "labels").read_text())
        self.assertEqual((label["order"], label["identification"], label["gtin"]), (1, NUMBER_1, "4006381333931"))
        bench.seat()
        (self.folder / "jam").touch()
        self.assertEqual(station.serves(SCAN_2), jam.replace("order 1", "order 2"))
        station.process.send_signal(signal.SIGTERM)
        self.assertEqual(station.process.wait(20), 0)
        (self.folder / "jam").unlink()
        # It comes at the next start.
        station = bench.station("bus1", "--label-command", "sh -c 'cat >>labels'")
        self.assertEqual(station.asked(), "SCAN: The label of 1A2C, order 2, is out now: put it on. Put a luminaire in,"
                                          " then scan it.")
        numbers = [json.loads(line)["order"] for line in (self.folder / "labels").read_text().splitlines()]
        self.assertEqual((numbers, bench.does("labels")), ([1, 2], []))
        self.assertEqual(station.end(), 0)

    def test_a_plan_and_a_label_of_its_own(self):
        bench = StationBench(self.folder)
        bench.seat()
        (self.folder / "label.txt").write_text("{gtin} {identification} {gs1}\n")
        station = bench.station("bus1", "--checked-plan", "--label-command", "sh -c 'cat >>labels'", "--label",
                                "label.txt")
        station.asked()
        self.assertEqual(station.serves(SCAN_1), f"PASS: {NAME_1}. The label of order 1 is out: put it on. {NEXT}")
        self.assertEqual((self.folder / "labels").read_text(),
                         f"4006381333931 {NUMBER_1} 010400638133393121{NUMBER_1}\n")
        self.assertEqual(bench.rows("select plan, frames = expected from bench_orders"), [("checked", 1)])
        self.assertEqual(station.end(), 0)
        # An order that stands for a scan is repeated by a scan alone: so its number gets one label.
        ended = bench.give("again", "1")
        self.assertEqual((ended.status, ended.told),
                         (1, "error: order 1 stands for a scan of a station: scan its luminaire again there\n"))
        for words, why in ((("--label", "label.txt"), "--label spells what --to or --label-command gets: name one of"
                            " them"), (("--to", "x"), "--to takes HOST:PORT, as 192.0.2.7:9100, and not x")):
            ended = subprocess.run(bench.station_words("bus1", *words), cwd=self.folder, capture_output=True, text=True,
                                   stdin=subprocess.DEVNULL, check=False)
            self.assertEqual((ended.returncode, ended.stderr), (1, f"error: {why}\n"))

    def test_decimal_numbers(self):
        bench = StationBench(self.folder)
        bench.seat()
        station = bench.station("bus1", "--serial", "decimal")
        station.asked()
        self.assertEqual(station.serves("1A2B"),
                         "FAIL: The scan isn't taken: the number 1A2B isn't decimal digits. Scan again.")
        self.assertEqual(station.serves("(21)6699"), passed("6699", 1))
        self.assertEqual((bench.seated(), bench.labels_left()), (bank_with(NUMBER_1), [NUMBER_1]))
        self.assertEqual(station.end(), 0)

    def test_labels_go_to_a_printer(self):
        bench = StationBench(self.folder)
        bench.seat()
        taken = []
        with socket.create_server(("127.0.0.1", 0)) as printer:
            def serve():
                connection, _ = printer.accept()
                with connection:
                    taken.append(connection.makefile().read())

            thread = threading.Thread(target=serve)
            thread.start()
            station = bench.station("bus1", "--to", f"127.0.0.1:{printer.getsockname()[1]}")
            station.asked()
            self.assertEqual(station.serves(SCAN_1), f"PASS: {NAME_1}. The label of order 1 is out: put it on. {NEXT}")
            thread.join(20)
        self.assertEqual(json.loads(taken[0])["identification"], NUMBER_1)
        self.assertEqual(station.end(), 0)

    def test_a_terminal(self):
        bench = StationBench(self.folder)
        bench.seat()
        master, slave = pty.openpty()
        process = subprocess.Popen(bench.station_words(), cwd=self.folder, stdin=slave, stdout=slave,
                                   stderr=subprocess.DEVNULL)
        os.close(slave)
        bench.processes.append(process)
        shown = b""

        def has(words):
            nonlocal shown
            shown += os.read(master, 65536)
            return words in shown

        wait_for(lambda: has(b"Put a luminaire in, then scan it."))
        os.write(master, SCAN_1.encode() + b"\r")
        wait_for(lambda: has(b"is in the store"))
        for colour, word in ((44, "SCAN"), (43, "WORK"), (42, "PASS")):
            assert f"\033[2J\033[H\033[1;30;{colour}m{word.center(24)}\033[0m".encode() in shown, (word, shown)
        assert b" s left." in shown, shown
        process.send_signal(signal.SIGTERM)
        self.assertEqual(process.wait(20), 0)
        os.close(master)

    def test_new_luminaires_get_their_address(self):
        bench = StationBench(self.folder)
        new = [str(ADAPTER), "--folder", "bus1", "--new", "1"]
        station = bench.station("bus1", "--address", adapter=new)
        station.asked()
        for number, name in ((1, NAME_1), (2, NAME_2)):
            said = station.serves(name)
            assert re.fullmatch(f"PASS: {name}. The label of order {number} is in the store: `labels --take` prints it."
                                " Take the luminaire out in (2[0-9]|30) s: then it has stored its short address. Put"
                                " the next luminaire in, then scan it.", said), said
            path = self.folder / "bus1" / "new_1.hex"
            self.assertEqual(bytes.fromhex(path.read_text()), bank_with(name.zfill(16)))
            assert re.match("new_1 (short )?5 ", (self.folder / "bus1" / "addresses.txt").read_text())
            path.unlink()
            (self.folder / "bus1" / "addresses.txt").unlink()
        # One that has its address already goes on with it: its order failed before.
        self.assertEqual(station.end(), 0)
        subprocess.run([*new, "--", settings["program"], "address", "5"], cwd=self.folder, check=True,
                       capture_output=True)
        station = bench.station("bus1", "--address", adapter=new)
        station.asked()
        self.assertEqual(station.serves("1A2D"), passed("1A2D", 3))
        self.assertEqual(station.end(), 0)
        # Two new ones at once: which one would get it?
        for name in ("new_1.hex", "addresses.txt"):
            (self.folder / "bus1" / name).unlink()
        station = bench.station("bus1", "--address", adapter=[*new[:-1], "2"])
        station.asked()
        said = station.serves("1A2E")
        remedy = ("See that just one luminaire is in, and to its power and its wire, then scan it again. If it has"
                  " another short address already, `dali_bench address --all 5` gives it this one.")
        assert re.fullmatch("FAIL: The luminaire got no short address: unit 5 random [0-9A-F]{6}; given 2 missing 0"
                            f" shared 0. {remedy}", said), said
        self.assertEqual(bench.states().get(4), None)
        self.assertEqual(station.end(), 0)


class PageOfStationTest(BenchTest):
    """The page of a station."""

    def setUp(self):
        """Make a bench with a page."""
        super().setUp()
        self.bench = StationBench(self.folder)
        self.bench.seat()
        self.page = StationPage(self.bench)
        self.addCleanup(self.page.__exit__)

    def post(self, scan, path="/station", **headers):
        """Send what the field sends; give the status and the words of the answer."""
        host = self.page.host
        form = "application/x-www-form-urlencoded"
        given = {"Host": host, "Origin": f"http://{host}", "Content-Type": form, **headers}
        connection = http.client.HTTPConnection(host, timeout=20)
        connection.request("POST", path, urllib.parse.urlencode({"scan": scan}),
                           {name: value for name, value in given.items() if value is not None})
        answer = connection.getresponse()
        text = answer.read().decode()
        connection.close()
        return answer.status, text

    def told(self, scan, **headers):
        """Give the status, and the message for a scan that isn't taken."""
        status, text = self.post(scan, **headers)
        found = re.search('role="alert">(.*?)</p>', text)
        return status, found and found[1]

    def test_a_scan_of_the_page(self):
        station = self.bench.station()
        self.assertEqual(station.asked(), FIRST)
        assert "SCAN Put a luminaire in, then scan it." in text_of(self.page.get("/state"))
        self.assertEqual(self.told(SCAN_1), (303, None))
        self.assertEqual(station.asked(), passed(NAME_1, 1))
        assert f"PASS {NAME_1}." in text_of(self.page.get("/state"))
        self.assertEqual(self.told(""), (409, "The field was empty. Scan again."))
        self.bench.seat()
        self.bench.pace = 5
        self.assertEqual(station.end(), 0)
        assert "OFF The station has ended." in text_of(self.page.get("/state"))
        self.assertEqual(self.told(SCAN_2), (409, "The station isn&#x27;t running."))

    def test_a_scan_of_the_page_while_work_is_on(self):
        self.bench.pace = 10
        station = self.bench.station()
        station.asked()
        station.scan(SCAN_1)
        wait_for(lambda: "order 1" in text_of(self.page.get("/state")))
        assert "Leave the luminaire in" in text_of(self.page.get("/state"))
        self.assertEqual(self.told(SCAN_2), (409, NOT_TAKEN.replace("'", "&#x27;")))
        self.assertEqual(station.asked(), passed(NAME_1, 1))
        self.assertEqual((station.end(), len(self.bench.states())), (0, 1))

    def test_a_station_that_was_killed(self):
        station = self.bench.station()
        station.asked()
        station.process.kill()
        station.process.wait()
        self.assertEqual(self.told(SCAN_1), (409, "The station isn&#x27;t running."))
        assert "OFF It hasn't run since" in text_of(self.page.get("/state"))
        # The scan isn't for a luminaire that comes later.
        station = self.bench.station()
        self.assertEqual(station.asked(), FIRST)
        time.sleep(0.5)
        self.assertEqual(self.bench.states(), {})
        self.assertEqual(station.end(), 0)

    def test_scans_from_elsewhere(self):
        station = self.bench.station()
        station.asked()
        host, port = self.page.host, self.page.host.split(":")[1]
        page, computer = "A scan is taken from this page alone.", "A scan is taken from this computer alone."
        names = f"A scan is taken at 127.0.0.1:{port} and localhost:{port} alone."
        for headers, why in (({"Origin": None}, page), ({"Origin": "null"}, page),
                             ({"Origin": "http://evil.example"}, page), ({"Origin": f"https://{host}"}, page),
                             ({"Origin": "http://127.0.0.1:1"}, page),
                             ({"Origin": f"http://localhost:{port}"}, page),
                             ({"Host": f"evil.example:{port}", "Origin": f"http://evil.example:{port}"}, names),
                             ({"Host": "127.0.0.1"}, names), ({"Host": ""}, names),
                             ({"X-Forwarded-For": "192.0.2.7"}, computer), ({"Via": "1.1 proxy"}, computer)):
            self.assertEqual((headers, self.told(SCAN_1, **headers)), (headers, (403, why)))
        for headers, status in (({"Content-Length": "4097"}, 403), ({"Content-Length": "x"}, 403)):
            self.assertEqual((headers, self.post(SCAN_1, **headers)[0]), (headers, status))
        for path in ("/", "/station/", "/station/state", "/station?x", "/other"):
            self.assertEqual((path, self.post(SCAN_1, path)[0]), (path, 501))
        self.assertEqual(self.bench.states(), {})
        nasty = "<script>alert(1)</script>"
        self.assertEqual(self.told(nasty), (303, None))
        assert "isn't 1 to 16 hexadecimal digits" in station.asked()
        text = self.page.get("/state")
        assert "<script" not in text and "&lt;script&gt;" in text, text
        # By the other names of this computer too.
        self.assertEqual(self.told(SCAN_1, Host=f"localhost:{port}", Origin=f"http://localhost:{port}"), (303, None))
        self.assertEqual(station.asked(), passed(NAME_1, 1))
        self.assertEqual(station.end(), 0)

    def test_what_the_page_is(self):
        for path, words in (("", ("<iframe", "autofocus")), ("/state", ('http-equiv="refresh" content="1"', "OFF")),
                            (".css", ("body.pass",))):
            connection = http.client.HTTPConnection(self.page.host, timeout=20)
            connection.request("GET", f"/station{path}")
            answer = connection.getresponse()
            text = answer.read().decode()
            self.assertEqual((path, answer.status), (path, 200))
            assert all(it in text for it in words) and "<script" not in text, (path, text)
            policy = answer.getheader("Content-Security-Policy")
            for words in ("default-src 'none'", "frame-ancestors 'self'", "form-action 'self'"):
                assert words in policy and "script" not in policy, policy
            connection.close()
        # The field's page is never loaded anew, or what is typed would be lost.
        assert "refresh" not in self.page.get("")
        ended = self.bench.give("page", "--station", "bus9", "--listen", "127.0.0.1:0")
        self.assertEqual((ended.status, ended.told), (1, "error: there is no bus bus9: `init --bus bus9` makes it\n"))

    def test_a_browser_shows_it(self):
        picture = self.folder / "station.png"
        told_by_browser(self.page.url, f"--screenshot={picture}", "--window-size=1100,700")
        self.assertEqual(picture.read_bytes()[:8], b"\x89PNG\r\n\x1a\n")
        text = text_of(told_by_browser(f"{self.page.url}/state", "--dump-dom"))
        assert "OFF No station was started at the bus bus1." in text, text


class StationPage(Page):
    """The page of a bench with a station."""

    def __init__(self, bench):
        self.process = subprocess.Popen(bench.words("page", "--listen", "127.0.0.1:0", "--station", "bus1"),
                                        cwd=bench.folder, stdout=subprocess.PIPE, text=True)
        self.url = self.process.stdout.readline().strip()
        want(self.url.endswith("/station"), True)
        self.host = self.url.split("/")[2]


class TwoStationsTest(BenchTest):
    """Stations at two buses over one store."""

    def two_scan_one_luminaire(self, bench):
        """Have two stations get one scan at once, several times; one of them takes it."""
        stations = [bench.station(bus) for bus in ("bus1", "bus2")]
        for station in stations:
            station.asked()
        for number in range(6):
            for bus in ("bus1", "bus2"):
                bench.seat(bus=bus)
            for station in stations:
                station.scan(f"{number:016X}")
            said = [station.asked() for station in stations]
            assert sorted(it[:4] for it in said) == ["FAIL", "PASS"], said
            refused, = (it for it in said if it.startswith("FAIL"))
            assert "is at work already" in refused or "has its label already" in refused, refused
            first = said[0].startswith("PASS")
            self.assertEqual([bench.seated(bus) == BLANK for bus in ("bus1", "bus2")], [not first, first])
        for station in stations:
            self.assertEqual(station.end(), 0)
        self.assertEqual(bench.labels_left(), [f"{number:016X}" for number in range(6)])

    def test_over_sqlite(self):
        self.two_scan_one_luminaire(StationBench(self.folder, buses=("bus1", "bus2")))

    def test_over_postgresql(self):
        with Server(self.folder) as server:
            self.two_scan_one_luminaire(StationBench(self.folder, server.url, ("bus1", "bus2")))
