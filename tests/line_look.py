"""Tests of the line computer's page: what it shows, that it changes nothing, and how long it takes."""

import html
import http.client
import json
import os
import re
import subprocess
import urllib.error
import urllib.request

from base import BenchTest
from line_bench import ABSENT, Bench, Server, wait_for
from line_fixtures import MANY, MOST_PAGE, MOST_STEP, Page, fill, page_seconds, step_seconds, text_of, told_by_browser

NASTY = "<script>alert('\"&')</script>"


def status_of(page):
    """Give the status of the page."""
    try:
        page.get()
        return 200
    except urllib.error.HTTPError as fault:
        return fault.code


class PageTest(BenchTest):
    """The page of the line computer."""

    def test_the_page_shows_buses_and_orders(self):
        bench = Bench(self.folder, buses=("bus1", "bus2"))
        numbers = bench.add([(5, 24, 1), (ABSENT, 24, 1)])
        self.assertEqual(bench.run(), 0)
        bench.add([(5, 25, 1)], "bus2")
        with Page(bench) as page:
            text = text_of(page.get())
            for words in ("bus1 not running since", "1 to do", "1 done in the last 24 hours", "1 not done in it",
                          "1 labels left", "kept 0 Done", "kept 3 Silent", "Orders by hour and end",
                          "Frames that missed, by order"):
                assert words in text, (words, text)
            self.assertEqual(numbers, [1, 2])

    def test_the_page_is_searched(self):
        bench = Bench(self.folder)
        given = json.dumps([{"unit": 5, "gtin": "4006381333931"}, {"order": 7, "unit": 9, "gtin": "96385074"},
                            {"unit": 5, "year": 24, "luminaire": NASTY}])
        bench.does("add", "-", given=given.encode())
        with Page(bench) as page:
            for query, wanted in {"?unit=5": {1, 3}, "?unit=9": {2}, "?gtin=4006381333931": {1}, "?gtin=96385074": {2},
                                  "?gtin=00000096385074": {2}, "?number=3": {3}, "?unit=5&number=1": {1},
                                  "?unit=63": set(), "?number=99999999999999999999": set(),
                                  "?unit=%27%20or%201=1": set(), "?number=x&unit=5": {1, 3},
                                  "": {1, 2, 3}}.items():
                found = set(map(int, re.findall(r'<a href="/\?number=([0-9]+)">', page.get(query))))
                self.assertEqual((query, found), (query, wanted))
            detail = page.get("?number=3")
            assert html.escape(NASTY) in detail and NASTY not in detail, detail
            assert "Reference 7" in text_of(page.get("?number=2"))
            nasty = urllib.request.quote(NASTY)
            for key in ("number", "reference", "identification", "back", "day"):
                assert NASTY not in page.get(f"?{key}={nasty}"), f"{key} isn't escaped"

    def test_the_page_changes_nothing(self):
        bench = Bench(self.folder)
        bench.add([(5, 24, 1)])
        before = bench.rows("select * from bench_orders"), bench.rows("select * from bench_states")
        with Page(bench) as page:
            host = page.url.split("/")[2]
            statuses = {"GET /": 200, "HEAD /": 200, "GET /style.css": 200, "GET /page.js": 200, "GET /other": 404,
                        "GET /../orders.db": 404, "POST /": 501, "PUT /": 501, "DELETE /": 501}
            for request, status in statuses.items():
                connection = http.client.HTTPConnection(host, timeout=20)
                connection.request(*request.split(), body=b"" if request[0] in "PD" else None)
                answer = connection.getresponse()
                self.assertEqual((request, answer.status), (request, status))
                if status == 200:
                    policy = answer.getheader("Content-Security-Policy")
                    # Its own script alone, and no other place is asked.
                    self.assertEqual(policy, "default-src 'none'; style-src 'self'; script-src 'self';"
                                     " connect-src 'self'; form-action 'self'; base-uri 'none'; frame-ancestors 'none'")
                    assert answer.getheader("X-Content-Type-Options") == "nosniff"
                self.assertEqual((request, answer.read() == b""), (request, request.startswith("HEAD")))
                connection.close()
            text = page.get()
            self.assertEqual(re.findall("<script[^>]*>|javascript:|https?://| on[a-z]+=", text),
                             ['<script src="/page.js" defer>'])
            # Nobody but this computer reaches it.
            port = int(host.rsplit(":", 1)[1])
            listening = subprocess.run(["ss", "-Hltn"], capture_output=True, text=True, check=False).stdout
            found = [it.split()[3] for it in listening.splitlines() if it.split()[3].endswith(f":{port}")]
            assert not listening or found == [f"127.0.0.1:{port}"], listening
        self.assertEqual((bench.rows("select * from bench_orders"), bench.rows("select * from bench_states")), before)

    def test_the_page_tells_a_store_that_is_gone(self):
        bench = Bench(self.folder)
        with Page(bench) as page:
            os.rename(bench.store, self.folder / "away.db")
            try:
                page.get()
                raise AssertionError("there is a page without a store")
            except urllib.error.HTTPError as fault:
                self.assertEqual((fault.code, "The store can" in fault.read().decode()), (503, True))
            os.rename(self.folder / "away.db", bench.store)
            assert "Buses" in page.get()

    def test_a_hundred_thousand_orders(self):
        bench = Bench(self.folder, buses=("bus1", "bus2"))
        fill(bench, MANY, ("bus1", "bus2"))
        with Page(bench) as page:
            pages = page_seconds(page)
        step = step_seconds(bench)
        print(f"a page of {MANY} orders: {1000 * max(pages.values()):.0f} ms, a step: {1000 * step:.1f} ms", flush=True)
        assert max(pages.values()) < MOST_PAGE and step < MOST_STEP, (pages, step)

    def test_a_browser_shows_the_page(self):
        bench = Bench(self.folder, buses=("bus1", "bus2"))
        fill(bench, 500, ("bus1", "bus2"))
        with Page(bench) as page:
            text = text_of(told_by_browser(page.url, "--dump-dom"))
            for words in ("Line computer", "bus1 not running", "20 to do", "Orders by hour and end", "kept 0 Done",
                          "Frames that missed, by order"):
                assert words in text, (words, text)
            picture = self.folder / "page.png"
            told_by_browser(page.url, f"--screenshot={picture}", "--window-size=1100,1600")
            self.assertEqual(picture.read_bytes()[:8], b"\x89PNG\r\n\x1a\n")

    def test_the_page_over_postgresql(self):
        with Server(self.folder) as server:
            bench = Bench(self.folder, server.url)
            bench.add([(5, 24, 1), (ABSENT, 24, 2)])
            self.assertEqual(bench.run(), 0)
            with Page(bench) as page:
                text = text_of(page.get("?unit=5"))
                assert "kept 0 Done" in text and "kept 3 Silent" not in text, text
                server.kill()
                code = wait_for(lambda: status_of(page))
                self.assertEqual(code, 503)
                server.start()
                assert wait_for(lambda: status_of(page) == 200)
