"""Serves the page over HTTP: what is read only, with a connection to the store for each request."""

from __future__ import annotations

import ipaddress
import socket
import urllib.parse
from html import escape
from http import HTTPStatus
from http.server import BaseHTTPRequestHandler, ThreadingHTTPServer
from typing import Callable, Optional

from . import station_page
from .database import Database
from .faults import Failed, Refused
from .page import SCRIPT, STYLE, Look, document, page_of
from .schema import open_store

HTML, CSS, SCRIPTS = (f"text/{kind}; charset=utf-8" for kind in ("html", "css", "javascript"))
# The rights of a browser on the page: show it, with our style and our script, and ask and send its form here.
POLICY = ("default-src 'none'; style-src 'self'; script-src 'self'; connect-src 'self'; form-action 'self';"
          " base-uri 'none'; frame-ancestors 'none'")
HEADERS = {
    "X-Content-Type-Options": "nosniff",
    "Referrer-Policy": "no-referrer",
    "Cache-Control": "no-store",
}


class Handler(BaseHTTPRequestHandler):
    """Answers one browser."""

    server_version, sys_version, protocol_version = "line_computer", "", "HTTP/1.1"
    timeout = 20  # seconds for a request to come
    place, look, station = "", Look("", []), None

    def do_GET(self) -> None:
        """Answer with the page, its style or its script."""
        path, _, query = self.path.partition("?")
        if path == "/style.css":
            self.answer(HTTPStatus.OK, CSS, STYLE)
        elif path == "/page.js":
            self.answer(HTTPStatus.OK, SCRIPTS, SCRIPT)
        elif path == "/":
            self.answer(*self.page(dict(urllib.parse.parse_qsl(query, keep_blank_values=True))))
        elif self.station and path in (station_page.PAGE, station_page.STATE, station_page.CSS_PATH):
            self.answer(*self.station_part(path), policy=station_page.POLICY)
        else:
            self.answer(HTTPStatus.NOT_FOUND, HTML, document("<h1>There is no such page</h1>"))

    do_HEAD = do_GET

    def page(self, query: dict) -> tuple[HTTPStatus, str, str]:
        """Give the page, or why there is none."""
        return self.from_store(lambda database: page_of(database, query, self.look))

    def from_store(self, make: Callable[[Database], str]) -> tuple[HTTPStatus, str, str]:
        """Give what is made of the store, or why it can't be."""
        try:
            database = open_store(self.place)
            try:
                return HTTPStatus.OK, HTML, make(database)
            finally:
                database.close()
        except (Failed, Refused) as fault:
            body = f"<h1>The store can't be used</h1><p>{escape(str(fault))}</p>"
            return HTTPStatus.SERVICE_UNAVAILABLE, HTML, document(body)

    def station_part(self, path: str) -> tuple[HTTPStatus, str, str]:
        """Give a part of the station's page."""
        if path == station_page.CSS_PATH:
            return HTTPStatus.OK, CSS, station_page.STYLE
        if path == station_page.PAGE:
            return HTTPStatus.OK, HTML, station_page.page(self.station)
        return self.from_store(lambda database: station_page.state(database, self.station))

    def do_POST(self) -> None:
        """Bring a scan to the station; nothing else is taken."""
        self.close_connection = True
        if not self.station or self.path != station_page.PAGE:
            self.send_error(HTTPStatus.NOT_IMPLEMENTED)
            return
        why = station_page.why_foreign(self.client_address[0], self.headers, self.server.server_address[1])
        length = self.headers.get("Content-Length", "")
        if why or not (length.isascii() and length.isdigit() and int(length) <= station_page.MOST):
            self.tell(HTTPStatus.FORBIDDEN, why or "That is no scan.")
            return
        scan = station_page.scan_of(self.rfile.read(int(length)))
        try:
            database = open_store(self.place)
            try:
                self.tell(*station_page.bring(database, self.station, scan))
            finally:
                database.close()
        except (Failed, Refused) as fault:
            self.tell(HTTPStatus.SERVICE_UNAVAILABLE, f"The store can't be used: {fault}")

    def tell(self, status: HTTPStatus, words: str) -> None:
        """Answer a scan: with the page, and why it isn't taken, where it isn't."""
        more = {"Location": station_page.PAGE} if status == HTTPStatus.SEE_OTHER else {}
        self.answer(status, HTML, station_page.page(self.station, words), policy=station_page.POLICY, **more)

    def answer(self, status: HTTPStatus, kind: str, text: str, policy: str = POLICY, **more: str) -> None:
        """Send an answer."""
        data = text.encode()
        self.send_response(status)
        for name, value in {"Content-Type": kind, "Content-Length": str(len(data)), **HEADERS,
                            "Content-Security-Policy": policy, **more}.items():
            self.send_header(name, value)
        self.end_headers()
        if self.command != "HEAD":
            self.wfile.write(data)

    def log_message(self, *_) -> None:
        """Tell nothing of a request."""


class Server(ThreadingHTTPServer):
    """A server whose requests end with it, and in which a browser that has gone is no news."""

    daemon_threads = True

    def handle_error(self, *_) -> None:
        """Tell nothing of a browser that has gone."""


def is_of_this_computer(host: str) -> bool:
    """Tell whether none but this computer reaches a host."""
    try:
        found = socket.getaddrinfo(host, None)
    except OSError:
        return True  # it can't be listened at: the system says why
    return all(ipaddress.ip_address(place[0].partition("%")[0]).is_loopback for *_, place in found)


def serve(place: str, look: Look, host: str, port: int, station: Optional[str], tell: Callable[[str], None]) -> None:
    """Serve the page at a host and a port, with that of a station, and tell its address once it can be reached."""
    handler = type("Handler", (Handler,), {"place": place, "look": look, "station": station})
    kind = type("Server", (Server,), {"address_family": socket.AF_INET6 if ":" in host else socket.AF_INET})
    with kind((host, port), handler) as server:
        name = f"[{host}]" if ":" in host else host
        tell(f"http://{name}:{server.server_address[1]}{station_page.PAGE if station else '/'}")
        server.serve_forever()
