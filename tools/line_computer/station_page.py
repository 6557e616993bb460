"""The page of a station, readable from two metres: what it shows, and one field for a scan, which it alone takes.

The station's words are in a frame that is loaded anew each second, so that the text in the field stays.
"""

from __future__ import annotations

import ipaddress
import time
import urllib.parse
from html import escape
from http import HTTPStatus
from typing import Optional

from . import stations
from .database import Database
from .moments import moment
from .orders import now
from .schema import number_of_bus
from .screen import FAIL, OFF, PASS, SCAN, WORK, with_time
from .stations import Shown

PAGE, STATE, CSS_PATH = "/station", "/station/state", "/station.css"
FIELD = "scan"
MOST = 4096  # bytes of what the field sends
SILENT = 60  # seconds after which a station that hasn't said that it is there isn't
PATIENCE, POLL = 3, 0.1  # seconds for the station to take a scan, and between two looks
# A browser may put the frame into the page, and neither of both into another one's.
POLICY = ("default-src 'none'; style-src 'self'; form-action 'self'; base-uri 'none'; frame-src 'self';"
          " frame-ancestors 'self'")
# A header of a server between this one and a browser, by which the browser isn't on this computer.
FORWARDED = ("Forwarded", "X-Forwarded-For", "X-Real-IP", "Via")
KINDS = {SCAN: "scan", WORK: "work", PASS: "pass", FAIL: "fail", OFF: "off"}
STYLE = """
html, body { margin: 0; height: 100%; font-family: system-ui, sans-serif; }
body.page { display: flex; flex-direction: column; background: #fff; color: #111; }
iframe { border: 0; flex: 1; width: 100%; }
form { display: flex; gap: 1vw; padding: 1.5vh 1.5vw; align-items: center; font-size: 3vh; }
input { font: inherit; flex: 1; padding: 0.5vh 1vw; } button { font: inherit; padding: 0.5vh 2vw; }
.told { font-size: 4vh; font-weight: 600; padding: 1vh 1.5vw; margin: 0; background: #b3261e; color: #fff; }
body.state { padding: 2vh 3vw; box-sizing: border-box; }
h1 { font-size: 24vh; line-height: 1; margin: 0; letter-spacing: 0.04em; }
body.state p { font-size: 7vh; line-height: 1.15; margin: 2vh 0 0; font-weight: 600; overflow-wrap: anywhere; }
body.scan { background: #123a6b; color: #fff; } body.work { background: #f2b01e; color: #111; }
body.pass { background: #12712f; color: #fff; } body.fail { background: #a81b12; color: #fff; }
body.off { background: #444b52; color: #fff; }
"""


def standing(database: Database, bus: str) -> Shown:
    """Give what the station of a bus shows."""
    found = stations.standing(database, bus)
    if found is None:
        return Shown(OFF, (f"No station was started at the bus {bus}.",))
    shown, _, seen = found
    # Another process may have the bus's lock since then.
    is_there = database.locked({bus: number_of_bus(database, bus)}) and now() - seen <= SILENT
    if shown.word != OFF and not is_there:
        return Shown(OFF, (f"It hasn't run since {moment(seen)}.",
                           "Leave the luminaire in, and start the station again."))
    return shown


def state(database: Database, bus: str) -> str:
    """Make the frame."""
    shown = standing(database, bus)
    lines = "".join(f"<p>{escape(line)}</p>" for line in with_time(shown))
    return document(f"state {KINDS.get(shown.word, 'off')}", '<meta http-equiv="refresh" content="1">',
                    f"<h1>{escape(shown.word)}</h1>{lines}")


def page(bus: str, told: str = "") -> str:
    """Make the page, with the message on the last scan if it wasn't taken."""
    words = f'<p class="told" role="alert">{escape(told)}</p>' if told else ""
    form = (f'<form method="post" action="{PAGE}"><label for="{FIELD}">Scan</label><input id="{FIELD}" name="{FIELD}"'
            ' autofocus autocomplete="off" autocapitalize="off" spellcheck="false"><button>Enter</button></form>')
    return document("page", "", f'<iframe src="{STATE}" title="Station {escape(bus)}"></iframe>{words}{form}')


def document(kind: str, head: str, body: str) -> str:
    """Put a document together."""
    return (f'<!DOCTYPE html><html lang="en"><meta charset="utf-8"><meta name="viewport" content="width=device-width">'
            f'{head}<title>Station</title><link rel="stylesheet" href="{CSS_PATH}"><body class="{kind}">{body}</body>'
            "</html>")


def why_foreign(client: str, headers, port: int) -> Optional[str]:
    """Tell why a request isn't from a browser on this computer that shows this page, where it isn't."""
    host, address = headers.get("Host", ""), ipaddress.ip_address(client.partition("%")[0])
    if not (getattr(address, "ipv4_mapped", None) or address).is_loopback or any(map(headers.get, FORWARDED)):
        return "A scan is taken from this computer alone."
    if host not in (f"127.0.0.1:{port}", f"localhost:{port}", f"[::1]:{port}"):
        return f"A scan is taken at 127.0.0.1:{port} and localhost:{port} alone."
    if headers.get("Origin") != f"http://{host}":
        return "A scan is taken from this page alone."
    return None


def scan_of(data: bytes) -> str:
    """Read what the field sends."""
    found = urllib.parse.parse_qs(data.decode("ascii", "replace"), keep_blank_values=True, max_num_fields=8)
    return found.get(FIELD, [""])[0].strip()


def bring(database: Database, bus: str, scan: str) -> tuple[HTTPStatus, str]:
    """Bring a scan to the station; give the status, and why it isn't taken, where it isn't."""
    if not scan:
        return HTTPStatus.CONFLICT, "The field was empty. Scan again."
    if standing(database, bus).word == OFF:
        return HTTPStatus.CONFLICT, "The station isn't running."
    if not stations.post(database, bus, scan):
        return HTTPStatus.CONFLICT, stations.NOT_TAKEN
    last = time.monotonic() + PATIENCE
    while time.monotonic() < last:
        answer = stations.answer(database, bus)
        if answer is not None:
            return (HTTPStatus.SEE_OTHER, "") if answer == stations.TAKEN else (HTTPStatus.CONFLICT, answer)
        time.sleep(POLL)
    if stations.withdraw(database, bus):
        return HTTPStatus.CONFLICT, "The station doesn't answer, and has not taken the scan."
    return HTTPStatus.SEE_OTHER, ""
