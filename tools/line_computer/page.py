"""The page: how buses and orders stand, read from the store for each request. It changes nothing.

A script brings it up to date each few seconds, so that what is typed into the search stays; without scripts the browser
loads it anew.
"""

from __future__ import annotations

import datetime
from html import escape
from typing import NamedTuple
from urllib.parse import urlencode

from . import standing, tables
from .charts import ENDS, LAST_ORDERS, hours_picture, means_of, misses_picture
from .database import Database
from .moments import moment
from .orders import now
from .schema import AT_WORK, LIVE, QUARTER
from .spans import HOUR, Span, day, quarters, shift
from .standing import Bus

TITLE = "Line computer"
# The page's questions besides orders: how many shifts back, or a whole day in place of a shift.
BACK, DAY = "back", "day"
MOST_BACK = 99
WRONG_SEARCH = "A search wants digits; a serial number takes hexadecimal ones, a reference any characters."
BUS_NAMES = {"bus": "Bus", "words": "How it stands", "waiting": "Waiting", "work": "At work", "done": "Done",
             "failed": "Not done"}
STYLE = """
:root { color-scheme: light dark; --text: #1c2126; --soft: #59636e; --line: #d5dae0; --back: #fff; --panel: #f5f7f9;
  --alarm: #a63d00; --done: #0072b2; --short: #f0e442; --format: #e69f00; --silent: #56b4e9; --doubt: #d55e00;
  --open: #cc79a7; --refused: #8b949e; --reused: #c4cad0; --over: #1c2126; }
@media (prefers-color-scheme: dark) {
  :root { --text: #e4e8ec; --soft: #9aa4ae; --line: #353c44; --back: #14181c; --panel: #1c2228; --alarm: #ff9d5c;
    --done: #1f7fc0; } }
body { font: 15px/1.45 system-ui, sans-serif; color: var(--text); background: var(--back); margin: 0 auto;
  max-width: 1240px; padding: 16px 20px 40px; }
h1 { font-size: 20px; margin: 0; } h2 { font-size: 15px; margin: 28px 0 8px; } a { color: inherit; }
header { display: flex; flex-wrap: wrap; gap: 4px 16px; align-items: baseline; justify-content: space-between; }
header p, .soft { color: var(--soft); margin: 0; }
#old { background: var(--alarm); color: var(--back); font-weight: 600; padding: 8px 12px; border-radius: 6px; }
.counts { display: flex; flex-wrap: wrap; gap: 8px; list-style: none; padding: 0; margin: 12px 0 0; }
.counts li { background: var(--panel); border-radius: 6px; padding: 6px 12px; } .counts b { font-size: 18px; }
.spans { display: flex; flex-wrap: wrap; gap: 4px 16px; margin: 12px 0 0; }
.scroll { overflow-x: auto; } table { border-collapse: collapse; width: 100%; } table.pairs { width: auto; }
th, td { text-align: left; padding: 4px 12px 4px 0; border-bottom: 1px solid var(--line); vertical-align: top; }
td { overflow-wrap: anywhere; min-width: 3em; } .pairs .pairs td { border: 0; padding: 0 12px 0 0; }
.pairs .pairs th { border: 0; padding: 0 12px 0 0; }
th { color: var(--soft); font-weight: 500; } td.n, th.n { text-align: right; font-variant-numeric: tabular-nums; }
tr.trouble td:first-child, tr.trouble .end { color: var(--alarm); }
tr.trouble td:first-child::before { content: "! "; font-weight: 700; } td.w { white-space: nowrap; }
td.a { min-width: 20em; }
progress { width: 120px; accent-color: var(--done); vertical-align: middle; }
form { display: flex; flex-wrap: wrap; gap: 8px; align-items: end; } label { color: var(--soft); font-size: 13px; }
input, button { display: block; font: inherit; padding: 4px 8px; color: var(--text); background: var(--panel);
  border: 1px solid var(--line); border-radius: 6px; width: 10em; } button { width: auto; }
svg { display: block; width: 100%; height: auto; } svg text { fill: var(--soft); font: 11px system-ui, sans-serif; }
svg text.count { fill: var(--alarm); font-weight: 700; } .over { stroke: var(--over); stroke-width: 1; fill: none; }
.grid { stroke: var(--line); } .misses { fill: var(--doubt); }
.legend { display: flex; flex-wrap: wrap; gap: 4px 16px; list-style: none; padding: 0; margin: 6px 0 0; }
.legend svg { display: inline; width: 14px; vertical-align: -2px; } .few { display: grid; gap: 16px 24px;
  grid-template-columns: repeat(auto-fill, minmax(240px, 1fr)); } .few h3 { font-size: 13px; margin: 0; }
@media (max-width: 700px) {
  .cards, .cards tbody { display: block; } .cards tr:first-child { display: none; }
  .cards tr { display: block; border-bottom: 2px solid var(--line); padding: 6px 0; }
  .cards td, .cards td.n { display: flex; gap: 8px; border: 0; padding: 1px 0; text-align: left; }
  .cards td:empty { display: none; } td.a { min-width: 0; }
  .cards tr.trouble td:first-child::before { content: "! " attr(data-name); }
  .cards td::before, .cards tr.trouble td:first-child::before { flex: 0 0 8.5em; color: var(--soft); font-weight: 500; }
  .cards td::before { content: attr(data-name); } .cards tr.trouble td:first-child::before { color: var(--alarm); } }
""" + "".join(f".{kind} {{ fill: var(--{kind}); }}\n" for kind in ENDS.values())
# A mark stays, and so does a field that is typed in, which is in no part that is brought up to date.
SCRIPT = """
"use strict";
const parts = ["moment", "above", "below"];
function tell(words) {
  const old = document.getElementById("old");
  old.textContent = words;
  old.hidden = words === "";
}
async function refresh() {
  try {
    if (!getSelection().isCollapsed && document.activeElement.tagName !== "INPUT") return;
    const answer = await fetch(location.href, {cache: "no-store"});
    const page = new DOMParser().parseFromString(await answer.text(), "text/html");
    if (!answer.ok) {
      tell("This page is old. " + page.body.textContent);
    } else if (parts.some(part => !document.getElementById(part))) {
      location.reload();
    } else {
      for (const part of parts) document.getElementById(part).replaceWith(page.getElementById(part));
      tell("");
    }
  } catch (fault) {
    tell("This page is old: the line computer's page gives no answer. It is asked again.");
  } finally {
    setTimeout(refresh, 3000);
  }
}
setTimeout(refresh, 3000);
"""
HEAD = """<script src="/page.js" defer></script><noscript><meta http-equiv="refresh" content="5"></noscript>"""


class Look(NamedTuple):
    """The name of the page, and the clock times at which shifts begin, if there are shifts."""

    name: str
    shifts: list[datetime.time]

    def span(self, query: dict) -> Span:
        """Give the time that a request counts in: this shift, one before it, or the last day."""
        if not self.shifts or DAY in query:
            return day(now())
        return shift(self.shifts, now(), back_of(query))


def back_of(query: dict) -> int:
    """Read how many shifts a request goes back."""
    text = query.get(BACK, "")
    return min(int(text), MOST_BACK) if text.isascii() and text.isdigit() and len(text) < 4 else 0


# Buses


def ends_of(database: Database, span: Span) -> list[tuple[int, str, str, int]]:
    """Count the ends of orders in a span: its hour, from 0, the bus, the end, and how many."""
    first, behind = quarters(span)
    rows = database.rows(
        f"select ended / {QUARTER}, bus, state, code, count(*) from bench_orders where ended / {QUARTER} >= ? and"
        f" ended / {QUARTER} < ? group by ended / {QUARTER}, bus, state, code", first, behind)
    return [((quarter - first) // (HOUR // QUARTER), bus, state if code is None else tuple(ENDS)[code], count)
            for quarter, bus, state, code, count in rows if state != "cancelled"]


def live_of(database: Database) -> dict[str, dict]:
    """Count the orders that have no end, by bus and by whether they wait or are at work."""
    found: dict = {}
    for bus, state, count in database.rows(f"select bus, state, count(*) from bench_orders where {LIVE}"
                                           " group by bus, state"):
        its, kind = found.setdefault(bus, {}), "work" if state in AT_WORK else "waiting"
        its[kind] = its.get(kind, 0) + count
    return found


def bus_counts(buses: list[Bus], live: dict, ends: list) -> dict[str, dict]:
    """Count by bus what waits, is at work, is done and isn't."""
    found = {it.bus: {"waiting": 0, "work": 0, "done": 0, "failed": 0, **live.get(it.bus, {})} for it in buses}
    for _, bus, end, count in ends:
        if bus in found:  # one that was made just now isn't shown yet
            found[bus]["done" if end == "Done" else "failed"] += count
    return found


def buses_part(buses: list[Bus], counts: dict[str, dict]) -> str:
    """Show the buses, and what stands below them all."""
    rows = []
    for it in buses:
        bar = f' <progress max="{it.expected}" value="{min(it.frames, it.expected)}"></progress>' if it.is_at_work() \
            else ""
        numbers = {key: str(count) for key, count in counts[it.bus].items()}
        words = f'<span class="end">{escape(it.words())}</span>{bar}'
        rows.append((not it.is_well(), {"bus": escape(it.bus), "words": words, **numbers}))
    if len(buses) > 1:
        sums = {key: str(sum(it[key] for it in counts.values())) for key in ("waiting", "work", "done", "failed")}
        rows.append((False, {"bus": "all", **sums}))
    return f"<h2>Buses</h2>{tables.table(BUS_NAMES, rows, ('waiting', 'work', 'done', 'failed'))}"


def counts_part(database: Database, counts: dict[str, dict], span: Span) -> str:
    """Count what is to be done, and what was done in a span."""
    left = database.rows("select count(*) from bench_labels where taken is null")[0][0]
    sums = {key: sum(it[key] for it in counts.values()) for key in ("waiting", "work", "done", "failed")}
    shown = {"to do": sums["waiting"] + sums["work"], f"done in {span.name}": sums["done"],
             "not done in it": sums["failed"], "labels left": left}
    items = "".join(f"<li><b>{count}</b> {escape(name)}</li>" for name, count in shown.items())
    return f'<ul class="counts">{items}</ul>'


def spans_part(look: Look, query: dict) -> str:
    """Lead to the shifts and the day; what is searched for goes along."""
    if not look.shifts:
        return ""
    back, kept = back_of(query), {key: query[key] for key in tables.SEARCHED if query.get(key)}
    earlier = {"one earlier": {BACK: str(min(back + 1, MOST_BACK))}} if back else {}
    spans = {"this shift": {}, "the shift before": {BACK: "1"}, **earlier, "24 hours": {DAY: ""}}
    links = "".join(f'<a href="/?{escape(urlencode({**kept, **more}))}">{name}</a>' for name, more in spans.items())
    return f'<p class="spans">{links}</p>'


# Pictures


def hours_part(ends: list, span: Span) -> str:
    """Draw the orders by hour and end."""
    counts: dict = {}
    for hour, _, end, count in ends:
        its = counts.setdefault(hour, {})
        its[end] = its.get(end, 0) + count
    return f"<h2>Orders by hour and end</h2>{hours_picture(counts, span)}"


def misses_part(database: Database, buses: list[Bus]) -> str:
    """Draw the misses by order of each bus, over the last orders: a bus that gets worse is seen before it fails."""
    found = {}
    for it in buses:
        rows = database.rows("select misses, ended from bench_orders where bus = ? and misses is not null"
                             " order by number desc limit ?", it.bus, LAST_ORDERS)
        if rows:
            found[it.bus] = [misses for misses, _ in reversed(rows)], rows[-1][1]
    if not found:
        return ""
    most = max(max(means_of(misses)) for misses, _ in found.values())
    few = [f"<div><h3>{escape(bus)}: {sum(misses) / len(misses):.1f} an order</h3>{misses_picture(bus, misses, most)}"
           f'<p class="soft">{len(misses)} orders since {moment(since)}</p></div>'
           for bus, (misses, since) in found.items()]
    return f'<h2>Frames that missed, by order (a full bar: {most:.1f})</h2><div class="few">{"".join(few)}</div>'


# The page


def page_of(database: Database, query: dict, look: Look) -> str:
    """Make the page that a request asks for."""
    span, buses, wanted = look.span(query), standing.buses(database), tables.searched(query)
    ends, live = ends_of(database, span), live_of(database)
    counts = bus_counts(buses, live, ends)
    above = [buses_part(buses, counts), counts_part(database, counts, span), spans_part(look, query)]
    if tables.is_search(query):
        above.append(tables.order_part(database, wanted["number"]) if "number" in wanted else "")
        below = tables.orders_part(database, wanted) if wanted else f'<p class="soft">{WRONG_SEARCH}</p>'
    else:
        waiting = sum(it["waiting"] for it in counts.values())
        above += [hours_part(ends, span), tables.not_done_part(database, span), tables.waiting_part(database, waiting),
                  misses_part(database, buses)]
        below = tables.orders_part(database, {})
    kept = {key: query[key] for key in (BACK, DAY) if key in query}
    head = f'<header><h1>{TITLE} {escape(look.name)}</h1><p id="moment">{moment(now())}</p></header>'
    return document(f'{head}<div id="above">{"".join(above)}</div>{tables.form_part(query, kept)}'
                    f'<div id="below">{below}</div>', look.name)


def document(body: str, name: str = "") -> str:
    """Put a document together."""
    title = f"{escape(name)} · {TITLE}" if name else TITLE
    return ('<!DOCTYPE html><html lang="en"><meta charset="utf-8"><meta name="viewport" content="width=device-width">'
            f'<title>{title}</title><link rel="stylesheet" href="/style.css">{HEAD}<body>'
            f'<p id="old" hidden></p>{body}</body></html>')
