"""The pictures of the page, as SVG without scripts. Each end of an order has a colour and a pattern of its own."""

from __future__ import annotations

from html import escape

from .spans import HOUR, Span, clock

# The ends of an order, in the order of their codes and of a picture's stacks, each with its class.
ENDS = {"Done": "done", "Short": "short", "Format": "format", "Silent": "silent", "Doubt": "doubt",
        "DoubtOpen": "open", "refused": "refused", "reused": "reused"}
# Lines over the colour of an end that isn't done, on a square of eight: who sees no colours tells them by these.
PATTERNS = {"short": "M0 2H8M0 6H8", "format": "M2 0V8M6 0V8", "silent": "M0 8L8 0", "doubt": "M0 0L8 8",
            "open": "M0 0L8 8M0 8L8 0", "refused": "M0 4H8", "reused": "M4 0V8"}
WIDTH, HEIGHT, LEFT, RIGHT, TOP, BOTTOM = 720, 200, 40, 8, 18, 24
# Of a bus this many of the last orders are shown, a bar for some of them.
LAST_ORDERS, BARS = 300, 60
SPARK_WIDTH, SPARK_HEIGHT = 300, 56


def top_of(most: float) -> int:
    """Give a round number that isn't below this one, for the top of an axis."""
    size = 1
    while True:
        for step in (1, 2, 3, 4, 6, 8):
            if step * size >= most:
                return step * size
        size *= 10


def patterns() -> str:
    """Give the patterns by the names of the ends' classes."""
    return "<defs>" + "".join(
        f'<pattern id="of-{kind}" width="8" height="8" patternUnits="userSpaceOnUse"><rect class="{kind}" width="8"'
        f' height="8"/><path class="over" d="{lines}"/></pattern>' for kind, lines in PATTERNS.items()) + "</defs>"


def filled(end: str) -> str:
    """Give the attribute that fills a shape as an end has it."""
    kind = ENDS[end]
    return f'fill="url(#of-{kind})"' if kind in PATTERNS else f'class="{kind}"'


def hours_picture(counts: dict, span: Span) -> str:
    """Draw the orders by hour of a span and end, with the number of those that aren't done above their bar."""
    top = top_of(max([sum(found.values()) for found in counts.values()], default=1))
    wide, high = (WIDTH - LEFT - RIGHT) / span.hours(), HEIGHT - TOP - BOTTOM
    parts = [patterns(), *(axis(high * (1 - share) + TOP, f"{top * share:g}") for share in (0, 0.5, 1)
                           if top * share % 1 == 0)]
    each = -(-span.hours() // 8)
    for at in range(span.hours()):
        parts += bar(counts.get(at, {}), clock(span.start + at * HOUR), LEFT + at * wide, wide, high / top)
        if at % each == 0:
            parts.append(f'<text x="{LEFT + at * wide:.1f}" y="{HEIGHT - 8}">{clock(span.start + at * HOUR)}</text>')
    totals: dict = {}
    for found in counts.values():
        for end, count in found.items():
            totals[end] = totals.get(end, 0) + count
    return svg(WIDTH, HEIGHT, "Orders by hour and end", parts) + legend(totals)


def bar(found: dict, hour: str, left: float, wide: float, scale: float) -> list[str]:
    """Draw the orders of an hour, each end on top of the one before."""
    parts, below = [], float(HEIGHT - BOTTOM)
    for end, count in sorted(found.items(), key=lambda it: list(ENDS).index(it[0])):
        below -= scale * count
        parts.append(f'<rect {filled(end)} x="{left + 1:.1f}" y="{below:.1f}" width="{wide - 2:.1f}"'
                     f' height="{scale * count:.1f}"><title>{hour} {escape(end)}: {count}</title></rect>')
    not_done = sum(found.values()) - found.get("Done", 0)
    if not_done:
        parts.append(f'<text class="count" x="{left + wide / 2:.1f}" y="{below - 4:.1f}" text-anchor="middle">'
                     f"!{not_done}</text>")
    return parts


def axis(y: float, text: str) -> str:
    """Draw a line across a picture, with its number at the left."""
    return (f'<line class="grid" x1="{LEFT}" x2="{WIDTH - RIGHT}" y1="{y:.1f}" y2="{y:.1f}"/>'
            f'<text x="{LEFT - 6}" y="{y + 4:.1f}" text-anchor="end">{text}</text>')


def legend(totals: dict) -> str:
    """Name the ends that a picture has as they are drawn, with how many orders came to each."""
    items = [f'<li><svg width="14" height="14" aria-hidden="true"><rect {filled(end)} width="14" height="14"/></svg>'
             f" {escape(end)} {totals[end]}</li>" for end in ENDS if end in totals]
    return f'<ul class="legend">{"".join(items)}<li>!N: N not done in that hour</li></ul>' if items else ""


def means_of(misses: list[int]) -> list[float]:
    """Give the mean misses of an order, of some orders in a row each, so that there are at most BARS."""
    size = -(-len(misses) // BARS)
    return [sum(part) / len(part) for part in (misses[at:at + size] for at in range(0, len(misses), size))]


def misses_picture(bus: str, misses: list[int], most: float) -> str:
    """Draw how many frames of an order missed, the oldest order first: a bar is the mean of some orders in a row."""
    means = means_of(misses)
    wide = SPARK_WIDTH / BARS
    parts = [f'<line class="grid" x1="0" x2="{SPARK_WIDTH}" y1="{SPARK_HEIGHT - 0.5}" y2="{SPARK_HEIGHT - 0.5}"/>']
    for at, mean in enumerate(means, BARS - len(means)):
        if mean:
            tall = (SPARK_HEIGHT - 2) * mean / most
            parts.append(f'<rect class="misses" x="{at * wide + 0.5:.1f}" y="{SPARK_HEIGHT - 1 - tall:.1f}"'
                         f' width="{wide - 1:.1f}" height="{tall:.1f}"><title>{mean:.1f} an order</title></rect>')
    return svg(SPARK_WIDTH, SPARK_HEIGHT, f"Misses by order, bus {bus}", parts)


def svg(width: int, height: int, name: str, parts: list[str]) -> str:
    """Put the parts of a picture together."""
    return (f'<svg viewBox="0 0 {width} {height}" role="img" aria-label="{escape(name)}">'
            f'<title>{escape(name)}</title>{"".join(parts)}</svg>')
