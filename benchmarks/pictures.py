"""Pictures of what was measured: docs/pictures/*.svg, which BENCHMARKS.md shows."""

import math

from measuring import REPOSITORY

COLOURS = ("#0072b2", "#d55e00", "#009e73", "#cc79a7", "#56b4e9")
# A picture's width and height, and the room at its left and below for the numbers.
WIDTH, HEIGHT, LEFT, BELOW = 640, 360, 70, 50


def ticks(most):
    """Give four to seven round numbers from 0 on, the last one the least that isn't below the most."""
    power = 10 ** math.floor(math.log10(most))
    steps = [power * part for part in (0.2, 0.25, 0.4, 0.5, 1, 2, 2.5, 4, 5)]
    found = [(math.ceil(most / step - 1e-9), step) for step in steps]
    count, step = min((it for it in found if 3 <= it[0] <= 6), key=lambda it: it[0] * it[1])
    return [it * step for it in range(count + 1)]


def drawn(title, across, up, lines):
    """Give a picture: lines by their names over two axes from 0 on, in colours that stand out on light and on dark."""
    ticks_x, ticks_y = (ticks(max(point[axis] for line in lines.values() for point in line)) for axis in (0, 1))
    right, height = WIDTH - LEFT - 20, HEIGHT - BELOW - 30

    def place(x, y):
        return f"{LEFT + x / ticks_x[-1] * right:.1f},{HEIGHT - BELOW - y / ticks_y[-1] * height:.1f}"

    parts = [
        f'<svg xmlns="http://www.w3.org/2000/svg" viewBox="0 0 {WIDTH} {HEIGHT}"',
        ' font-family="sans-serif" font-size="12">',
        "<style>text{fill:#222}.axis{stroke:#888;fill:none}@media (prefers-color-scheme:dark){text{fill:#ddd}}</style>",
        f'<text x="{LEFT}" y="18" font-size="14">{title}</text>',
        f'<polyline class="axis" points="{place(0, ticks_y[-1])} {place(0, 0)} {place(ticks_x[-1], 0)}"/>',
        f'<text x="{WIDTH - 20}" y="{HEIGHT - 10}" text-anchor="end">{across}</text>',
        f'<text x="{LEFT - 60}" y="18">{up}</text>',
    ]
    for value in ticks_x:
        x, y = place(value, 0).split(",")
        parts.append(f'<text x="{x}" y="{float(y) + 16}" text-anchor="middle">{value:g}</text>')
    for value in ticks_y:
        x, y = place(0, value).split(",")
        parts.append(f'<text x="{float(x) - 6}" y="{float(y) + 4}" text-anchor="end">{value:g}</text>')
    for number, (name, points) in enumerate(lines.items()):
        colour, y = COLOURS[number], 36 + 16 * number
        line = " ".join(place(*point) for point in points)
        parts.append(f'<polyline points="{line}" fill="none" stroke="{colour}" stroke-width="2"/>')
        parts.append(f'<line x1="{LEFT + 20}" y1="{y}" x2="{LEFT + 44}" y2="{y}" stroke="{colour}" stroke-width="3"/>')
        parts.append(f'<text x="{LEFT + 50}" y="{y + 4}">{name}</text>')
    return "\n".join([*parts, "</svg>", ""])


def save(name, title, across, up, lines):
    """Draw a picture, and save it under a name."""
    (REPOSITORY / "docs" / "pictures" / f"{name}.svg").write_text(drawn(title, across, up, lines), encoding="utf-8")
