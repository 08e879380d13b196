"""Puts measured tables into docs/BENCHMARKS.md and draws them as docs/benchmarks.svg.

Called as: figures.py FILE DOCS. FILE has lines about the machine and then tables, each under a `###` heading. Of the
document only what stands between its two marks is replaced.
"""

import pathlib
import re
import sys

BEGIN, END = "<!-- figures: begin -->", "<!-- figures: end -->"
ORDERS = {"1": "#0b6e4f", "2": "#d1495b", "4": "#30638e", "8": "#8a5a00"}
MARKS = {"1": "circle", "2": "square", "4": "diamond", "8": "triangle"}

# Panels: heading of the table, column of the ratio, title, and limits as (first N, last N, ratio).
PANELS = [
    ("System by halving", "call/N1", "System by halving / naive, conditional subtraction", []),
    ("System by halving", "call/N2", "System by halving / naive, same sums", []),
    ("Basis with its inverse", "solve/naive", "Basis / naive, same sums", [(1024, 4096, 1.4)]),
    ("Basis with its inverse", "solve/FLINT", "Basis / Newton over FLINT", [(64, 1024, 0.5), (4096, 4096, 1.0)]),
    ("Equation", "halving/naive", "Equation by halving / naive, same sums", []),
    ("System, both methods", "Newton/halving", "System by Newton / by halving", []),
]


def tables(text):
    """Heading to a list of rows, each a dictionary by column."""
    found = {}
    for part in re.split(r"^### ", text, flags=re.M)[1:]:
        heading, _, rest = part.partition("\n")
        lines = [line.strip("| \n").split(" | ") for line in rest.splitlines() if line.startswith("| ")]
        found[heading.strip()] = [dict(zip(lines[0], line)) for line in lines[1:]]
    return found


def nice_top(value):
    """A round number at or above the value, and the step of the grid."""
    for top, step in [(0.25, 0.05), (0.5, 0.1), (1, 0.2), (1.5, 0.5), (2, 0.5), (3, 1), (5, 1), (10, 2), (25, 5)]:
        if value <= top:
            return top, step
    return 50, 10


def mark(shape, x, y, color):
    if shape == "circle":
        return f'<circle cx="{x:.1f}" cy="{y:.1f}" r="3.6" fill="{color}"/>'
    around = {
        "square": [(-3.3, -3.3), (3.3, -3.3), (3.3, 3.3), (-3.3, 3.3)],
        "diamond": [(0, -4.6), (4.6, 0), (0, 4.6), (-4.6, 0)],
        "triangle": [(0, -4.4), (4.2, 3.4), (-4.2, 3.4)],
    }[shape]
    points = " ".join(f"{x + dx:.1f},{y + dy:.1f}" for dx, dy in around)
    return f'<polygon points="{points}" fill="{color}"/>'


def panel(rows, column, title, limits, left, top, width, height):
    """One panel: N across in doublings, the ratio upwards from 0, a line for each order."""
    values = [float(row[column]) for row in rows] + [limit for _, _, limit in limits]
    most, step = nice_top(max(values))
    terms = sorted({int(row["N"]) for row in rows})
    doublings = {n: n.bit_length() - 1 for n in terms}
    low, high = doublings[terms[0]], doublings[terms[-1]]

    def across(n):
        return left + 14 + (width - 28) * (doublings[n] - low) / (high - low)

    def up(ratio):
        return top + height - height * ratio / most

    out = [f'<text x="{left}" y="{top - 12}" class="title">{title}</text>']
    for k in range(int(round(most / step)) + 1):
        y = up(k * step)
        out.append(f'<line x1="{left}" y1="{y:.1f}" x2="{left + width}" y2="{y:.1f}" class="grid"/>')
        out.append(f'<text x="{left - 6}" y="{y + 4:.1f}" class="tick" text-anchor="end">{k * step:g}</text>')
    if most > 1:
        out.append(f'<line x1="{left}" y1="{up(1):.1f}" x2="{left + width}" y2="{up(1):.1f}" class="one"/>')
    for n in terms:
        out.append(f'<text x="{across(n):.1f}" y="{top + height + 16}" class="tick" text-anchor="middle">{n}</text>')
    out.append(f'<text x="{left + width + 6}" y="{top + height + 16}" class="tick">N</text>')
    for first, last, limit in limits:
        start, stop = across(first) - 12, across(last) + 12
        out.append(f'<line x1="{start:.1f}" y1="{up(limit):.1f}" x2="{stop:.1f}" y2="{up(limit):.1f}" class="limit"/>')
    for order, color in ORDERS.items():
        points = [(across(int(row["N"])), up(float(row[column]))) for row in rows if row["r"] == order]
        path = " ".join(f"{x:.1f},{y:.1f}" for x, y in points)
        out.append(f'<polyline points="{path}" fill="none" stroke="{color}" stroke-width="1.8"/>')
        out += [mark(MARKS[order], x, y, color) for x, y in points]
    return out


def picture(found):
    panels = [(found[name], *rest) for name, *rest in PANELS if name in found and rest[0] in found[name][0]]
    width, height, wide, tall = 330, 190, 410, 262
    lines = (len(panels) + 1) // 2
    whole = (2 * wide + 20, 70 + lines * tall)
    out = [
        f'<svg xmlns="http://www.w3.org/2000/svg" width="{whole[0]}" height="{whole[1]}" '
        f'viewBox="0 0 {whole[0]} {whole[1]}" font-family="Helvetica, Arial, sans-serif">',
        "<style>.title{font-size:13px;font-weight:bold;fill:#222}.tick{font-size:11px;fill:#555}"
        ".grid{stroke:#e4e4e4}.one{stroke:#777;stroke-dasharray:5 3}.limit{stroke:#111;stroke-width:2.4}"
        ".note{font-size:12px;fill:#333}</style>",
        f'<rect width="{whole[0]}" height="{whole[1]}" fill="white"/>',
        '<text x="20" y="24" class="note">Ratios of times over the number of terms N, p = 2147483647; '
        "below the dashed line at 1 the first one is quicker.</text>",
    ]
    x = 20
    for order, color in ORDERS.items():
        out.append(mark(MARKS[order], x + 5, 42, color))
        out.append(f'<text x="{x + 14}" y="46" class="note">r = {order}</text>')
        x += 70
    out.append(f'<line x1="{x}" y1="42" x2="{x + 24}" y2="42" class="limit"/>')
    out.append(f'<text x="{x + 30}" y="46" class="note">at most this is wanted</text>')
    for place, (rows, column, title, limits) in enumerate(panels):
        left, top = 52 + place % 2 * wide, 88 + place // 2 * tall
        out += panel(rows, column, title, limits, left, top, width, height)
    return "\n".join(out + ["</svg>", ""])


def main():
    source, docs = pathlib.Path(sys.argv[1]), pathlib.Path(sys.argv[2])
    text = source.read_text()
    (docs / "benchmarks.svg").write_text(picture(tables(text)))
    page = docs / "BENCHMARKS.md"
    before, _, rest = page.read_text().partition(BEGIN)
    _, _, behind = rest.partition(END)
    page.write_text(f"{before}{BEGIN}\n\n{text.strip()}\n\n{END}{behind}")


main()
