#!/usr/bin/env python3
"""plot.py TSV.. OUT.svg: draws user+sys seconds against the number of pairs, one point a system and program, from the
tables that `compare.py --tsv FILE` wrote. Both axes are logarithmic.
"""
import math
import sys

WIDTH, HEIGHT, LEFT, BOTTOM = 760, 520, 70, 50
SERIES = [("product s", "Dullanpi", "#c0392b", "circle"), ("4ti2 s", "4ti2", "#2e6da4", "square"),
          ("nmz", "Normaliz (the faster algorithm)", "#3a7d44", "triangle")]


def number(word):
    try:
        return float(word.replace("over ", ""))
    except ValueError:
        return None


def read(path):
    rows = []
    with open(path, encoding="utf-8") as table:
        lines = [line.rstrip("\n").split("\t") for line in table]
    head = lines[0]
    for cells in lines[1:]:
        row = dict(zip(head, cells))
        pairs = number(row.get("pairs", ""))
        times = [number(row.get(key, "")) for key in ("nmz dual s", "nmz default s")]
        times = [time for time in times if time is not None]
        row["nmz"] = min(times) if times else None
        for key in ("product s", "4ti2 s"):
            row[key] = number(row.get(key, ""))
        if pairs:
            rows.append((pairs, row))
    return rows


def mark(kind, x, y, colour):
    if kind == "circle":
        return f'<circle cx="{x:.1f}" cy="{y:.1f}" r="4" fill="{colour}"/>'
    if kind == "square":
        return f'<rect x="{x - 3.5:.1f}" y="{y - 3.5:.1f}" width="7" height="7" fill="none" stroke="{colour}" stroke-width="1.6"/>'
    return f'<path d="M{x:.1f} {y - 4.5:.1f} L{x + 4:.1f} {y + 3.5:.1f} L{x - 4:.1f} {y + 3.5:.1f} Z" fill="none" stroke="{colour}" stroke-width="1.6"/>'


def main():
    rows = [row for path in sys.argv[1:-1] for row in read(path)]
    low = math.floor(math.log10(min(pairs for pairs, _ in rows)))
    high = math.ceil(math.log10(max(pairs for pairs, _ in rows)))
    least, most = -3, 3
    at_x = lambda pairs: LEFT + (math.log10(pairs) - low) / (high - low) * (WIDTH - LEFT - 20)
    at_y = lambda time: HEIGHT - BOTTOM - (math.log10(max(time, 0.001)) - least) / (most - least) * (HEIGHT - BOTTOM - 50)
    out = [f'<svg xmlns="http://www.w3.org/2000/svg" width="{WIDTH}" height="{HEIGHT}" font-family="sans-serif" font-size="12">',
           f'<rect width="{WIDTH}" height="{HEIGHT}" fill="#ffffff"/>']
    for power in range(low, high + 1):
        x = at_x(10.0 ** power)
        out.append(f'<line x1="{x:.1f}" y1="50" x2="{x:.1f}" y2="{HEIGHT - BOTTOM}" stroke="#e4e4e4"/>')
        out.append(f'<text x="{x:.1f}" y="{HEIGHT - BOTTOM + 18}" text-anchor="middle">10^{power}</text>')
    for power in range(least, most + 1):
        y = at_y(10.0 ** power)
        out.append(f'<line x1="{LEFT}" y1="{y:.1f}" x2="{WIDTH - 20}" y2="{y:.1f}" stroke="#e4e4e4"/>')
        out.append(f'<text x="{LEFT - 8}" y="{y + 4:.1f}" text-anchor="end">{10.0 ** power:g} s</text>')
    out.append(f'<text x="{(LEFT + WIDTH) / 2:.0f}" y="{HEIGHT - 10}" text-anchor="middle">pairs of the system</text>')
    for at, (key, name, colour, kind) in enumerate(SERIES):
        out.append(mark(kind, LEFT + 10 + 150 * at, 26, colour))
        out.append(f'<text x="{LEFT + 20 + 150 * at}" y="30">{name}</text>')
        for pairs, row in rows:
            if row[key] is not None:
                out.append(mark(kind, at_x(pairs), at_y(row[key]), colour))
    out.append("</svg>")
    with open(sys.argv[-1], "w", encoding="utf-8") as picture:
        picture.write("\n".join(out) + "\n")


main()
