#!/usr/bin/env python3
"""Draws the lines of bench/curves.c, from standard input, as an SVG picture on standard output."""
import sys

WIDTH, HEIGHT, LEFT, TOP, PLOT_W, PLOT_H, GAP = 960, 400, 70, 50, 370, 280, 110
SIDES = [("portable C, gcc -O3", "#c0392b"), ("Rattle", "#1f5fa8")]
TITLES = {
    "leaves": ("commit, rows of 1,680 bits", "leaves", 11264),
    "bits": ("commit, 11 vectors of 128 entries", "row length in bits", 16384),
}


def step(top):
    """A round step that gives four to eight marks up to the top."""
    size = 1
    while True:
        for factor in (1, 2, 5):
            if top / (size * factor) <= 8:
                return size * factor
        size *= 10


def panel(left, points, title, name, x_step):
    right, bottom = left + PLOT_W, TOP + PLOT_H
    x_top = max(p[0] for p in points)
    y_step = step(max(p[1] for p in points))
    y_top = y_step * -(-max(p[1] for p in points) // y_step)

    def at(x, y):
        return f"{left + PLOT_W * x / x_top:.1f},{bottom - PLOT_H * y / y_top:.1f}"

    out = [f'<text x="{left}" y="{TOP - 16}" font-weight="bold">{title}</text>']
    for y in range(0, int(y_top) + 1, y_step):
        h = bottom - PLOT_H * y / y_top
        out.append(f'<path d="M{left} {h:.1f}H{right}" stroke="#ddd"/>')
        out.append(f'<text x="{left - 8}" y="{h + 4:.1f}" text-anchor="end">{y:,}</text>')
    for x in range(0, x_top + 1, x_step):
        w = left + PLOT_W * x / x_top
        out.append(f'<path d="M{w:.1f} {bottom}v5" stroke="#333"/>')
        out.append(f'<text x="{w:.1f}" y="{bottom + 19}" text-anchor="middle">{x:,}</text>')
    out.append(f'<path d="M{left} {TOP}V{bottom}H{right}" fill="none" stroke="#333"/>')
    out.append(f'<text x="{(left + right) / 2}" y="{bottom + 40}" text-anchor="middle">{name}</text>')
    out.append(f'<text x="{left - 52}" y="{(TOP + bottom) / 2}" text-anchor="middle" transform="rotate(-90 {left - 52} {(TOP + bottom) / 2})">milliseconds</text>')
    for side, (label, colour) in enumerate(SIDES):
        line = [at(p[0], p[1 + side]) for p in points]
        out.append(f'<polyline points="{" ".join(line)}" fill="none" stroke="{colour}" stroke-width="2"/>')
        for place in line:
            x, y = place.split(",")
            out.append(f'<circle cx="{x}" cy="{y}" r="3" fill="{colour}"/>')
        out.append(f'<path d="M{left + 14} {TOP + 14 + 20 * side}h22" stroke="{colour}" stroke-width="2"/>')
        out.append(f'<text x="{left + 42}" y="{TOP + 18 + 20 * side}">{label}</text>')
    return out


curves = {name: [] for name in TITLES}
for text in sys.stdin:
    name, x, *times = text.split()
    curves[name].append((int(x), *map(float, times)))
print(f'<svg xmlns="http://www.w3.org/2000/svg" width="{WIDTH}" height="{HEIGHT}" viewBox="0 0 {WIDTH} {HEIGHT}" font-family="sans-serif" font-size="13">')
print(f'<rect width="{WIDTH}" height="{HEIGHT}" fill="white"/>')
for number, (name, (title, axis, x_step)) in enumerate(TITLES.items()):
    print("\n".join(panel(LEFT + number * (PLOT_W + GAP), sorted(curves[name]), title, axis, x_step)))
print("</svg>")
