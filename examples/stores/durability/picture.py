#!/usr/bin/env python3
"""Draws the table of table.py as an SVG: losses a year of one stripe against the mean time of a repair, on logarithmic axes.

Usage: picture.py < lost.csv > lost.svg

A line is the closed form of a code, and a mark what was simulated, with two standard errors up and down."""
import csv
import sys
from math import ceil, exp, floor, log, log10

sys.dont_write_bytecode = True
import closed_form

WIDTH, HEIGHT, LEFT, RIGHT, TOP, BOTTOM = 720, 480, 90, 150, 60, 60  # in pixels; the last four are the margins
POINTS = 40  # of each line
STYLE = """
text { font-family: 'DejaVu Sans', Verdana, Arial, sans-serif; font-size: 12px; fill: #000 }
.title { font-size: 16px; font-weight: bold } .middle { text-anchor: middle } .end { text-anchor: end }
.axis { stroke: #444 } .grid { stroke: #ddd }
.wide { stroke: #0072B2; fill: #0072B2 } .narrow { stroke: #D55E00; fill: #D55E00 }
.line { fill: none; stroke-width: 1.5 } .narrow.line { stroke-dasharray: 6 3 } .name { stroke: none }
"""


class Scale:
    """A logarithmic axis from `least` to `most`, drawn from one pixel to another."""

    def __init__(self, least, most, begin, end):
        self.least, self.begin = log(least), begin
        self.step = (end - begin) / (log(most) - log(least))

    def at(self, number):
        return self.begin + (log(number) - self.least) * self.step


def text(x, y, words, style=""):
    return f'<text x="{x:.1f}" y="{y:.1f}" class="{style}">{words}</text>'


def line(x, y, to_x, to_y, style):
    return f'<line x1="{x:.1f}" y1="{y:.1f}" x2="{to_x:.1f}" y2="{to_y:.1f}" class="{style}"/>'


def mark(code, x, y):
    """A disc for the wide code, a square for the narrow one."""
    if code == "wide":
        return f'<circle cx="{x:.1f}" cy="{y:.1f}" r="4" class="wide"/>'
    return f'<rect x="{x - 4:.1f}" y="{y - 4:.1f}" width="8" height="8" class="narrow"/>'


def axes(across, up, repairs, powers):
    yield line(LEFT, HEIGHT - BOTTOM, WIDTH - RIGHT, HEIGHT - BOTTOM, "axis")
    yield line(LEFT, TOP, LEFT, HEIGHT - BOTTOM, "axis")
    for repair in repairs:
        yield line(across.at(repair), HEIGHT - BOTTOM, across.at(repair), HEIGHT - BOTTOM + 5, "axis")
        yield text(across.at(repair), HEIGHT - BOTTOM + 20, f"{repair:g}", "middle")
    for power in powers:
        yield line(LEFT, up.at(10**power), WIDTH - RIGHT, up.at(10**power), "grid")
        yield text(LEFT - 8, up.at(10**power) + 4, f"{10**power:g}", "end")
    yield text((LEFT + WIDTH - RIGHT) / 2, HEIGHT - 15, "mean hours of a repair", "middle")
    yield text(LEFT - 70, TOP - 14, "losses a year of one stripe")


def drawn_code(code, rows, across, up):
    lifetime, first, last = rows[0]["lifetime"], rows[0]["repair"], rows[-1]["repair"]
    repairs = [round(first * exp(log(last / first) * at / (POINTS - 1)), 3) for at in range(POINTS)]
    chain = [(across.at(repair), up.at(closed_form.by_chain(code, lifetime, str(repair)))) for repair in repairs]
    yield f'<polyline points="{" ".join("%.1f,%.1f" % point for point in chain)}" class="{code} line"/>'
    for row in rows:
        x, spread = across.at(row["repair"]), 2 * row["error"]
        if row["lost"]:
            low, high = max(row["simulated"] - spread, row["simulated"] / 10), row["simulated"] + spread
            yield line(x, up.at(low), x, up.at(high), code) + mark(code, x, up.at(row["simulated"]))
    x, y = chain[-1]
    yield text(x + 10, y + 4, f"{code} code", f"{code} name")


def picture(rows):
    """The text of the SVG."""
    repairs = sorted({row["repair"] for row in rows})
    losses = [row[name] for row in rows for name in ("chain", "simulated") if row[name]]
    powers = range(floor(log10(min(losses))), ceil(log10(max(losses))) + 1)
    across = Scale(repairs[0], repairs[-1], LEFT + 20, WIDTH - RIGHT - 20)
    up = Scale(10.0 ** powers[0], 10.0 ** powers[-1], HEIGHT - BOTTOM, TOP)
    title = f"Stripes lost: nodes live {rows[0]['lifetime']:g} hours; lines: closed form, marks: simulated"
    parts = [text(LEFT - 70, 28, title, "title"), *axes(across, up, repairs, powers)]
    for code in closed_form.SIZES:
        if of_code := sorted((row for row in rows if row["code"] == code), key=lambda row: row["repair"]):
            parts += drawn_code(code, of_code, across, up)
    head = f'<svg xmlns="http://www.w3.org/2000/svg" width="{WIDTH}" height="{HEIGHT}" viewBox="0 0 {WIDTH} {HEIGHT}">'
    ground = f'<rect width="{WIDTH}" height="{HEIGHT}" fill="#fff"/>'
    return "\n".join([head, f"<style>{STYLE}</style>", ground, *parts, "</svg>", ""])


def main():
    rows = csv.DictReader(sys.stdin)
    sys.stdout.write(picture([{name: cell if name == "code" else float(cell) for name, cell in row.items()} for row in rows]))


if __name__ == "__main__":
    main()
