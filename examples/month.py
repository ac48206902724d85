#!/usr/bin/env python3
"""Draws a month of an export as a picture (SVG): the bases sold each day, a colour for each kind of line.

    ./verifactu export shop.chain | python3 examples/month.py 01-2025 > month.svg

What counts is what `./verifactu statement` sums: each invoice by its last record that the agency didn't refuse, in the month of its
day. The picture's last line of text has the sums of that command.
"""
import json
import sys
from calendar import monthrange
from html import escape

from export import euros, rates, rounded

WIDTH, HEIGHT, LEFT, TOP, BOTTOM = 900, 420, 80, 50, 60
COLOURS = ["#4477aa", "#ee6677", "#228833", "#ccbb44", "#66ccee", "#aa3377", "#bbbbbb", "#000000"]


def held(entries):
    """Each invoice that is held, by its last accepted record."""
    records = [entry for entry in entries if entry["t"] in ("alta", "anulacion")]
    noted = [word for entry in entries if entry["t"] == "notes" for word, _ in entry["lines"]]
    last = {}
    for place, record in enumerate(records):
        if place >= len(noted) or noted[place] in ("correcto", "con-errores"):
            last[record["num"], record["day"]] = record
    return [record for record in last.values() if record["t"] == "alta"]


def sums(records):
    """The base of each day and kind of line, and the sums that `statement` prints."""
    days, count, base, tax, surcharge = {}, 0, 0, 0, 0
    for record in records:
        for word, amount in record["lines"]:
            day = int(record["day"][:2])
            days.setdefault(word, {}).setdefault(day, 0)
            days[word][day] += amount
            rate, extra = rates(word)
            count, base, tax, surcharge = count + 1, base + amount, tax + rounded(amount, rate), surcharge + rounded(amount, extra)
    return days, f"lines {count} base {euros(base)} tax {euros(tax)} surcharge {euros(surcharge)}"


def bars(days, last):
    """A rectangle for each day and kind, what was sold above the axis and what came back below it, and the axis' own marks."""
    above = [sum(max(0, kind.get(day, 0)) for kind in days.values()) for day in range(1, last + 1)]
    below = [sum(min(0, kind.get(day, 0)) for kind in days.values()) for day in range(1, last + 1)]
    high, low = max(above + [0]), min(below + [0])
    scale = (HEIGHT - TOP - BOTTOM) / max(1, high - low)
    axis = TOP + high * scale
    step = (WIDTH - LEFT - 20) / last
    shapes = []
    for day in range(1, last + 1):
        up, down = axis, axis
        for index, kind in enumerate(days.values()):
            size = kind.get(day, 0) * scale
            if size:
                top = up - size if size > 0 else down
                up, down = (top, down) if size > 0 else (up, down - size)
                shapes.append(f'<rect x="{LEFT + (day - 1) * step:.1f}" y="{top:.1f}" width="{step - 2:.1f}" height="{abs(size):.1f}" '
                              f'fill="{COLOURS[index % len(COLOURS)]}"/>')
        shapes.append(f'<text x="{LEFT + (day - 0.5) * step:.1f}" y="{HEIGHT - BOTTOM + 16}" text-anchor="middle">{day}</text>')
    for amount in sorted({low, 0, high}):
        y = axis - amount * scale
        if amount and abs(y - axis) < 14:
            continue
        shapes.append(f'<line x1="{LEFT}" y1="{y:.1f}" x2="{WIDTH - 20}" y2="{y:.1f}" stroke="#999"/>')
        shapes.append(f'<text x="{LEFT - 6}" y="{y + 4:.1f}" text-anchor="end">{euros(amount)}</text>')
    return shapes


def picture(issuer, month, days, text):
    last = monthrange(int(month[3:]), int(month[:2]))[1]
    shapes = [f'<text x="{LEFT}" y="20" font-size="16">{escape(issuer)}, {escape(month)}: bases in euros, a day each</text>']
    for index, word in enumerate(days):
        x = LEFT + 90 * index
        shapes.append(f'<rect x="{x}" y="28" width="10" height="10" fill="{COLOURS[index % len(COLOURS)]}"/>')
        shapes.append(f'<text x="{x + 14}" y="38">{escape(word)}</text>')
    shapes += bars(days, last)
    shapes.append(f'<text x="{LEFT}" y="{HEIGHT - 14}">statement {escape(month)} {text}</text>')
    return "\n".join([f'<svg xmlns="http://www.w3.org/2000/svg" width="{WIDTH}" height="{HEIGHT}" font-family="sans-serif" font-size="11">',
                      f'<rect width="{WIDTH}" height="{HEIGHT}" fill="white"/>', *shapes, "</svg>"])


def main():
    if len(sys.argv) != 2 or len(sys.argv[1]) != 7:
        sys.exit("usage: month.py MM-YYYY")
    month = sys.argv[1]
    entries = [json.loads(line) for line in sys.stdin.buffer]
    issuer = entries[0]["issuer"] if entries else "no issuer"
    days, text = sums([record for record in held(entries) if record["day"][3:] == month])
    print(picture(issuer, month, days, text))


if __name__ == "__main__":
    main()
