#!/usr/bin/env python3
"""Draws how the proved calls stand beside tuned C, a bar a row of the speed programs, as an SVG.

usage: for call in judge admit apply; do bench/run.sh speed_$call --csv; done | bench/speed/plot.py Time >docs/speed.svg
   or: bench/instructions.sh csv judge admit apply | bench/speed/plot.py Instructions >docs/speed.svg
A line that is read: "CALL","ROW",proved,plain,tuned in the unit that is named. Wants nothing beyond Python's library.
"""
import csv
import math
import sys
from xml.sax.saxutils import escape

COLOURS = {"Judge": "#2b6cb0", "Admit": "#b7791f", "Apply": "#2f855a"}
LABELS, PLOT, RIGHT, BAR, GAP, TOP, BOTTOM = 380, 620, 90, 16, 5, 96, 40
HEAD = 26  # above the rows of a call


def rows_of(lines):
    """The rows in their order: call, name, proved over tuned. One that takes nothing to speak of, such as a file that is too long, is left out."""
    rows = []
    for call, name, proved, _, tuned in csv.reader(lines):
        rows.append((call, name, float(proved), float(tuned)))
    most = max((proved for _, _, proved, _ in rows), default=0)
    return [(call, name, proved / tuned) for call, name, proved, tuned in rows if proved > most / 1000 and tuned > 0]


class Scale:
    """Ratios on a logarithmic scale from `low` to `high`."""

    def __init__(self, ratios):
        self.low = min(0.5, min(ratios) * 0.9)
        self.high = max(2.5, max(ratios) * 1.1)

    def at(self, ratio):
        return LABELS + PLOT * math.log(ratio / self.low) / math.log(self.high / self.low)


def text(x, y, words, anchor="start", more=""):
    return f'<text x="{x:.1f}" y="{y:.1f}" text-anchor="{anchor}" {more}>{escape(words)}</text>'


def legend():
    parts, x = [], LABELS
    for call, colour in COLOURS.items():
        parts.append(f'<rect x="{x}" y="48" width="14" height="14" fill="{colour}"/>')
        parts.append(text(x + 20, 60, call))
        x += 90
    return parts


def grid(scale, bottom):
    parts = []
    for ratio in (0.5, 0.7, 1.0, 1.3, 2.0, 3.0, 5.0, 7.0, 10.0, 20.0, 50.0):
        if not scale.low <= ratio <= scale.high:
            continue
        named = ratio in (1.0, 1.3, 2.0)
        look = 'stroke="#c53030" stroke-width="1.4"' if named else 'stroke="#d5d9e0" stroke-width="1"'
        parts.append(f'<line x1="{scale.at(ratio):.1f}" y1="{TOP - 8}" x2="{scale.at(ratio):.1f}" y2="{bottom}" {look}/>')
        parts.append(text(scale.at(ratio), TOP - 14, f"{ratio:g}", "middle", 'fill="#c53030" font-weight="bold"' if named else 'fill="#606873"'))
    return parts


def bars(rows, scale):
    parts, y, last = [], TOP, None
    zero = scale.at(scale.low)
    for call, name, ratio in rows:
        if call != last:
            parts.append(text(12, y + HEAD - 9, call, "start", 'font-weight="bold"'))
            y, last = y + HEAD, call
        parts.append(f'<rect x="{zero:.1f}" y="{y}" width="{max(scale.at(ratio) - zero, 1):.1f}" height="{BAR}" fill="{COLOURS[call]}"/>')
        parts.append(text(LABELS - 8, y + BAR - 4, name, "end"))
        parts.append(text(scale.at(ratio) + 6, y + BAR - 4, f"{ratio:.2f}"))
        y += BAR + GAP
    return parts, y


def draw(rows, unit):
    scale = Scale([ratio for _, _, ratio in rows])
    drawn, bottom = bars(rows, scale)
    width, height = LABELS + PLOT + RIGHT, bottom + BOTTOM
    parts = [f'<svg xmlns="http://www.w3.org/2000/svg" width="{width}" height="{height}" viewBox="0 0 {width} {height}" '
             'font-family="Helvetica, Arial, sans-serif" font-size="12" fill="#1f2630">',
             f'<rect width="{width}" height="{height}" fill="#ffffff"/>',
             text(12, 28, f"{unit}: the proved loader over tuned C, on a logarithmic scale; shorter is better", more='font-size="16" font-weight="bold"')]
    parts += legend() + grid(scale, bottom) + drawn
    parts.append(text(12, height - 14, "A bar is one row of the speed programs. Red lines: 1.0, as good as tuned C; 1.3; 2.0.", more='fill="#606873"'))
    return "\n".join(parts + ["</svg>", ""])


def main():
    rows = rows_of(sys.stdin)
    if not rows:
        sys.exit("plot.py: no rows")
    sys.stdout.write(draw(rows, sys.argv[1] if len(sys.argv) > 1 else "Time"))


if __name__ == "__main__":
    main()
