#!/usr/bin/env python3
"""Draws what the benchmarks printed, as bars: each ratio beside its peer, which is the line at 1, with the bound that is wanted.

Usage: bench/bars.py OUTPUT.. >docs/speed.svg, where each file has what one script printed. A line that is drawn has a name, a ratio, a
bound and a verdict, as `64 clients against one   1.16, at least 0.95: within`. A ratio that should be small is drawn in another color.
"""
import re
import sys
from html import escape

LINE = re.compile(r"^(.*?)\s+(-?[\d.]+), (at least|at most) ([\d.]+): (within|BEYOND)$")
COLORS = {"at least": "#7fb2dd", "at most": "#e8b96a"}
MOST = 3.0
LEFT, WIDTH = 470, 420


def ratios(files):
    """The ratios that the files have: name, value, whether it should be small, bound. Counts, bytes and rates are none."""
    for file in files:
        for line in open(file, encoding="utf-8"):
            found = LINE.match(line.rstrip())
            if found and float(found[2]) <= 10 and not re.search(", in |memory|flushes", found[1]):
                yield found[1], float(found[2]), found[3], float(found[4]), found[5]


def place(value):
    return LEFT + WIDTH * min(max(value, 0), MOST) / MOST


def main():
    rows = list(ratios(sys.argv[1:]))
    height = 64 + 26 * len(rows)
    print(f'<svg xmlns="http://www.w3.org/2000/svg" width="980" height="{height}" viewBox="0 0 980 {height}" '
          'font-family="DejaVu Sans, Verdana, Arial, sans-serif" font-size="13">')
    print("<title>Each workload beside its peer: the line at 1 is the peer</title>")
    print(f'<rect width="980" height="{height}" fill="#ffffff"/>')
    for how, x, text in (("at least", 20, "more is better"), ("at most", 170, "less is better")):
        print(f'<rect x="{x}" y="12" width="16" height="16" fill="{COLORS[how]}"/><text x="{x + 24}" y="25">{text}</text>')
    print(f'<text x="320" y="25">| what is wanted; bars end at {MOST:.0f}</text>')
    for at, (name, value, how, bound, verdict) in enumerate(rows):
        y = 48 + 26 * at
        color = "#d9534f" if verdict == "BEYOND" else COLORS[how]
        print(f'<text x="{LEFT - 10}" y="{y + 13}" text-anchor="end">{escape(name)}</text>')
        print(f'<rect x="{LEFT}" y="{y}" width="{place(value) - LEFT:.1f}" height="18" fill="{color}"/>')
        print(f'<line x1="{place(bound):.1f}" x2="{place(bound):.1f}" y1="{y - 2}" y2="{y + 20}" stroke="#333" stroke-width="2"/>')
        print(f'<text x="{LEFT + WIDTH + 12}" y="{y + 13}">{value:.2f}</text>')
    print(f'<line x1="{place(1)}" x2="{place(1)}" y1="40" y2="{height - 12}" stroke="#777" stroke-dasharray="4 3"/>')
    print("</svg>")


if __name__ == "__main__":
    main()
