#!/usr/bin/env python3
"""The number of facets along the flips of a certificate, as text and as a picture.

    tools/plot.py [--svg FILE] [CERTIFICATES]

Reads certificates, or a transcript that has some, from a file or standard input, and draws each as text. --svg writes the first
as a picture, with a tick for each flip, coloured by its class, the number of labels that come less one. The second flips of an
`equivalent` go on from the first; the blocks of a `manifold` follow one another.

Status 0: something was drawn; 1: there was no certificate; 2: wrong words.
"""
import argparse
import json
import os
import sys

sys.path.insert(0, os.path.dirname(os.path.abspath(__file__)))
from check_certificates import named_parts  # noqa: E402

COLOURS = ["#7f7f7f", "#1f77b4", "#2ca02c", "#ff7f0e", "#d62728", "#9467bd", "#8c564b", "#e377c2", "#bcbd22", "#17becf", "#000000", "#aaaaaa"]


def walks(part):
    """The numbers of facets of each walk of a certificate, with the classes of its flips."""
    start, found = json.loads(part[1].split(" ", 1)[1]), []
    if not part[0].endswith("manifold\n"):
        found.append(([len(start)], []))
    for line in part[2:]:
        word, _, rest = line.strip().partition(" ")
        if word == "link":
            found.append(([sum(int(rest) in facet for facet in start)], []))
        elif word == "flip":
            a, b = (it.count(",") + 1 for it in rest.split())
            found[-1][0].append(found[-1][0][-1] + a - b)
            found[-1][1].append(b - 1)
    return found


def drawn(title, counts, width=64, height=12):
    """The numbers as bars of #, at most so wide and high."""
    count = min(width, len(counts))
    columns = [max(counts[k * len(counts) // count:max((k + 1) * len(counts) // count, k * len(counts) // count + 1)]) for k in range(count)]
    top, least = max(counts), min(counts)
    height = min(height, top - least)
    step = (top - least) / height if height else 1
    lines = [title]
    for row in range(height, -1, -1):
        level = least + row * step
        lines.append(f"{round(level):>8} |" + "".join("#" if it >= level - 1e-6 else " " for it in columns).rstrip())
    return "\n".join(lines)


def picture(title, found):
    """The same as an SVG: a line for each walk, and a dot for each flip."""
    wide, high, left, low = 720, 300, 60, 40
    counts = [n for walk, _ in found for n in walk]
    classes = [it for _, own in found for it in own]
    top, least = max(counts), min(counts)
    across = (wide - left - 20) / max(len(counts) - 1, 1)
    up = (high - low - 40) / max(top - least, 1)
    out = [f'<svg xmlns="http://www.w3.org/2000/svg" width="{wide}" height="{high}" font-family="sans-serif" font-size="12">',
           f'<rect width="{wide}" height="{high}" fill="white"/>',
           f'<text x="{left}" y="20">{title}</text>',
           f'<text x="{left - 8}" y="{high - low - (top - least) * up + 4:.1f}" text-anchor="end">{top}</text>',
           f'<text x="{left - 8}" y="{high - low + 4}" text-anchor="end">{least}</text>']
    place = 0
    for walk, own in found:
        at = [(left + (place + k) * across, high - low - (n - least) * up) for k, n in enumerate(walk)]
        place += len(walk)
        points = " ".join(f"{x:.1f},{y:.1f}" for x, y in at)
        out.append(f'<polyline fill="none" stroke="#888888" stroke-width="1" points="{points}"/>')
        out += [f'<circle cx="{x:.1f}" cy="{y:.1f}" r="2" fill="{COLOURS[kind]}"/>' for (x, y), kind in zip(at[1:], own)]
    for column, kind in enumerate(sorted(set(classes))):
        x = left + column * 110
        out.append(f'<circle cx="{x + 5}" cy="{high - 12}" r="4" fill="{COLOURS[kind]}"/>')
        out.append(f'<text x="{x + 14}" y="{high - 8}">class {kind}: {classes.count(kind)}</text>')
    return "\n".join(out + ["</svg>"]) + "\n"


def main():
    words = argparse.ArgumentParser(usage="plot.py [--svg FILE] [CERTIFICATES]")
    words.add_argument("--svg")
    words.add_argument("file", nargs="?", default="-")
    parser, words = words, words.parse_args()
    try:
        source = sys.stdin.buffer if words.file == "-" else open(words.file, "rb")
        parts = [part for _, _, part in named_parts(line.decode("latin-1") for line in source) if part[-1] == "end\n"]
    except OSError as fault:
        parser.error(str(fault))
    shown = 0
    for part in parts:
        kind = part[0].split()[2]
        found = walks(part)
        counts = [n for walk, _ in found for n in walk]
        classes = [it for _, classes in found for it in classes]
        title = f"{kind}: {len(classes)} flips, facets {found[0][0][0]} -> {found[-1][0][-1]}, most {max(counts)}"
        if kind == "manifold":
            title = f"manifold: {len(classes)} flips on {len(found)} links, facets of a link at most {max(counts)}"
        print(drawn(title, counts))
        if words.svg and not shown:
            with open(words.svg, "w", encoding="utf-8") as file:
                file.write(picture(title, found))
        shown += 1
    return 0 if shown else 1


if __name__ == "__main__":
    sys.exit(main())
