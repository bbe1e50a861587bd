#!/usr/bin/env python3
"""Damages transcripts. `damage.py SEED NUMBER <TRANSCRIPT` writes the damaged transcript of that seed and number."""
import random
import re
import sys

from model import text

LIST = rb"\[[0-9,]*\]"
NUMBERS = [b"", b"0", b"1", b"2", b"3", b"7", b"9", b"01", b"+1", b"1 ", b"1000000", b"1000001", b"9999999"]
BYTES = [b"", b"\x00", b"\t", b"\n", b"\r", b" ", b"  ", b",", b"0", b"1", b"9", b"[", b"]", b"\xff"]
FACETS = [b",[]", b",[9]", b",[8,9]", b",[1,900]", b",[7,8,9]", b",[900,901,902]", b",[7,8,9,10]"]
HEADS = [
    b"certificate 1 sphere", b"certificate 1 manifold", b"certificate 1 equivalent", b"certificate 2 sphere",
    b"certificate 01 sphere", b"certificate  1 sphere", b"Certificate 1 sphere", b"certificate ", b"certificate",
]
LINES = HEADS + [
    b"", b"end", b" end", b"end ", b"END", b"facets [[1]]", b"map []", b"map [[1,1]]", b"link 1", b"flip [] [1]",
    b"flip [1] []", b"flip [1,2] [3,4]", b"# x", b"[3] ok 4", b"\xff",
]


# Each way to damage takes random choices, the lines and a place in them, mostly that of a flip. The last line is what
# follows the last line feed.

def starting(lines, *words):
    """The places of the lines that begin with one of these words."""
    return [place for place, line in enumerate(lines) if line.startswith(words)]


def line_out(chosen, lines, at):
    del lines[at]


def line_doubled(chosen, lines, at):
    lines.insert(at, lines[at])


def line_put_in(chosen, lines, at):
    lines.insert(at, chosen.choice(LINES))


def lines_turned(chosen, lines, at):
    """What stands before a place goes to the end."""
    lines[:] = lines[at:] + lines[:at]


def head_out_or_doubled(chosen, lines, at):
    """A line other than a flip."""
    heads = starting(lines, b"certificate", b"facets", b"from", b"to", b"map", b"link", b"end")
    if heads:
        chosen.choice([line_out, line_doubled])(chosen, lines, chosen.choice(heads))


def flips_exchanged(chosen, lines, at):
    """Two flips, neighbours or not."""
    flips = starting(lines, b"flip ")
    if len(flips) > 1:
        place = chosen.randrange(1, len(flips))
        first, second = flips[place], flips[chosen.choice([place - 1, chosen.randrange(place)])]
        lines[first], lines[second] = lines[second], lines[first]


def turned(flip):
    word, *sides = flip.split(b" ")
    return b" ".join([word] + sides[::-1])


def flip_turned(chosen, lines, at):
    lines[at] = turned(lines[at])


def flip_back_and_forth(chosen, lines, at):
    """A flip, its inverse, and the flip again, which leaves a valid certificate valid."""
    if lines[at].startswith(b"flip "):
        lines[at + 1:at + 1] = [turned(lines[at]), lines[at]]


def number_changed(chosen, lines, at):
    numbers = list(re.finditer(rb"[0-9]+", lines[at]))
    if numbers:
        start, stop = chosen.choice(numbers).span()
        lines[at] = lines[at][:start] + chosen.choice(NUMBERS) + lines[at][stop:]


def label_changed(chosen, lines, at):
    """A label of a list becomes another one, and the list stays in order."""
    lists = list(re.finditer(LIST, lines[at]))
    if lists:
        match = chosen.choice(lists)
        labels = [int(number) for number in re.findall(rb"[0-9]+", match.group())] or [0]
        labels[chosen.randrange(len(labels))] = chosen.randint(1, 9)
        changed = text(sorted(set(labels))).encode()
        lines[at] = lines[at][:match.start()] + changed + lines[at][match.end():]


def list_out(chosen, lines, at):
    lists = list(re.finditer(rb",?" + LIST, lines[at]))
    if lists:
        start, stop = chosen.choice(lists).span()
        lines[at] = lines[at][:start] + lines[at][stop:]


def lists_exchanged(chosen, lines, at):
    lists = re.findall(LIST, lines[at])
    if len(lists) > 1:
        first, second = chosen.sample(range(len(lists)), 2)
        lists[first], lists[second] = lists[second], lists[first]
        rest = iter(lists)
        lines[at] = re.sub(LIST, lambda match: next(rest), lines[at])


def facet_put_in(chosen, lines, at):
    """One list more at the end of a list of facets or of a map."""
    heads = starting(lines, b"facets ", b"from ", b"to ", b"map ")
    if heads:
        at = chosen.choice(heads)
        lines[at] = lines[at][:-1] + chosen.choice(FACETS) + lines[at][-1:]


def head_changed(chosen, lines, at):
    heads = starting(lines, b"certificate ")
    if heads:
        lines[chosen.choice(heads)] = chosen.choice(HEADS)


def bytes_changed(chosen, lines, at):
    """A byte goes, or becomes others, or others come: anywhere, at the end, or at the first space."""
    line = lines[at]
    cut = chosen.choice([chosen.randint(0, len(line)), len(line), max(0, line.find(b" "))])
    come = chosen.choice(BYTES + [bytes([chosen.randrange(256)])])
    lines[at] = line[:cut] + come + line[cut + chosen.randint(0, 1):]


def cut_off(chosen, lines, at):
    """All from some byte on goes."""
    del lines[at + 1:]
    lines[at] = lines[at][:chosen.randint(0, len(lines[at]))]


def last_line_feed(chosen, lines, at):
    """The last line feed goes, or comes."""
    if lines[-1]:
        lines.append(b"")
    else:
        lines.pop()


WAYS = [
    line_out, line_doubled, line_put_in, lines_turned, head_out_or_doubled, flips_exchanged, flip_turned,
    flip_back_and_forth, number_changed, label_changed, label_changed, list_out, lists_exchanged, facet_put_in,
    head_changed, bytes_changed, bytes_changed, cut_off, last_line_feed,
]


def damaged(transcript, seed, number):
    """The transcript, damaged once or twice by the choices of a seed and a number."""
    chosen = random.Random("damage %d %d" % (seed, number))
    lines = transcript.split(b"\n")
    for _ in range(chosen.choice([1, 1, 1, 1, 2])):
        if lines:
            places = starting(lines, b"flip ") if chosen.random() < 0.8 else []
            chosen.choice(WAYS)(chosen, lines, chosen.choice(places or range(len(lines))))
    return b"\n".join(lines)


if __name__ == "__main__":
    sys.stdout.buffer.write(damaged(sys.stdin.buffer.read(), int(sys.argv[1]), int(sys.argv[2])))
