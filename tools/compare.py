#!/usr/bin/env python3
"""Looks for a chain of certificates from one complex to another.

    tools/compare.py A B [--budget 2000] [--seeds 20] [--seconds 60]

A and B are files that tools/facets.py reads, the first complex of each. Both are reduced with each seed, and the smallest complexes that
come out are compared pair by pair. Where two are equal up to the names of vertices, three certificates are written: from A to its
small one, from that to the other's, and from that to B. docs/CERTIFICATES.md says what a chain proves.

Status 0: a chain was found; 1: none was; 2: wrong words or files.
"""
import argparse
import json
import os
import sys

sys.path.insert(0, os.path.dirname(os.path.abspath(__file__)))
import facets  # noqa: E402
import simp  # noqa: E402


def said(rows):
    return json.dumps(rows, separators=(",", ":"))


def read(path):
    with open(path, encoding="utf-8") as file:
        return facets.renamed(facets.read(file.read())[0][1], False)[0]


def invariants(rows, seconds):
    replies = simp.run(["X := []", "X := " + said(rows), "closed X", "euler X", "betti X"], seconds)
    return [str(it) for it in replies[2:] if not it.startswith("refused")]


def goals(rows, words):
    """The smallest complexes that reducing leads to: pairs of facets and seed, none twice."""
    found = {}
    for seed in range(1, words.seeds + 1):
        replies = simp.run(["X := []", "X := " + said(rows), f"reduce X {words.budget} {seed}", "print X"], words.seconds)
        if len(replies) == 4 and replies[3].startswith("facets "):
            found.setdefault(replies[3].split(" ", 1)[1], seed)
        elif len(replies) > 2 and replies[2].startswith("refused"):
            sys.exit(f"compare: {replies[2]}")
    least = min((len(json.loads(it)) for it in found), default=0)
    return [(it, seed) for it, seed in found.items() if len(json.loads(it)) == least]


def equivalent(first, second, budget, seed, seconds):
    replies = simp.run(["X := " + first, "Y := " + second, f"equivalent X Y {budget} {seed}"], seconds)
    return replies[2].certificate if len(replies) == 3 else ()


def main():
    words = argparse.ArgumentParser(usage="compare.py A B [--budget N] [--seeds N] [--seconds S]")
    words.add_argument("a")
    words.add_argument("b")
    words.add_argument("--budget", type=int, default=2000)
    words.add_argument("--seeds", type=int, default=20)
    words.add_argument("--seconds", type=float, default=60)
    parser, words = words, words.parse_args()
    try:
        a, b = read(words.a), read(words.b)
    except (OSError, facets.Nonsense) as fault:
        parser.error(str(fault))
    ours, theirs = invariants(a, words.seconds), invariants(b, words.seconds)
    differ = [(x, y) for x, y in zip(ours, theirs) if x != y]
    if differ:
        print(f"compare: no: {differ[0][0]} and {differ[0][1]} (what flips and new names of vertices keep)", file=sys.stderr)
        return 1
    of_a, of_b = goals(a, words), goals(b, words)
    for g, seed_a in of_a:
        for h, seed_b in of_b:
            chain = [equivalent(g, h, 0, 1, words.seconds)]
            if not chain[0]:
                continue
            chain.insert(0, equivalent(said(a), g, words.budget, seed_a, words.seconds))
            chain.append(equivalent(h, said(b), words.budget, seed_b, words.seconds))
            if all(chain):
                for name, certificate in zip((f"from A, seed {seed_a}", "between the small ones", f"to B, seed {seed_b}"), chain):
                    print(f"# {name}\n" + "\n".join(certificate))
                return 0
    print(f"compare: no chain with {words.seeds} seeds and {words.budget} flips: {len(of_a)} and {len(of_b)} smallest complexes", file=sys.stderr)
    return 1


if __name__ == "__main__":
    sys.exit(main())
