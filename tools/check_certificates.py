#!/usr/bin/env python3
"""Checks the certificates in standard input by docs/CERTIFICATES.md alone, and writes what `simp replay` writes.

    tools/check_certificates.py [--names] [--of FACETS] [--least N] [FILE ..]

With files, those in these, one after another. --names writes before each reply the file, the line of the certificate and the nearest
line before it that names it: `# NAME`, or `[n] ..` of a transcript. --of refuses, as `refused other`, a certificate that is of
another complex than the one whose facets the file lists as [[1,2],[1,3],..], in any order; of `equivalent` either complex will do.
--least refuses to call it a success where fewer certificates than so many were accepted.
The status is 0 where no part is refused, and else 1; 2 for wrong words. It needs Python 3.8 or later and nothing else.
"""
import argparse, collections, itertools, json, re, sys

LABEL = "(?:[1-9][0-9]{0,5}|1000000)"
SIMPLEX = r"\[(?:%s(?:,%s){0,11})?\]" % (LABEL, LABEL)
PAIR = r"\[%s,%s\]" % (LABEL, LABEL)
LIST = r"\[(?:%s(?:,%s)*)?\]"
FACETS = LIST % (SIMPLEX, SIMPLEX)
LINES = {"facets": "facets " + FACETS, "from": "from " + FACETS, "to": "to " + FACETS, "link": "link " + LABEL,
         "flip": "flip %s %s" % (SIMPLEX, SIMPLEX), "map": "map " + LIST % (PAIR, PAIR), "end": "end"}

class Refused(Exception):
    """The fault of a part, as the reply names it after `refused`."""

def require(holds, fault):
    if not holds:
        raise Refused(fault)

class Complex:
    """A complex as the set of the facets around each vertex; where it is pure, `size` is the length of a facet."""
    def __init__(self, facets):
        self.around, self.size = collections.defaultdict(set), 0
        for facet in map(frozenset, facets):
            self.change(set.add, facet)
            self.size = len(facet)

    def change(self, how, facet):
        for vertex in facet:
            how(self.around[vertex], facet)

    def facets(self):
        return set().union(*self.around.values())

    def vertices(self):
        return sorted(vertex for vertex, star in self.around.items() if star)

    def star(self, face):
        """The facets that contain the face, which is not empty."""
        return set.intersection(*sorted((self.around[vertex] for vertex in face), key=len))

    def make(self, flips, before=0):
        """Makes the flips, the first being number `before` + 1, and gives the number of the last."""
        for number, (a, b) in enumerate(flips, before + 1):
            a, b = frozenset(a), frozenset(b)
            gone, come = {a | (b - {label}) for label in b}, {b | (a - {label}) for label in a}
            is_flip = a and b and len(a) + len(b) == self.size + 1 and not a & b
            require(is_flip and self.star(a) == gone and not self.star(b), "flip %d" % number)
            for facet in gone:
                self.change(set.remove, facet)
            for facet in come:
                self.change(set.add, facet)
        return before + len(flips)

    def make_to_boundary(self, flips, fault, before=0):
        """Makes the flips, and requires a simplex boundary at their end."""
        last = self.make(flips, before)
        require(len(self.facets()) == len(self.vertices()) == self.size + 1, fault)
        return last

def is_increasing(items):
    return all(x < y for x, y in zip(items, items[1:]))

def is_facet_list(facets):
    if is_increasing(facets) and len(set(map(len, facets))) > 1:
        whole = Complex(facets)
        return all(facet and len(whole.star(facet)) == 1 for facet in facets)
    return is_increasing(facets)  # where all have one length, none lies in another

def is_pure(facets, least_dimension):
    return len(set(map(len, facets))) == 1 and len(facets[0]) > least_dimension

class Part:
    """The lines of a part, read from the front; the first that cannot stand where it does is the fault `form`."""
    def __init__(self, lines):
        self.lines, self.place = lines[1:] + [""], 0

    def read(self, word):
        """The items of the next line, which has to begin with the word."""
        line, form = self.lines[self.place], "form %d" % (self.place + 2)
        require(re.fullmatch(LINES[word] + "\n", line), form)
        items = [json.loads(item) for item in line.split()[1:]]
        simplices = items if word == "flip" else items[0] if word in ("facets", "from", "to") else []
        require(all(map(is_increasing, simplices)) and (word == "flip" or is_facet_list(simplices)), form)
        self.place += 1
        return items

    def read_all(self, word):
        found = []
        while self.lines[self.place].startswith(word + " "):
            found.append(self.read(word) + ([self.read_all("flip")] if word == "link" else []))
        return found

def check_sphere(part):
    (start,), flips, _ = part.read("facets"), part.read_all("flip"), part.read("end")
    require(is_pure(start, 0), "start")
    return Complex(start).make_to_boundary(flips, "end")

def check_equivalent(part):
    (start,), (target,), first = part.read("from"), part.read("to"), part.read_all("flip")
    (pairs,), second, _ = part.read("map"), part.read_all("flip"), part.read("end")
    require(is_pure(start, 0) and is_pure(target, 0), "start")
    reached, image = Complex(start), dict(pairs)
    last = reached.make(first)
    require([v for v, _ in pairs] == reached.vertices() and len(set(image.values())) == len(pairs), "map")
    carried = Complex({image[v] for v in facet} for facet in reached.facets())
    last = carried.make(second, last)
    require(carried.facets() == Complex(target).facets(), "end")
    return last

def check_manifold(part):
    (start,), blocks, _ = part.read("facets"), part.read_all("link"), part.read("end")
    require(is_pure(start, 1), "start")
    whole, last = Complex(start), 0
    for place, (v, vertex) in enumerate(itertools.zip_longest([v for v, _ in blocks], whole.vertices()), 1):
        require(v == vertex, "links %d" % place)
    for v, flips in blocks:
        link = Complex(facet - {v} for facet in whole.around[v])
        last = link.make_to_boundary(flips, "end %d" % v, last)
    return last

CHECKS = {"certificate 1 sphere\n": check_sphere, "certificate 1 equivalent\n": check_equivalent,
          "certificate 1 manifold\n": check_manifold}

def complexes(lines):
    """The complexes that a certificate is of, as sets of facets."""
    for line in lines[1:3]:
        word, _, rest = line.partition(" ")
        if word in ("facets", "from", "to") and re.fullmatch(LINES[word] + "\n", line):
            yield set(map(frozenset, json.loads(rest)))

def reply_to(lines, only=None):
    try:
        require(lines[0] in CHECKS, "form 1")
        reply = "accepted %s %d" % (lines[0].split()[2], CHECKS[lines[0]](Part(lines)))
        require(only is None or only in complexes(lines), "other")
        return reply
    except Refused as fault:
        return "refused %s" % fault

def named_parts(lines):
    """Each part with the number of its first line and the nearest line before it that names it."""
    name, is_open, found = "", False, []
    for number, line in enumerate(lines, 1):
        if line.startswith("certificate "):
            found.append((number, name, []))
            is_open = True
        elif not is_open and (line.startswith("# ") or re.match(r"\[\d+\] ", line)):
            name = line.strip()
        if is_open:
            found[-1][2].append(line)
        is_open = is_open and line not in ("end", "end\n")
    return found

def facets_in(text):
    """The facets of the first list of lists in the text."""
    found = re.search(r"\[\s*(?:\[[\d\s,]*\]\s*,?\s*)*\]", text)
    return None if found is None else set(map(frozenset, json.loads(found.group())))

def main():
    words = argparse.ArgumentParser(usage="check_certificates.py [--names] [--of FACETS] [--least N] [FILE ..]")
    words.add_argument("--names", action="store_true")
    words.add_argument("--of")
    words.add_argument("--least", type=int, default=0)
    words.add_argument("files", nargs="*")
    words = words.parse_args()
    only, count, accepted = None, 0, 0
    try:
        if words.of is not None:
            only = facets_in(open(words.of).read())
            if only is None:
                words.error("%s has no list of facets" % words.of)
        for file in words.files or ["-"]:
            source = sys.stdin.buffer if file == "-" else open(file, "rb")
            for number, name, part in named_parts(line.decode("latin-1") for line in source):
                reply = reply_to(part, only)
                count += 1
                accepted += reply.startswith("accepted")
                print("%s:%d %s: %s" % (file, number, name or "no name", reply) if words.names else reply)
    except OSError as fault:
        words.error(str(fault))
    print("checked %d accepted %d" % (count, accepted))
    return accepted < count or accepted < words.least

if __name__ == "__main__":
    sys.exit(main())
