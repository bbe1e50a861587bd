#!/usr/bin/env python3
"""Facet lists from other systems to commands of simp, and back.

    tools/facets.py [--name X] [--zero-based] [--subdivide [K]] [--to SYSTEM] [FILE ..]

Reads what Sage, GAP (simpcomp, HAP), polymake (rows, FACETS, JSON), Macaulay2 and the lists of Frank Lutz look like, plain rows of
labels, and simp's own replies `facets [[..]]`. Writes `NAME := [[..]];` for each complex found, or with --to one of sage, gap,
polymake, macaulay2, json, lines what that system reads. What was understood, and how labels were renamed, is said on standard error.
Labels that are no whole numbers from 1 to 1,000,000 are renamed: where the least is 0 and all are numbers, one is added to each; else
they are numbered in order. --zero-based adds one to each label in any case. --subdivide takes the barycentric subdivision, K times.

Status 0: all was read; 1: something is no facet list, and nothing was written; 2: wrong words.
"""
import argparse
import itertools
import json
import re
import sys

LABELS = 12
GREATEST = 1_000_000
OPEN = {"[": "]", "(": ")", "{": "}", "<": ">"}
CLOSE = set(OPEN.values())


class Nonsense(Exception):
    """What cannot be read, with its place in the text."""

    def __init__(self, why, place=None):
        super().__init__(why)
        self.place = place


def where(text, place):
    line = text.count("\n", 0, place) + 1
    return f"line {line}, column {place - (text.rfind(chr(10), 0, place) + 1) + 1}"


TOKEN = re.compile(r"""
    (?P<space>[\s,;]+)
  | (?P<comment>\#(?!\d)[^\n]*)
  | (?P<range>\.\.)
  | (?P<number>-?\d+)
  | (?P<word>'[^'\n]*'|"[^"\n]*"|[A-Za-z_][A-Za-z_0-9]*)
  | (?P<open>[\[({])
  | (?P<close>[\])}])
  | (?P<other>.)
""", re.VERBOSE | re.DOTALL)


def tokens(text):
    for found in TOKEN.finditer(text):
        kind = found.lastgroup
        if kind not in ("space", "comment"):
            yield kind, found.group(), found.start()


class Group:
    """A bracket: its members are labels and groups."""

    def __init__(self, place, before):
        self.members, self.place, self.before, self.odd = [], place, before, None

    def groups(self):
        return [it for it in self.members if isinstance(it, Group)]

    def is_flat(self):
        return not self.groups()

    def is_list_of_flat(self):
        return bool(self.members) and all(isinstance(it, Group) and it.is_flat() for it in self.members)


def label(kind, said):
    if kind == "number":
        return int(said)
    return said.strip("'\"")


def brackets(text):
    """The outermost brackets of the text, with the words before each, and what else stands between them."""
    top, stack, between, outside, open_range = [], [], [], [], None
    for kind, said, place in tokens(text):
        if kind == "open":
            group = Group(place, between)
            between = []
            (stack[-1][0].members if stack else top).append(group)
            stack.append((group, OPEN[said]))
        elif kind == "close":
            if not stack or stack[-1][1] != said:
                raise Nonsense(f"a {said} that closes nothing", place)
            stack.pop()
            between = []
        elif not stack:
            between.append((said, place))
            outside.append((said, place))
        elif kind in ("number", "word"):
            members = stack[-1][0].members
            if open_range is not None and kind == "number":
                members.extend(range(open_range + 1, int(said) + 1))
                open_range = None
            else:
                members.append(label(kind, said))
        elif kind == "range" and stack[-1][0].members and isinstance(stack[-1][0].members[-1], int):
            open_range = stack[-1][0].members[-1]
        elif said not in "=>:":
            stack[-1][0].odd = stack[-1][0].odd or (said, place)
    if stack:
        raise Nonsense("a bracket that nothing closes", stack[-1][0].place)
    return top, outside


def named(words):
    """A name from what stands before a list: the last word that a sign = or := or => follows."""
    said = "".join(word for word, _ in words)
    found = re.search(r"([A-Za-z_#][A-Za-z_0-9#]*)\s*:?=>?$", said)
    if not found or found.group(1) in ("FACETS", "INPUT_FACES", "Facets"):
        return None
    return found.group(1)


def lists_in(groups):
    for group in groups:
        if group.odd and group.is_list_of_flat():
            raise Nonsense(f"{group.odd[0]} in a list of facets", group.odd[1])
        if group.is_list_of_flat():
            yield group
        else:
            yield from lists_in(group.groups())


def facets_of(groups):
    facets = []
    for group in groups:
        if group.odd:
            raise Nonsense(f"{group.odd[0]} among the labels of a facet", group.odd[1])
        if len(set(group.members)) < len(group.members):
            raise Nonsense("a label stands twice in a facet", group.place)
        if len(group.members) > LABELS:
            raise Nonsense(f"a facet has {len(group.members)} labels, and simp takes at most {LABELS}", group.place)
        facets.append(list(group.members))
    return facets


MONOMIAL = re.compile(r"^(?:[A-Za-z](?:_\{?\d+\}?)?\*?)+$")
VARIABLE = re.compile(r"[A-Za-z](?:_\{?\d+\}?)?")


def variables(word):
    return [it.replace("{", "").replace("}", "") for it in VARIABLE.findall(word)]


def from_macaulay(text):
    """The facets of a simplicial complex as Macaulay2 prints it: monomials between bars, or products in braces."""
    found = re.search(r"simplicialComplex\s*(?:\|([^|]*)\||\{([^{}]*(?:_\{[^{}]*\}[^{}]*)*)\}|matrix\s*\{\{(.*?)\}\})", text, re.DOTALL)
    if not found:
        return None
    body = next(it for it in found.groups() if it is not None)
    place = found.start()
    facets = []
    for word in re.split(r"[\s,]+", body.strip()):
        if not MONOMIAL.match(word):
            raise Nonsense(f"{word!r} is no product of variables", place)
        facets.append(variables(word))
    named_as = re.search(r"([A-Za-z]\w*)\s*=\s*$", text[:place].rstrip("\n"))
    return [(named_as and named_as.group(1), facets)]


def from_json(text):
    try:
        value = json.loads(text)
    except ValueError:
        return None

    def search(value):
        if isinstance(value, dict):
            for key in ("FACETS", "INPUT_FACES", "facets"):
                if key in value:
                    return rows(value[key])
            for it in value.values():
                found = search(it)
                if found is not None:
                    return found
        return None

    def rows(value):
        if isinstance(value, dict):
            value = value.get("data", value.get("rows"))
        # polymake ends a list of sets with an object that tells their dimension
        value = [it for it in value if not isinstance(it, dict)] if isinstance(value, list) else None
        if not value or not all(isinstance(it, list) and all(isinstance(x, (int, str)) for x in it) for it in value):
            raise Nonsense("the JSON's facets are no list of lists of labels", 0)
        return value

    found = search(value) if isinstance(value, dict) else None
    if found is None:
        return None
    for facet in found:
        if len(set(facet)) < len(facet) or len(facet) > LABELS:
            raise Nonsense(f"the facet {facet} has a label twice, or more than {LABELS}", 0)
    return [(None, found)]


def from_rows(text):
    """A facet a line."""
    facets, start = [], 0
    for line in text.split("\n"):
        bare = line.split("#")[0].strip()
        if bare and not (re.fullmatch(r"(?:INPUT_)?FACETS:?", bare) and not facets):
            odd = re.search(r"[^\w\s,;'\".-]|\.\.", bare)
            if odd:
                raise Nonsense(f"{odd.group()} in a row of labels", start + line.index(odd.group()))
            words = [it for it in re.split(r"[\s,;]+", bare) if it]
            facet = [int(it) if re.fullmatch(r"-?\d+", it) else it.strip("'\"") for it in words]
            if len(set(facet)) < len(facet):
                raise Nonsense("a label stands twice in a facet", start)
            if len(facet) > LABELS:
                raise Nonsense(f"a facet has {len(facet)} labels, and simp takes at most {LABELS}", start)
            facets.append(facet)
        start += len(line) + 1
    if not facets:
        raise Nonsense("there is no facet list in it", 0)
    kinds = {isinstance(x, str) for facet in facets for x in facet}
    if kinds == {True, False}:
        raise Nonsense("rows with numbers and words: which are the labels?", 0)
    return [(None, facets)]


def read(text):
    """The complexes of a text: a list of pairs of a name or None and a facet list."""
    found = from_json(text) if text.lstrip().startswith("{\"") or text.lstrip().startswith("{\n") else None
    if found is None:
        found = from_macaulay(text)
    if found is not None:
        return found
    if not re.search(r"[\[({]", text):
        return from_rows(text)
    top, outside = brackets(text)
    lists = list(lists_in(top))
    if lists:
        complexes = []
        for group in lists:
            facets = facets_of(group.members)
            if sum(1 for it in facets if it) == 0 and len(facets) > 1:
                raise Nonsense("a list of empty lists", group.place)
            complexes.append((named(group.before), facets))
        return complexes
    if len(top) == 1 and not top[0].members:
        return [(named(top[0].before), [])]
    # rows in brackets, as polymake prints them
    odd = [it for it in outside if it[0] not in ("FACETS", "INPUT_FACES", "facets", "Facets", "=", ":", ">")]
    if odd:
        raise Nonsense(f"{odd[0][0]} between rows in brackets", odd[0][1])
    if not top or not all(group.is_flat() for group in top):
        raise Nonsense("brackets, but no list of facets", top[0].place if top else 0)
    if not any(group.members for group in top):
        raise Nonsense("a list of empty lists", top[0].place)
    return [(None, facets_of(top))]


def natural(word):
    return [(0, int(it), "") if it.isdigit() else (1, 0, it) for it in re.findall(r"\d+|\D+", str(word))]


def renamed(facets, zero_based):
    """The facets with labels that simp takes, and what became what where that changed."""
    labels = set(itertools.chain.from_iterable(facets))
    numbers = all(isinstance(it, int) for it in labels)
    if labels and numbers and (zero_based or min(labels) == 0) and min(labels) >= 0 and max(labels) < GREATEST:
        to = {it: it + 1 for it in labels}
    elif numbers and all(1 <= it <= GREATEST for it in labels):
        return facets, {}
    else:
        order = sorted(labels) if numbers else sorted(labels, key=natural)
        to = {it: place + 1 for place, it in enumerate(order)}
    return [[to[it] for it in facet] for facet in facets], to


def subdivided(facets):
    """The barycentric subdivision: a vertex for each face, in order of size and then of labels, and a facet for each chain."""
    faces = set()
    for facet in facets:
        for size in range(1, len(facet) + 1):
            faces.update(itertools.combinations(sorted(facet), size))
    number = {face: place + 1 for place, face in enumerate(sorted(faces, key=lambda it: (len(it), it)))}
    chains = set()
    for facet in facets:
        for order in itertools.permutations(facet):
            chains.add(tuple(sorted(number[tuple(sorted(order[:k]))] for k in range(1, len(order) + 1))))
    return [list(chain) for chain in sorted(chains)]


def spelled(name, facets, system):
    facets = sorted(sorted(facet) for facet in facets)
    rows = "[" + ",".join("[" + ",".join(map(str, facet)) + "]" for facet in facets) + "]"
    if system == "sage":
        return f"{name} = SimplicialComplex({rows})"
    if system == "gap":
        return f"{name} := SCFromFacets({rows});;"
    if system == "polymake":
        order = {it: place for place, it in enumerate(sorted(set(itertools.chain.from_iterable(facets))))}
        from_zero = ",".join("[" + ",".join(str(order[it]) for it in facet) + "]" for facet in facets)
        return f"${name} = new topaz::SimplicialComplex(FACETS=>[{from_zero}]);"
    if system == "macaulay2":
        top = max(itertools.chain.from_iterable(facets), default=1)
        products = ",".join("*".join(f"x_{it}" for it in facet) or "1" for facet in facets)
        return f"R = QQ[x_1..x_{top}]; {name} = simplicialComplex {{{products}}}"
    if system == "json":
        return json.dumps({"name": name, "facets": facets}, separators=(",", ":"))
    if system == "lines":
        return "\n".join(" ".join(map(str, facet)) for facet in facets)
    return f"{name} := {rows};"


def proper(name):
    """The name as simp takes one: a letter, then letters, digits and _, at most 32."""
    name = re.sub(r"[^A-Za-z0-9_]", "", name)
    return (name if re.match(r"[A-Za-z]", name) else "X" + name)[:32]


def main():
    words = argparse.ArgumentParser(usage="facets.py [--name X] [--zero-based] [--subdivide [K]] [--to SYSTEM] [FILE ..]")
    words.add_argument("--name")
    words.add_argument("--zero-based", action="store_true")
    words.add_argument("--subdivide", nargs="?", type=int, const=1, default=0)
    words.add_argument("--to", choices=["simp", "sage", "gap", "polymake", "macaulay2", "json", "lines"], default="simp")
    words.add_argument("files", nargs="*")
    words = words.parse_args()
    out, used = [], set()
    for file in words.files or ["-"]:
        try:
            raw = sys.stdin.buffer.read() if file == "-" else open(file, "rb").read()
            text = raw.decode("utf-8")
        except (OSError, UnicodeDecodeError) as fault:
            print(f"facets: {file}: {fault}", file=sys.stderr)
            return 1
        if text.startswith("\ufeff") or "\u00a0" in text:
            print("facets: a byte order mark or no-break spaces were left out", file=sys.stderr)
            text = text.replace("\ufeff", "", 1).replace("\u00a0", " ")
        try:
            complexes = read(text)
        except Nonsense as fault:
            at = f"{where(text, fault.place)}: " if fault.place is not None else ""
            print(f"facets: {'' if file == '-' else file + ': '}{at}{fault}", file=sys.stderr)
            return 1
        for given, facets in complexes:
            facets, to = renamed(facets, words.zero_based)
            for _ in range(words.subdivide):
                facets = subdivided(facets)
            name = proper(words.name or given or "X")
            stem, count = name, 1
            while name in used:
                count += 1
                name = f"{stem[:26]}_{count}"
            used.add(name)
            if to:
                some = [f"{a}->{b}" for a, b in sorted(to.items(), key=lambda it: it[1])]
                more = f" and {len(some) - 12} more" if len(some) > 12 else ""
                print(f"facets: labels of {name} renamed: {' '.join(some[:12])}{more}", file=sys.stderr)
            if words.subdivide:
                print(f"facets: {name} subdivided: a vertex for each face, by size and then by labels", file=sys.stderr)
            out.append(spelled(name, facets, words.to))
    print("\n".join(out))
    return 0


if __name__ == "__main__":
    sys.exit(main())
