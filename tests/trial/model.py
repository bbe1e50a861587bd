#!/usr/bin/env python3
"""A model of `simp run`, written from docs/MANUAL.md and not from the sources: a script in, its transcript out.

A complex is the sorted tuple of its facets, and a simplex the sorted tuple of its labels. What a command does is a
function of its complexes, lists and numbers; it raises Refused with the name of the condition that fails. The model
needs Python 3.8 or newer and nothing else.
"""
import bisect
import collections
import re
import sys
from itertools import combinations
from math import comb

INPUT_LIMIT = 16777216
LABEL_LIMIT = 1000000
SIMPLEX_LIMIT = 12
NAMES_LIMIT = 256
WEIGHT_LIMIT = 8388608
JOURNAL_LIMIT = 4194304
RANK_LIMIT = 16384
LINKS_LIMIT = 4194304

longest_walk = None  # the flips of one walk after which the model gives up with TooLong; None: it never does


class Syntax(Exception):
    """The text is no command."""


class Refused(Exception):
    """A condition fails; its name is the argument."""


class TooLong(Exception):
    """A walk is longer than `longest_walk`."""


def require(holds, condition):
    if not holds:
        raise Refused(condition)


# The text of a script

WHITE = b" \t\r\n"
TOKEN = re.compile(rb"[ \t\r\n]+|:=|\[|\]|,|[A-Za-z0-9_]+")
NAME = re.compile(rb"[A-Za-z][A-Za-z0-9_]{0,31}\Z")
NUMBER = re.compile(rb"(?:0|[1-9][0-9]{0,17})\Z")

Command = collections.namedtuple("Command", "target word arguments")  # the target is None where nothing is assigned


def pieces(script):
    """What stands before each `;` outside comments, and last what follows them all; comments become white space."""
    return re.sub(rb"#[^\n]*", b" ", script).split(b";")


def tokens(piece):
    """The parts of a piece as pairs of kind and value; signs are their own kind."""
    found, at = [], 0
    while at < len(piece):
        match = TOKEN.match(piece, at)
        if not match:
            raise Syntax
        token, at = match.group(), match.end()
        if token in (b":=", b"[", b"]", b","):
            found.append((token.decode(), None))
        elif NAME.match(token):
            found.append(("name", token.decode()))
        elif NUMBER.match(token):
            found.append(("number", int(token)))
        elif token.strip(WHITE):
            raise Syntax
    return found


class Reader:
    """Takes the tokens of a command one after another."""

    def __init__(self, found):
        self.tokens, self.at = found, 0

    def kind(self, ahead=0):
        return self.tokens[self.at + ahead][0] if self.at + ahead < len(self.tokens) else None

    def take(self, kind):
        if self.kind() != kind:
            raise Syntax
        self.at += 1
        return self.tokens[self.at - 1][1]

    def listed(self, item):
        """A list in brackets of what `item` takes."""
        self.take("[")
        items = []
        if self.kind() != "]":
            items.append(item())
            while self.kind() == ",":
                self.take(",")
                items.append(item())
        self.take("]")
        return items

    def list(self):
        return self.listed(lambda: self.take("number"))

    def argument(self, letter):
        """An argument of a command by the letter that stands for it in the tables below."""
        if letter == "x":
            return self.take("name")
        if letter == "n":
            return self.take("number")
        if letter == "?":
            return self.take("number") if self.kind() == "number" else None
        return self.list() if letter == "s" else self.listed(self.list)


def parse(piece):
    """The command of a piece."""
    reader = Reader(tokens(piece))
    target, table = None, COMMANDS
    if reader.kind() == "name" and reader.kind(1) == ":=":
        target, table = reader.take("name"), CONSTRUCTIONS
        reader.take(":=")
    word = ":=" if target is not None and reader.kind() == "[" else reader.take("name")
    if word not in table:
        raise Syntax
    arguments = [reader.argument(letter) for letter in table[word][0]]
    if reader.kind() is not None:
        raise Syntax
    return Command(target, word, arguments)


def text(value):
    """A number, or a list in brackets."""
    return str(value) if isinstance(value, int) else "[" + ",".join(map(text, value)) + "]"


# Simplices and complexes

def check_simplex(labels):
    """The conditions of a list that stands for a simplex."""
    require(len(labels) <= SIMPLEX_LIMIT, "dim_limit")
    for place, label in enumerate(labels):
        require(1 <= label <= LABEL_LIMIT, "label_range")
        require(label not in labels[:place], "label_twice")


def generated(simplices):
    """The complex of those that lie properly in no other."""
    by_size = collections.defaultdict(set)
    for simplex in simplices:
        by_size[len(simplex)].add(tuple(sorted(simplex)))
    facets, covered = [], set()
    for size in sorted(by_size, reverse=True):
        for simplex in by_size[size] - covered:
            facets.append(simplex)
            for smaller in by_size:
                if smaller < size:
                    covered.update(combinations(simplex, smaller))
    return tuple(sorted(facets))


def dim(x):
    """The dimension of a complex that is not void."""
    return max(map(len, x)) - 1


def weight(x):
    return len(x) * 2 ** (dim(x) + 1) if x else 0


def is_pure(x):
    return len(set(map(len, x))) == 1


def need_pure(*complexes):
    for x in complexes:
        require(x, "void")
    for x in complexes:
        require(is_pure(x), "not_pure")


def vertices(x):
    return sorted({label for facet in x for label in facet})


def without(simplex, labels):
    return tuple(label for label in simplex if label not in labels)


def subsets(simplex):
    return [face for size in range(len(simplex) + 1) for face in combinations(simplex, size)]


def containing(x, a):
    """The facets that contain a."""
    return [facet for facet in x if set(a).issubset(facet)]


def around(x, a):
    """The facets that contain the face a."""
    found = containing(x, a)
    require(found, "not_face")
    return found


def ridges(x):
    """For each ridge the facets that it lies in."""
    found = collections.defaultdict(list)
    for facet in x:
        for ridge in combinations(facet, len(facet) - 1) if facet else ():
            found[ridge].append(facet)
    return found


def faces_by_size(x):
    """The set of faces for each number of labels from 0 on; none of the void complex."""
    found = [set() for _ in range(dim(x) + 2)] if x else []
    for facet in x:
        for face in subsets(facet):
            found[len(face)].add(face)
    return found


# Numbers

def f_vector(x):
    return [len(faces) for faces in faces_by_size(x)[1:]]


def h_vector(x):
    require(x, "void")
    f, size = [1] + f_vector(x), dim(x) + 1
    return [sum((-1) ** (k - i) * comb(size - i, k - i) * f[i] for i in range(k + 1)) for k in range(size + 1)]


def g_vector(x):
    h = h_vector(x)
    return h[:1] + [h[k] - h[k - 1] for k in range(1, (dim(x) + 1) // 2 + 1)]


def euler(x):
    return sum((-1) ** k * number for k, number in enumerate(f_vector(x)))


def faces(x, k):
    by_size = faces_by_size(x)
    return sorted(by_size[k + 1]) if k + 1 < len(by_size) else []


def rank(columns):
    """The rank over two elements of a matrix whose columns are the bits of numbers."""
    pivots = {}
    for column in columns:
        while column and column.bit_length() in pivots:
            column ^= pivots[column.bit_length()]
        if column:
            pivots[column.bit_length()] = column
    return len(pivots)


def betti(x):
    by_size = faces_by_size(x)[1:]
    require(all(len(found) <= RANK_LIMIT for found in by_size), "rank_limit")
    ranks = [0]
    for lower, upper in zip(by_size, by_size[1:]):
        bit = {face: 1 << place for place, face in enumerate(sorted(lower))}
        ranks.append(rank(sum(bit[side] for side in combinations(face, len(face) - 1)) for face in upper))
    ranks.append(0)
    return [len(found) - ranks[k] - ranks[k + 1] for k, found in enumerate(by_size)]


def components(x):
    parent = {label: label for label in vertices(x)}

    def root(label):
        while parent[label] != label:
            label = parent[label]
        return label

    for facet in x:
        for label in facet[1:]:
            parent[root(label)] = root(facet[0])
    return sum(root(label) == label for label in parent)


def closed(x):
    need_pure(x)
    return all(len(facets) == 2 for facets in ridges(x).values())


def strong(x):
    need_pure(x)
    at, seen, waiting = ridges(x), {x[0]}, [x[0]]
    while waiting:
        facet = waiting.pop()
        for ridge in combinations(facet, len(facet) - 1) if facet else ():
            for neighbour in at[ridge]:
                if neighbour not in seen:
                    seen.add(neighbour)
                    waiting.append(neighbour)
    return len(seen) == len(x)


# Parts and constructions

def link(x, a):
    return generated(without(facet, a) for facet in around(x, a))


def star(x, a):
    return generated(around(x, a))


def deletion(x, a):
    return generated([without(facet, (label,)) for facet in around(x, a) for label in a] +
                     [facet for facet in x if not set(a).issubset(facet)])


def boundary(x):
    need_pure(x)
    return generated(ridge for ridge, facets in ridges(x).items() if len(facets) == 1)


def skeleton(x, k):
    return generated(face for facet in x for face in combinations(facet, min(k + 1, len(facet))))


def need_room(facets, dimension):
    """The result of a construction has to be within the limit of weights, also before it is made."""
    require(facets * 2 ** (dimension + 1) <= WEIGHT_LIMIT, "size_limit")


def bdsimplex(d):
    require(d >= 1, "range")
    require(d <= SIMPLEX_LIMIT, "dim_limit")
    return tuple(combinations(range(1, d + 2), d))


def bdcross(d):
    require(d >= 1, "range")
    require(d <= SIMPLEX_LIMIT, "dim_limit")
    facets = [()]
    for i in range(1, d + 1):
        facets = [facet + (label,) for facet in facets for label in (2 * i - 1, 2 * i)]
    return tuple(facets)


def cyclic(k, n):
    require(1 <= k < n, "range")
    require(k <= SIMPLEX_LIMIT, "dim_limit")
    require(n <= LABEL_LIMIT, "label_range")
    half = k // 2

    def pairs(low, high, number):
        """The unions of so many disjoint pairs i, i+1 of the numbers from low to high."""
        if number == 0:
            yield ()
            return
        for i in range(low, high):
            for others in pairs(i + 2, high, number - 1):
                yield (i, i + 1) + others

    if k % 2 == 0:
        need_room(comb(n - half, half) + comb(n - half - 1, half - 1), k - 1)
        facets = [*pairs(1, n, half)] + [(1,) + inner + (n,) for inner in pairs(2, n - 1, half - 1)]
    else:
        need_room(2 * comb(n - half - 1, half), k - 1)
        facets = [(1,) + inner for inner in pairs(2, n, half)] + [inner + (n,) for inner in pairs(1, n - 1, half)]
    return generated(facets)


class Words:
    """The words of a seed: PCG XSH RR 64/32 with the stream 0."""
    FACTOR = 6364136223846793005
    MASK = 2 ** 64 - 1

    def __init__(self, seed):
        self.state = ((seed + 1) * self.FACTOR + 1) & self.MASK

    def word(self):
        state, self.state = self.state, (self.state * self.FACTOR + 1) & self.MASK
        mixed, turn = ((state >> 18 ^ state) >> 27) & 0xffffffff, state >> 59
        return (mixed >> turn | mixed << 32 - turn) & 0xffffffff


def stacked(d, n, seed):
    require(d >= 1, "range")
    require(d < SIMPLEX_LIMIT, "dim_limit")
    require(d + 2 + n <= LABEL_LIMIT, "label_range")
    need_room(d + 2 + d * n, d)
    if longest_walk is not None and n > longest_walk:
        raise TooLong
    facets, words = list(bdsimplex(d + 1)), Words(seed)
    for label in range(d + 3, d + 3 + n):
        facet = facets.pop(words.word() % len(facets))
        for ridge in combinations(facet, d):
            bisect.insort(facets, ridge + (label,))
    return tuple(facets)


def join(x, y):
    if not x or not y:
        return ()
    require(dim(x) + dim(y) + 2 <= SIMPLEX_LIMIT, "dim_limit")
    new = dict(zip(vertices(y), range(max(vertices(x), default=0) + 1, LABEL_LIMIT + 1)))
    require(len(new) == len(vertices(y)), "label_range")
    need_room(len(x) * len(y), dim(x) + dim(y) + 1)
    return generated(one + tuple(new[label] for label in other) for one in x for other in y)


def connected_sum(x, f, y, g):
    need_pure(x, y)
    require(dim(x) == dim(y), "dim_differs")
    require(tuple(sorted(f)) in x and tuple(sorted(g)) in y, "not_facet")
    new = dict(zip(g, f))
    others = [label for label in vertices(y) if label not in new]
    new.update(zip(others, range(max(vertices(x), default=0) + 1, LABEL_LIMIT + 1)))
    require(all(label in new for label in others), "label_range")
    return generated([facet for facet in x if facet != tuple(sorted(f))] +
                     [[new[label] for label in facet] for facet in y if facet != tuple(sorted(g))])


def handle(x, f, g):
    need_pure(x)
    ends = tuple(sorted(f)), tuple(sorted(g))
    require(ends[0] in x and ends[1] in x, "not_facet")
    require(not set(f) & set(g), "overlap")
    near = {label: set(vertices(containing(x, (label,)))) - {label} for label in f + g}
    require(all(b not in near[a] and not near[a] & near[b] for a, b in zip(f, g)), "near")
    new = dict(zip(g, f))
    return generated([new.get(label, label) for label in facet] for facet in x if facet not in ends)


def relabel(x, pairs):
    require(all(len(pair) == 2 for pair in pairs), "not_map")
    require(sorted(old for old, _ in pairs) == vertices(x), "not_map")
    require(len({new for _, new in pairs}) == len(pairs), "not_map")
    require(all(1 <= new <= LABEL_LIMIT for _, new in pairs), "label_range")
    new = dict(map(tuple, pairs))
    return generated([new[label] for label in facet] for facet in x)


# Flips and edits

def sides(a, b):
    """The sets of b and all labels of a but one."""
    return [tuple(sorted(b + side)) for side in combinations(a, len(a) - 1)]


def flip(x, first, second):
    a, b = tuple(sorted(first)), tuple(sorted(second))
    need_pure(x)
    require(a and b and len(a) + len(b) == dim(x) + 2, "flip_size")
    require(not set(a) & set(b), "overlap")
    out = containing(x, a)
    require(set(out) == set(sides(b, a)), "flip_star")
    require(not containing(x, b), "flip_present")
    return "ok", generated([facet for facet in x if facet not in out] + sides(a, b))


def add(x, a):
    require(not containing(x, a), "is_face")
    return "ok", generated([*x, a])


def drop(x, a):
    require(tuple(sorted(a)) in x, "not_facet")
    return "ok", deletion(x, a)


def collapse(x, a):
    found = around(x, a)
    require(a and len(found) == 1 and len(found[0]) == len(a) + 1, "not_free")
    return "ok", deletion(x, a)


def reduce(x, budget, seed):
    need_walk(x, 0, budget)
    goal, flips, _ = walk(x, budget, seed)
    return "reduced %d" % len(flips), goal


class Session:
    """A pure complex through flips: for each face the facets that contain it, and for each class the flips that are
    allowed or would be if B were no face, as a map from A to B."""

    def __init__(self, x):
        self.dim = dim(x)
        self.stars = collections.defaultdict(set)
        self.flips = [{} for _ in range(self.dim + 1)]
        self.change([], x)

    def facets(self):
        return self.stars[()]

    def change(self, out, come):
        """Takes facets out and puts others in."""
        touched = set()
        for facet in come:
            for face in subsets(facet):
                self.stars[face].add(facet)
                touched.add(face)
        for facet in out:
            for face in subsets(facet):
                self.stars[face].remove(facet)
                touched.add(face)
        for face in touched:
            star, kind = self.stars[face], self.dim + 1 - len(face)
            if 1 <= kind <= self.dim:
                others = set().union(*star).difference(face) if len(star) == kind + 1 else ()
                if len(others) == kind + 1:
                    self.flips[kind][face] = tuple(sorted(others))
                else:
                    self.flips[kind].pop(face, None)
            if not star:
                del self.stars[face]

    def options(self, kind):
        """The allowed flips of a class, in order; of class 0 those with the least label that is no vertex."""
        if kind == 0:
            label = 1
            while (label,) in self.stars:
                label += 1
            return [(facet, (label,)) for facet in sorted(self.facets())] if label <= LABEL_LIMIT else []
        return [(a, b) for a, b in sorted(self.flips[kind].items()) if b not in self.stars]

    def flip(self, a, b):
        self.change(sides(b, a), sides(a, b))


def options(x, kind=None):
    need_pure(x)
    session = Session(x)
    if kind is None:
        return [len(session.options(each)) for each in range(dim(x) + 1)]
    require(kind <= dim(x), "range")
    return session.options(kind)


# Walks and verdicts

def need_walk(x, least, budget):
    need_pure(x)
    require(dim(x) >= least, "dim_range")
    need_budget(x, budget)


def need_budget(x, budget):
    require((len(x) + dim(x) * budget) * 2 ** (dim(x) + 1) <= WEIGHT_LIMIT, "budget")
    require(len(vertices(x)) + budget <= LABEL_LIMIT, "budget")


def walk(x, budget, seed):
    """The goal of a walk, the flips to it, and whether it met a simplex boundary."""
    session, words = Session(x), Words(seed)
    heat, flips = 0, []
    goal, flips_to_goal = x, 0
    while True:
        now = session.facets()
        if len(now) == session.dim + 2 == len(vertices(now)):
            return tuple(sorted(now)), flips, True
        if len(now) < len(goal):
            goal, flips_to_goal = tuple(sorted(now)), len(flips)
        if len(flips) == budget:
            return goal, flips[:flips_to_goal], False
        if longest_walk is not None and len(flips) >= longest_walk:
            raise TooLong
        found = []
        if heat == 0:
            for kind in range(session.dim, session.dim // 2, -1):
                found = found or session.options(kind)
        if not found:
            heat = (heat or 5 * (session.dim + 1)) - 1
            for kind in range(1, session.dim // 2 + 1):
                found = found + session.options(kind)
            found = found or session.options(0)
        flips.append(found[words.word() % len(found)])
        session.flip(*flips[-1])


def refined(colours, complexes):
    """The colours of the vertices of two complexes, made finer by the facets while that tells more of them apart; None
    where the two then have different colours."""
    while True:
        seen = []
        for colour, x in zip(colours, complexes):
            at = {label: [] for label in colour}
            for facet in x:
                kind = tuple(sorted(colour[label] for label in facet))
                for label in facet:
                    at[label].append(kind)
            seen.append({label: (colour[label], tuple(sorted(at[label]))) for label in colour})
        order = {kind: place for place, kind in enumerate(sorted({*seen[0].values(), *seen[1].values()}))}
        finer = [{label: order[kind] for label, kind in one.items()} for one in seen]
        if sorted(finer[0].values()) != sorted(finer[1].values()):
            return None
        if [len(set(one.values())) for one in finer] == [len(set(one.values())) for one in colours]:
            return finer
        colours = finer


def least_bijection(x, y):
    """The bijection of vertices that carries x to y and has the least list of images; None where there is none."""
    if sorted(map(len, x)) != sorted(map(len, y)) or len(vertices(x)) != len(vertices(y)):
        return None
    from_labels, to_labels = vertices(x), vertices(y)

    def search(place, colours):
        if place == len(from_labels):
            back = {colour: label for label, colour in colours[1].items()}
            images = {label: back[colours[0][label]] for label in from_labels}
            image = generated([images[label] for label in facet] for facet in x)
            return images if image == y else None
        label = from_labels[place]
        for other in to_labels:
            if colours[1][other] == colours[0][label]:
                first, second = ({each: 2 * colour for each, colour in one.items()} for one in colours)
                first[label] += 1
                second[other] += 1
                finer = refined([first, second], [x, y])
                found = search(place + 1, finer) if finer is not None else None
                if found is not None:
                    return found
        return None

    start = refined([dict.fromkeys(from_labels, 0), dict.fromkeys(to_labels, 0)], [x, y])
    return search(0, start) if start is not None else None


def flip_lines(flips):
    return ["flip %s %s" % (text(a), text(b)) for a, b in flips]


def sphere(x, budget, seed):
    need_walk(x, 0, budget)
    _, flips, met = walk(x, budget, seed)
    if not met:
        return "undecided %d" % budget
    return "\n".join(["sphere %d" % len(flips), "certificate 1 sphere", "facets " + text(x), *flip_lines(flips), "end"])


def equivalent(x, y, budget, seed):
    need_pure(x, y)
    require(dim(x) >= 0 and dim(y) >= 0, "dim_range")
    require(dim(x) == dim(y), "dim_differs")
    need_budget(x, budget)
    need_budget(y, budget)
    first_goal, first, first_met = walk(x, budget, seed)
    second_goal, second, second_met = walk(y, budget, seed)
    images = least_bijection(first_goal, second_goal)
    if images is None:
        return "undecided %d" % (budget * ((not first_met) + (not second_met)))
    back = [(b, a) for a, b in reversed(second)]
    return "\n".join(["equivalent %d" % (len(first) + len(second)), "certificate 1 equivalent", "from " + text(x),
                      "to " + text(y), *flip_lines(first), "map " + text(sorted(images.items())), *flip_lines(back),
                      "end"])


def manifold(x, budget, seed):
    need_walk(x, 1, budget)
    require(len(vertices(x)) * budget <= LINKS_LIMIT, "budget")
    number, lines = 0, []
    for vertex in vertices(x):
        _, flips, met = walk(link(x, (vertex,)), budget, seed)
        if not met:
            return "undecided %d vertex %d" % (budget, vertex)
        number += len(flips)
        lines += ["link %d" % vertex, *flip_lines(flips)]
    return "\n".join(["manifold %d" % number, "certificate 1 manifold", "facets " + text(x), *lines, "end"])


# The commands: for each word its arguments and what it does. A letter stands for an argument: x the name of a complex,
# s a list for a simplex, S lists for simplices, p pairs, n a number, ? a number or nothing.

CONSTRUCTIONS = {  # what they give is the complex that the target gets
    ":=": ("S", generated),
    "copy": ("x", lambda x: x),
    "link": ("xs", link),
    "star": ("xs", star),
    "deletion": ("xs", deletion),
    "boundary": ("x", boundary),
    "skeleton": ("xn", skeleton),
    "bdsimplex": ("n", bdsimplex),
    "bdcross": ("n", bdcross),
    "cyclic": ("nn", cyclic),
    "stacked": ("nnn", stacked),
    "join": ("xx", join),
    "cone": ("x", lambda x: join(x, ((1,),))),
    "suspension": ("x", lambda x: join(x, ((1,), (2,)))),
    "sum": ("xsxs", connected_sum),
    "handle": ("xss", handle),
    "relabel": ("xp", relabel),
}
QUESTIONS = {  # what they give is the reply
    "show": ("S", lambda lists: "facets " + text(generated(lists))),
    "print": ("x", lambda x: "facets " + text(x)),
    "fvec": ("x", lambda x: "fvec " + text(f_vector(x))),
    "hvec": ("x", lambda x: "hvec " + text(h_vector(x))),
    "gvec": ("x", lambda x: "gvec " + text(g_vector(x))),
    "euler": ("x", lambda x: "euler %d" % euler(x)),
    "faces": ("xn", lambda x, k: "faces " + text(faces(x, k))),
    "degree": ("xs", lambda x, a: "degree %d" % len(around(x, a))),
    "betti": ("x", lambda x: "betti " + text(betti(x))),
    "components": ("x", lambda x: "components %d" % components(x)),
    "closed": ("x", lambda x: "closed " + ("yes" if closed(x) else "no")),
    "strong": ("x", lambda x: "strong " + ("yes" if strong(x) else "no")),
    "options": ("x?", lambda x, kind: "options " + text(options(x, kind))),
    "sphere": ("xnn", sphere),
    "equivalent": ("xxnn", equivalent),
    "manifold": ("xnn", manifold),
}
EDITS = {  # what they give is a reply, without its last number, and a complex, whose number of facets that is
    "flip": ("xss", flip),
    "add": ("xs", add),
    "drop": ("xs", drop),
    "collapse": ("xs", collapse),
    "reduce": ("xnn", reduce),
}
STEPS = {"undo": ("x", None), "redo": ("x", None)}
COMMANDS = {**QUESTIONS, **EDITS, **STEPS}


# The shell

class Held:
    """A complex with its past and its future: lists of a complex and the size of the change between it and the next."""

    def __init__(self, x):
        self.now, self.past, self.future = x, [], []


def size(steps):
    return sum(change for _, change in steps)


class Shell:
    """The complexes held, by name; `journal` is the size of all changes that can be undone or redone."""

    def __init__(self):
        self.held, self.journal = {}, 0

    def complex(self, name):
        return self.held[name].now

    def perform(self, command):
        """The reply to a command."""
        shape, function = (COMMANDS if command.target is None else CONSTRUCTIONS)[command.word]
        given = list(zip(shape, command.arguments))
        require(all(argument in self.held for letter, argument in given if letter == "x"), "no_name")
        if command.target is not None and command.target not in self.held:
            require(len(self.held) < NAMES_LIMIT, "names_full")
        for letter, argument in given:
            for labels in {"s": [argument], "S": argument}.get(letter, []):
                check_simplex(labels)
        values = [self.complex(argument) if letter == "x" else argument for letter, argument in given]
        if command.target is not None:
            return self.assign(command.target, function(*values))
        name = command.arguments[0]
        if command.word in EDITS:
            return self.edit(name, *function(*values))
        if command.word in STEPS:
            return self.step(name, command.word == "undo")
        return function(*values)

    def need_weight(self, name, x):
        """With x under the name, all complexes held have to be within the limit of weights."""
        others = sum(weight(held.now) for other, held in self.held.items() if other != name)
        require(others + weight(x) <= WEIGHT_LIMIT, "size_limit")

    def assign(self, name, x):
        self.need_weight(name, x)
        if name in self.held:
            self.journal -= size(self.held[name].past) + size(self.held[name].future)
        self.held[name] = Held(x)
        return "ok %d" % len(x)

    def edit(self, name, reply, x):
        held = self.held[name]
        self.need_weight(name, x)
        change = len(set(held.now) ^ set(x))
        journal = self.journal - size(held.future) + change
        require(journal <= JOURNAL_LIMIT, "journal_full")
        held.past.append((held.now, change))
        held.now, held.future, self.journal = x, [], journal
        return "%s %d" % (reply, len(x))

    def step(self, name, back):
        held = self.held[name]
        source, other = (held.past, held.future) if back else (held.future, held.past)
        require(source, "no_past" if back else "no_future")
        x, change = source[-1]
        self.need_weight(name, x)
        source.pop()
        other.append((held.now, change))
        held.now = x
        return "ok %d" % len(x)


def run(script):
    """The transcript of a script and the status of the run."""
    if len(script) > INPUT_LIMIT:
        return b"", 6
    shell, replies = Shell(), []
    *commands, rest = pieces(script)
    for piece in commands:
        if piece.strip(WHITE):
            try:
                replies.append(shell.perform(parse(piece)))
            except Syntax:
                replies.append("refused syntax")
            except Refused as refusal:
                replies.append("refused %s" % refusal)
    if rest.strip(WHITE):
        replies.append("refused unended")
    transcript = "".join("[%d] %s\n" % numbered for numbered in enumerate(replies, 1))
    return transcript.encode(), int(any(reply.startswith("refused ") for reply in replies))


if __name__ == "__main__":
    sys.setrecursionlimit(100000)
    answer, status = run(sys.stdin.buffer.read(INPUT_LIMIT + 1))
    sys.stdout.buffer.write(answer)
    sys.exit(status)
