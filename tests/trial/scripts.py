#!/usr/bin/env python3
"""Random scripts for the trial, many of them bad on purpose. `scripts.py SEED` writes the script of a seed."""
import random
import sys
from itertools import combinations

import model
from model import text

model.longest_walk = 2000  # compare.py passes over a script for which the model would have to walk farther

NAMES = ["X", "Y", "Z", "x", "show", "Wide", "copy", "a_1", "print", "end", "sum", "Q" * 32, "R" * 33]
COMPLEXES = [
    "[[1,2,5],[1,2,6],[1,3,4],[1,3,5],[1,4,6],[2,3,4],[2,3,5],[2,4,6]]",
    "[[1,2,3],[1,2,4],[1,3,5],[1,4,6],[1,5,6],[2,3,6],[2,4,5],[2,5,6],[3,4,5],[3,4,6]]",
    "[[1,2,3],[1,2,6],[1,3,7],[1,4,5],[1,4,6],[1,5,7],[2,3,5],[2,4,5],[2,4,7],[2,6,7],[3,4,6],[3,4,7],"
    "[3,5,6],[5,6,7]]",
    "[[1,2,3],[1,2,4],[1,3,4],[1,5,6],[1,5,7],[1,6,7],[2,3,4],[5,6,7]]",
    "[[1,2,4],[1,3,4],[2,3,4]]", "[[1,2,3],[2,3,4]]", "[[1,2,3],[3,4]]", "[[1,2,3],[4,5,6]]",
    "[[1,2],[1,3],[2,3]]", "[[1,2],[2,3],[3,4]]", "[[1,2],[3,4],[5]]", "[[999999,1000000]]",
    "[[1],[2],[3]]", "[[1],[2]]", "[[1]]", "[[1000000]]", "[[]]", "[]", "[[1,2,3,4,5,6,7,8,9,10,11,12]]",
]
ODD_NUMBERS = [
    "0", "1", "2", "3", "12", "13", "00", "01", "999999", "1000000", "1000001", "524286", "524287", "8388608",
    "4294967295", "4294967296", "4294967297", "999999999999999999", "1000000000000000000", "18446744073709551615",
    "-1", "1.5", "0x1", "1_0", "\u0663", "", "12 3",
]
FRAGMENTS = [
    b"", b" ", b"\t", b"\r\n", b"\n\n", b"\x0b", b"\x0c", b"\xc2\xa0", b"\x00", b"\x1a", b"\xff", b";", b"[", b"]",
    b",", b":=", b":", b"=", b"(", b"..", b"\\", b'"', b"-", b"+1", b"01", b"0", b"11", b"1000000", b"1000001", b" 1",
    b" 1 1", b" X", b" []", b"#", b"##\n", b"#\r", b"# c ; ] \n", b"#x\r\n", b"#\xff;\n",
]
SEPARATORS = [b";"] * 3 + [b";\n"] * 3 + [b"; ", b";\r\n", b" ;", b";;", b"; # note ; here\n", b";\n\n"]
STARTS = [b"\xef\xbb\xbf", b" ", b"\r\n", b";"]
RESTS = [b"print X", b" ", b"# end", b"#", b"\xff", b"X", b"\n\n", b"\x00", b":", b"#\n x"]

# Words in capitals stand for what the method of that name makes.
CONSTRUCTIONS = [
    *["LISTS"] * 8, *["relabel NAME PAIRS", "bdsimplex SMALL", "cyclic CYCLIC", "stacked SMALL SMALL SEED"] * 2,
    "copy NAME", "link NAME LIST", "star NAME LIST", "deletion NAME LIST", "boundary NAME", "skeleton NAME SMALL",
    "bdcross SMALL", "join NAME NAME", "cone NAME", "suspension NAME", "sum NAME LIST NAME LIST",
    "handle NAME LIST LIST",
]
QUESTIONS = [
    *["print NAME"] * 3, "show LISTS", "fvec NAME", "hvec NAME", "gvec NAME", "euler NAME", "faces NAME SMALL",
    "degree NAME LIST", "options NAME", "options NAME SMALL", "betti NAME", "components NAME", "closed NAME",
    "strong NAME",
]
ORDERS = QUESTIONS + [
    *["flip NAME FLIP"] * 5, *["undo NAME"] * 3, *["add NAME LIST", "collapse NAME LIST", "redo NAME"] * 2,
    *["reduce NAME BUDGET SEED", "sphere NAME BUDGET SEED", "manifold NAME BUDGET SEED"] * 2,
    "drop NAME LIST", "equivalent NAME NAME BUDGET SEED",
]


class Wild:
    """Makes commands without regard to what they would do."""

    def __init__(self, chosen):
        self.random, self.pick, self.names = chosen, chosen.choice, []

    def chance(self, probability):
        return self.random.random() < probability

    def shuffled(self, items):
        return self.random.sample(list(items), len(items))

    def new(self):
        return self.pick(NAMES[:6] if self.chance(0.85) else NAMES)

    def name(self):
        return self.pick(self.names if self.names and self.chance(0.95) else NAMES)

    def number(self, usual):
        return str(self.pick(usual) if self.chance(0.93) else self.pick(ODD_NUMBERS))

    def small(self):
        return self.number([0, 1, 1, 2, 2, 2, 3, 3, 4, 5, 12, 13])

    def budget(self):
        return self.number([0, 1, 2, 3, 5, 8, 10, 17, 20, 30])

    def seed(self):
        return self.number([0, 1, 2, 3, 7, 42, 123456789012345678, 10 ** 18 - 1])

    def cyclic(self):
        k = self.pick([0, 1, 2, 2, 3, 4, 5, 12, 13])
        return "%s %s" % (self.number([k]), self.number([k, k + 1, k + 2, k + 3, 8]))

    def label(self):
        return self.number([8, 9, 10, 20, 999999, 1000000] if self.chance(0.4) else range(1, 8))

    def list(self, size=None):
        size = self.pick([0, 1, 1, 2, 2, 2, 3, 3, 3, 3, 4, 4, 5]) if size is None else size
        if self.chance(0.01):
            return text(self.shuffled(range(1, self.pick([11, 12, 13, 14]) + 1)))
        if self.chance(0.1):
            return "[" + ",".join(self.label() for _ in range(size)) + "]"
        return text(self.random.sample(range(1, 8), size))

    def lists(self):
        if self.chance(0.5):
            return self.pick(COMPLEXES)
        size = self.pick([None, 1, 2, 3, 4])
        return "[" + ",".join(self.list(size) for _ in range(self.random.randint(0, 8))) + "]"

    def pairs(self):
        number = self.random.randint(0, 7)
        old, new = list(range(1, number + 1)), self.random.sample(range(1, 15), number)
        if number and self.chance(0.2):
            odd = [0, 1, 9, 999999, 1000000, 1000001, 2 ** 32 + 1]
            self.pick([old, new])[self.random.randrange(number)] = self.pick(odd)
        pairs = self.shuffled([text(pair) for pair in zip(old, new)])
        if pairs and self.chance(0.07):
            pairs[0] = self.pick(["[]", "[1]", "[1,2,3]", "[1,1]", "[0,1]"])
        return "[" + ",".join(pairs) + "]"

    def flip(self):
        if self.chance(0.1):
            return self.list() + " " + self.list()
        labels, cut = self.random.sample(range(1, 9), self.pick([3, 4, 4, 5])), self.pick([0, 1, 2, 2, 3, 3])
        first, second = labels[:cut], labels[cut:]
        if first and second and self.chance(0.1):
            second[0] = first[0]
        return text(first) + " " + text(second)

    def fill(self, template):
        return " ".join(getattr(self, word.lower())() if word.isupper() else word for word in template.split())

    def construction(self):
        name, template = self.new(), self.pick(CONSTRUCTIONS)
        made = self.fill(template)
        if template == "LISTS":
            self.names.append(name)
        return "%s := %s" % (name, made)

    def command(self):
        if not self.names or self.chance(0.33):
            return self.construction()
        return self.fill(self.pick(ORDERS))

    def spoilt(self, command):
        """The bytes of a command, altered in one to three places."""
        altered = bytearray(command)
        for _ in range(self.pick([1, 1, 1, 2, 3])):
            at, way = self.random.randrange(len(altered) + 1), self.random.randrange(7)
            if way == 0:
                del altered[at:at + self.random.randint(1, 6)]
            elif way == 1 and at < len(altered):
                altered[at] ^= 1 << self.random.randrange(8)
            elif way == 2:
                times = self.random.randint(1, 3)
                altered = altered.replace(self.pick([b" ", b"1", b","]), self.pick(FRAGMENTS), times)
            elif way == 3:
                altered = bytearray(b" ").join(self.shuffled(altered.split(b" ")))
            elif way == 4:
                altered = altered.swapcase()
            else:
                altered[at:at] = self.pick(FRAGMENTS)
        return bytes(altered)


def wild(chosen):
    """Commands made without regard to what they would do, and some of them spoilt, as may be the start and the end."""
    maker = Wild(chosen)
    spoilt, script = maker.pick([0, 0.03, 0.15, 0.5]), b""
    for _ in range(maker.pick([0, 1, 2, 3, 5, 8, 12, 20, 30])):
        command = maker.command().encode()
        if maker.chance(0.05):
            command = command.replace(b" ", maker.pick([b"  ", b"\t", b"\r\n", b" # x;y\n "]))
        if maker.chance(0.05):
            command = command.replace(b",", maker.pick([b" , ", b",\n", b",#,\n"]))
        script += maker.spoilt(command) if maker.chance(spoilt) else command
        script += maker.pick(SEPARATORS)
    if maker.chance(0.08):
        script += maker.pick(RESTS)
    elif maker.chance(0.05):
        script = script[:-maker.random.randint(1, 5)]
    elif maker.chance(0.04):
        script = maker.pick(STARTS) + script
    return script


class Near(Wild):
    """Makes commands along the complexes held, most of them near the border of what is allowed."""
    WEIGHTS = {"a_flip": 14, "an_add": 4, "a_drop": 4, "a_collapse": 6, "a_step": 9, "a_walk": 7, "an_equivalent": 4,
               "a_question": 12, "a_part": 10, "a_sum": 4, "a_handle": 4, "a_relabel": 4, "command": 2}

    def __init__(self, chosen):
        super().__init__(chosen)
        self.shell = model.Shell()

    def near_command(self):
        self.names = list(self.shell.held)
        if not self.names or self.chance(0.12):
            seed = self.random.randrange(99)
            return "%s := %s" % (self.new(), self.pick(COMPLEXES + [
                self.lists(), "stacked 2 4 %d" % seed, "stacked 3 3 %d" % seed, "cyclic 2 6", "cyclic 3 6",
                "cyclic 4 7", "bdcross 2", "bdcross 3", "bdsimplex 3", "bdsimplex 4"]))
        way = self.random.choices(list(self.WEIGHTS), list(self.WEIGHTS.values()))[0]
        return getattr(self, way)()

    def held(self):
        """A name that is held, and its complex."""
        name = self.pick(self.names)
        return name, self.shell.complex(name)

    def like(self, wanted):
        """The same, mostly with a complex that is as wanted."""
        names = [name for name in self.names if wanted(self.shell.complex(name))]
        name = self.pick(names if names and self.chance(0.93) else self.names)
        return name, self.shell.complex(name)

    def pure(self):
        return self.like(lambda x: model.is_pure(x) and x != ((),))

    def pure_as(self, other):
        return self.like(lambda x: model.is_pure(x) and model.is_pure(other) and len(x[0]) == len(other[0]))

    def some(self, simplices):
        return self.pick(simplices) if simplices else ()

    def face(self, x, size=None):
        facet = self.some(x)
        size = self.random.randint(0, len(facet)) if size is None else min(size, len(facet))
        return self.random.sample(facet, size)

    def mixed(self, labels):
        """The list of some labels in any order; now and then it is no simplex."""
        labels = self.shuffled(labels)
        if labels and self.chance(0.02):
            labels[-1] = self.pick([labels[0], 0, 1000001])
        return text(labels)

    def a_flip(self):
        name, x = self.pure()
        a, b = self.flip_near(x) if x and x != ((),) else ([1], [2])
        return "flip %s %s %s" % (name, self.mixed(a), self.mixed(b))

    def flip_near(self, x):
        if model.is_pure(x) and self.chance(0.35):
            a, b = self.pick(model.options(x, self.random.randint(0, model.dim(x))) or model.options(x, 0))
            if len(b) == 1 and self.chance(0.5):
                b = (self.pick([9, 10, 11, 12, 999999, 1000000]),)
            return (b, a) if self.chance(0.15) else (a, b)
        a = self.face(x, self.random.randint(1, model.dim(x) + 1))
        around = [label for label in model.vertices(model.containing(x, a)) if label not in a]
        size = model.dim(x) + 2 - len(a)
        if len(around) >= size and self.chance(0.6):
            b = self.random.sample(around, size)
        else:
            b = self.random.sample(range(1, 9), min(8, max(0, size + self.pick([0, 0, 0, 0, 1, -1]))))
        if a and b and self.chance(0.05):
            b = [a[0]] + [label for label in b[1:] if label != a[0]]
        return a, b

    def an_add(self):
        name, x = self.held()
        if self.chance(0.5):
            labels = set(self.face(x)) | {self.random.randint(1, 9)}
        else:
            pool = model.vertices(x) or [1, 2]
            labels = self.random.sample(pool, min(len(pool), self.random.randint(1, 4)))
        return "add %s %s" % (name, self.mixed(labels))

    def a_drop(self):
        name, x = self.held()
        return "drop %s %s" % (name, self.mixed(self.some(x) if self.chance(0.8) else self.face(x)))

    def a_collapse(self):
        name, x = self.held()
        free = [face for facet in x for size in range(1, len(facet)) for face in combinations(facet, size)
                if len(model.containing(x, face)) == 1]
        if free and self.chance(0.7):
            ridges = [face for face in free if len(model.containing(x, face)[0]) == len(face) + 1]
            face = self.pick(ridges if ridges and self.chance(0.8) else free)
        else:
            face = self.face(x)
        return "collapse %s %s" % (name, self.mixed(face))

    def a_step(self):
        word, name = self.pick(["undo", "redo"]), self.pick(self.names)
        able = [name for name, held in self.shell.held.items() if (held.past if word == "undo" else held.future)]
        return "%s %s" % (word, self.pick(able) if able and self.chance(0.85) else name)

    def seed(self):
        return str(self.pick([0, 1, 2, 3, 4, 5, 7, 10 ** 18 - 1, self.random.randrange(10 ** 18)]))

    def a_walk(self):
        budget = self.pick([0, 1, 2, 3, 4, 6, 9, 15, 17, 20, 33, 40, 60])
        return "%s %s %d %s" % (self.pick(["reduce", "sphere", "manifold"]), self.pure()[0], budget, self.seed())

    def an_equivalent(self):
        name, x = self.pure()
        budget = self.pick([0, 0, 0, 1, 2, 5, 15, 20])
        return "equivalent %s %s %d %s" % (name, self.pure_as(x)[0], budget, self.seed())

    def a_question(self):
        name, x = self.held()
        if self.chance(0.1):
            return "degree %s %s" % (name, self.mixed(self.face(x)))
        return self.fill(self.pick(QUESTIONS))

    def a_part(self):
        new, (name, x) = self.new(), self.held()
        word = self.pick(["copy", "link", "link", "star", "deletion", "deletion", "boundary", "skeleton", "join",
                          "cone", "suspension"])
        made = "%s := %s %s" % (new, word, name)
        if word in ("link", "star", "deletion"):
            return made + " " + self.mixed(self.face(x))
        if word == "skeleton":
            return made + " %d" % self.random.randint(0, 4)
        return made + " " + self.pick(self.names) if word == "join" else made

    def a_sum(self):
        new, (name, x) = self.new(), self.pure()
        other, y = self.pure_as(x)
        return "%s := sum %s %s %s %s" % (new, name, self.mixed(self.some(x)), other, self.mixed(self.some(y)))

    def a_handle(self):
        new, (name, x) = self.new(), self.pure()
        first = self.some(x)
        apart = [facet for facet in x if not set(facet) & set(first)]
        second = self.some(apart if apart and self.chance(0.9) else x)
        return "%s := handle %s %s %s" % (new, name, self.mixed(first), self.mixed(second))

    def a_relabel(self):
        new, (name, x) = self.new(), self.held()
        old = model.vertices(x)
        images = self.random.sample(range(1, len(old) + 12), len(old))
        if images and self.chance(0.15):
            images[0] = self.pick([0, 1, 1000000, 1000001, 2 ** 32 + 1, 10 ** 18 - 1])
        pairs = self.shuffled([*zip(old, images)])
        if self.chance(0.1):
            pairs = pairs[1:]
        return "%s := relabel %s %s" % (new, name, text(pairs))

    def follow(self, commands):
        """Does the commands of a text on the generator's own shell, where they can be done."""
        for piece in model.pieces(commands)[:-1]:
            try:
                self.shell.perform(model.parse(piece))
            except (model.Syntax, model.Refused, model.TooLong):
                pass


def near(chosen):
    """Commands along the complexes held, most of them near the border of what is allowed. Complexes are kept small."""
    maker = Near(chosen)
    spoilt, script = maker.pick([0, 0, 0, 0.05]), b""
    for _ in range(maker.pick([5, 10, 20, 40])):
        command = maker.near_command().encode()
        command = (maker.spoilt(command) if maker.chance(spoilt) else command) + b";"
        maker.follow(command)
        for name, held in maker.shell.held.items():
            if len(held.now) > 60 or held.now and model.dim(held.now) > 5:
                small = ("%s := [[1,2],[1,3],[2,3]];" % name).encode()
                maker.follow(small)
                command += small
        script += command + maker.pick([b"\n", b"\n", b" "])
    return script


def walks(chosen):
    """Longer walks, in dimensions 0 to 7."""
    pick, number = chosen.choice, chosen.randint
    lines = ["X := %s;" % pick([
        "cyclic 2 %d" % number(3, 14), "cyclic 3 %d" % number(4, 10), "cyclic 4 %d" % number(5, 9),
        "cyclic 5 %d" % number(6, 9), "cyclic 6 %d" % number(7, 9), "bdcross %d" % number(1, 5),
        "stacked %d %d %d" % (number(1, 5), number(0, 12), chosen.randrange(10 ** 18)), "bdsimplex %d" % number(1, 6)])]
    if chosen.random() < 0.4:
        lines.append(pick(["X := suspension X;", "X := cone X;", "Y := cyclic 2 4; X := join X Y;",
                           "Y := bdsimplex %d; X := join X Y;" % number(1, 2)]))
    if chosen.random() < 0.5:
        lines.append(pick(["X := boundary X;", "X := link X [1];", "X := deletion X [1];",
                           "X := skeleton X %d;" % number(0, 3), "reduce X %d %d;" % (number(1, 40), number(0, 99))]))
    for _ in range(number(1, 4)):
        command = pick(["sphere X %d %d;", "manifold X %d %d;", "reduce X %d %d; print X; undo X; redo X;",
                        "Y := copy X; reduce Y 7 3; equivalent X Y %d %d;",
                        "Y := copy X; reduce Y 7 3; equivalent Y X %d %d;"])
        budget, seed = pick([0, 1, 5, 20, 45, 90, 150]), pick([0, 1, 2, 3, 10 ** 18 - 1, chosen.randrange(10 ** 18)])
        lines.append(command % (budget, seed))
        if chosen.random() < 0.3:
            lines.append("options X; options X %d; gvec X; undo X;" % number(0, 4))
    return "\n".join(lines + [""]).encode()


def bijections(chosen):
    """The least bijection between complexes that differ by labels alone, or in one facet, many of them symmetric."""
    size = chosen.randint(2, 9)
    everything = list(combinations(range(1, size + 1), chosen.randint(1, min(4, size))))
    x = chosen.sample(everything, min(chosen.randint(1, 12), len(everything)))
    if chosen.random() < 0.4:
        turned = [[(label + turn) % size + 1 for label in facet] for facet in x[:2] for turn in range(size)]
        x = list(model.generated(turned))
    images = chosen.sample(range(1, chosen.choice([size + 1, 30, 1000])), size)
    y = [[images[label - 1] for label in facet] for facet in x]
    if chosen.random() < 0.3:
        y[chosen.randrange(len(y))] = [images[label - 1] for label in chosen.choice(everything)]
    if chosen.random() < 0.3:
        x = x + [tuple(label + size for label in facet) for facet in x]
        y = y + [[label + max(images) for label in facet] for facet in y]
    chosen.shuffle(y)
    last = chosen.choice([1, 2, 3, 10]), chosen.randrange(50)
    return ("X := %s; Y := %s; equivalent X Y 0 1; equivalent Y X 0 2; closed X; strong X; equivalent X X 0 0;\n"
            "equivalent X Y %d %d;\n" % (text(x), text(y), *last)).encode()


def limits(chosen):
    """Sizes at a limit, and one beyond."""
    what = chosen.choice(["budget", "weight", "labels", "length", "number"] * 4 + ["names"])
    more = chosen.randint(0, 1)
    if what == "budget":  # on a simplex boundary, where each walk ends at once
        d = chosen.randint(0, 11)
        greatest = 1000000 - (d + 2)
        if d > 0:
            greatest = min(greatest, (8388608 // 2 ** (d + 1) - (d + 2)) // d)
        budget, links = greatest + more, min(greatest, 4194304 // (d + 2)) + more
        commands = "X := bdsimplex %d; sphere X %d 1; reduce X %d 1; equivalent X X %d 1; manifold X %d 1;" % (
            d + 1, budget, budget, budget, links)
    elif what == "weight":  # A and B together are as heavy as may be
        facet = [2 * i + chosen.randint(1, 2) for i in range(11)]
        commands = ("A := bdcross 11; B := bdcross 11; C := []; C := [[]]; drop A %s; C := [[]]; undo A; C := [];"
                    "undo A; redo A;" % text(facet))
    elif what == "names":
        number = 255 + 2 * more
        commands = "".join("N%d := [[%d]];" % (i, i + 1) for i in range(number))
        commands += "N0 := []; M := copy N1; M := copy M; L := copy N1; print N%d;" % (number - 1)
    elif what == "labels":
        top = 1000000 - chosen.randint(0, 2)
        commands = ("X := bdsimplex 2; X := relabel X [[3,%d],[1,%d],[2,7]]; Y := cone X; Z := suspension X;"
                    "options X 0; print Z; S := sum X [7,%d] X [7,%d];" % (top, top - 1, top, top))
    elif what == "length":
        size = chosen.randint(1, 11)
        commands = "A := bdsimplex %d; B := bdsimplex %d; C := join A B; C := cone C; fvec C;" % (
            size, 12 - size + more)
    else:
        commands = "P := cyclic 2 %d; betti P; P := []; S := cyclic 12 %d; S := stacked %d 0 1;" % (
            16384 + more, 12 + more, 11 + more)
    return commands.replace(";", ";\n").encode()


KINDS = [wild, near, wild, near, walks, bijections, limits]


def kind(seed):
    return KINDS[seed % len(KINDS)]


def script(seed):
    """The script of a seed, as bytes."""
    return kind(seed)(random.Random("script %d" % seed))


if __name__ == "__main__":
    sys.stdout.buffer.write(script(int(sys.argv[1])))
