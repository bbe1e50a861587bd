#!/usr/bin/env python3
"""Each command of a script beside its reply, with the line on which it begins, and hints where it was refused.

    tools/annotate.py SCRIPT [TRANSCRIPT]

SCRIPT is a file, or - for standard input. TRANSCRIPT is what `simp run` wrote for it; without it the program is run. The lines of a
certificate are counted and not shown. The hints are guesses of this tool, made from the text alone; the manual has the rules.

Status 0: nothing was refused; 1: something was; 2: wrong words, or the program or a file is missing.
"""
import difflib
import os
import re
import subprocess
import sys

HERE = os.path.dirname(os.path.dirname(os.path.abspath(__file__)))

MAKERS = {
    "copy": "X", "link": "X LIST", "star": "X LIST", "deletion": "X LIST", "boundary": "X", "skeleton": "X K", "bdsimplex": "D",
    "bdcross": "D", "cyclic": "K N", "stacked": "D N SEED", "join": "X Y", "cone": "X", "suspension": "X",
    "sum": "X LIST Y LIST", "handle": "X LIST LIST", "relabel": "X LISTS",
}
VERBS = {
    "show": "LISTS", "print": "X", "fvec": "X", "hvec": "X", "gvec": "X", "euler": "X", "faces": "X K", "degree": "X LIST",
    "options": "X or X K", "betti": "X", "components": "X", "closed": "X", "strong": "X", "flip": "X LIST LIST", "add": "X LIST",
    "drop": "X LIST", "collapse": "X LIST", "reduce": "X B SEED", "undo": "X", "redo": "X", "sphere": "X B SEED",
    "equivalent": "X Y B SEED", "manifold": "X B SEED",
}
HINTS = {
    "no_name": "no complex has this name: was its assignment refused?",
    "names_full": "256 names are held: use one of them again",
    "dim_limit": "a simplex has at most 12 labels",
    "label_twice": "a label stands twice in a list",
    "void": "the complex has no facet, maybe since its assignment was refused",
    "not_pure": "the facets have different numbers of labels",
    "flip_present": "the set that would come is a face already",
    "flip_star": "the facets that contain A are not the sets A and B less a label of B",
    "flip_size": "A and B have to have d + 2 labels together, each at least one",
    "not_face": "the set is no face",
    "not_facet": "the set is no facet",
    "no_past": "there is nothing to undo: an assignment begins anew",
    "no_future": "there is nothing to redo",
    "size_limit": "the weights of all names, facets times 2^(d+1), would be above 8,388,608: assign [] to a name to free it",
    "journal_full": "past and future are full: X := copy X forgets them",
    "rank_limit": "more than 16,384 faces of one dimension",
    "dim_differs": "the two complexes have different dimensions",
    "dim_range": "the dimension is too small for it",
}
NO_TOKEN = re.compile(r"[\"'.$%&*+/?!|\\^~`@-]")


def pieces(text):
    """The pieces between the `;` outside comments: text without comments, the place where its first token stands, whether `;` ends it."""
    piece, start, place = [], None, 0
    while place < len(text):
        sign = text[place]
        if sign == "#":
            end = text.find("\n", place)
            place = len(text) if end < 0 else end
            continue
        if sign == ";":
            yield "".join(piece), start, True
            piece, start = [], None
        else:
            if start is None and sign not in " \t\r\n":
                start = place
            piece.append(sign)
        place += 1
    yield "".join(piece), start, False


def replies(transcript):
    """By its number each reply, and how many lines stand behind it."""
    found, last = {}, None
    for line in transcript.splitlines():
        match = re.match(r"\[(\d+)\] (.*)$", line)
        if match:
            last = int(match.group(1))
            found[last] = [match.group(2), 0]
        elif last is not None:
            found[last][1] += 1
    return found


def at_limit(facets, size, vertices, factor=1):
    """The greatest budget of a walk: (facets + d B) 2^(d+1) at most 8,388,608 and vertices + B at most 1,000,000."""
    dim = size - 1
    room = 8_388_608 // 2 ** size - facets
    budget = min(room // dim if dim > 0 else 10 ** 9, 1_000_000 - vertices)
    return max(budget // factor, 0)


def budget_hint(piece, lists):
    words = piece.split()
    name = words[1] if len(words) > 1 else None
    if name not in lists:
        return "the budget is too great for this complex: (facets + d B) 2^(d+1) is at most 8,388,608"
    facets = lists[name]
    size = max(map(len, facets), default=0)
    vertices = len({x for facet in facets for x in facet})
    most = at_limit(len(facets), size, vertices)
    if words[0] == "manifold":
        return f"vertices times the budget is at most 4,194,304: at most {4_194_304 // max(vertices, 1)} here, and what each link allows"
    return f"at most {most} here: (facets + d B) 2^(d+1) is at most 8,388,608"


def syntax_hint(piece, text):
    """What may be wrong with a piece that is no command."""
    if "\ufeff" in piece:
        return "a byte order mark stands before it: save the file as UTF-8 without one"
    odd = next((sign for sign in piece if ord(sign) > 126), None)
    if odd == "\u00a0":
        return "a no-break space stands in it: it looks like a blank and is none"
    if odd:
        return f"the sign {odd!r} stands in it, which begins no token"
    if re.search(r"\.\.", piece):
        return "ranges are not read: write each label"
    if re.search(r"[({<]", piece):
        return "simplices and lists stand in [ ]"
    if re.search(r"-\d", piece):
        return "numbers have no sign"
    if re.search(r"\b0\d", piece):
        return "numbers have no leading zero"
    if re.search(r"\d{19}", piece):
        return "numbers have at most 18 digits"
    if re.search(r"(?<!:)=", piece):
        return "an assignment is NAME := .."
    sign = NO_TOKEN.search(piece)
    if sign:
        return f"the sign {sign.group()} begins no token"
    tokens = re.findall(r":=|\w+|[\[\],]", piece)
    later = next((it for it in tokens[1:] if it in VERBS and it not in MAKERS), None)
    named = re.search(r"\s(\w+)\s*:=", piece)
    if len(tokens) > 2 and named and tokens[1] != ":=":
        return f"an assignment to {named.group(1)} inside: is a ; missing before it?"
    if len(tokens) > 2 and later and not (len(tokens) == 2 and tokens[0] in VERBS):
        return f"`{later}` inside: is a ; missing before it?"
    if len(tokens) > 1 and tokens[1] == ":=":
        maker = tokens[2] if len(tokens) > 2 else ""
        if maker in MAKERS:
            return f"it is written NAME := {maker} {MAKERS[maker]}"
        if maker.startswith("["):
            return "a list of facets is [[1,2],[1,3],..]: are all brackets closed, and are there commas between the labels?"
        near = difflib.get_close_matches(maker, MAKERS, 1)
        return f"no construction `{maker}`" + (f": `{near[0]}`?" if near else "; a name is copied by NAME := copy X")
    verb = tokens[0] if tokens else ""
    if verb == "show":
        return "show takes a list of facets; a name is shown by print X"
    if len(tokens) > 2 and verb in VERBS and tokens[1] in MAKERS:
        return f"give the construction a name first: L := {tokens[1]} ..; {verb} L"
    if verb in MAKERS:
        return f"a construction is given a name: NAME := {verb} {MAKERS[verb]}"
    if verb in VERBS:
        return f"it is written {verb} {VERBS[verb]}"
    near = difflib.get_close_matches(verb, list(VERBS), 1)
    return f"no command `{verb}`" + (f": `{near[0]}`?" if near else "")


def hint(reply, piece, text, lists):
    word = reply.split()[1] if len(reply.split()) > 1 else ""
    if word == "syntax":
        return syntax_hint(piece, text)
    if word == "unended":
        return "the last command lacks its ;"
    if word == "label_range":
        return "labels begin at 1" if re.search(r"\b0\b", piece) else "labels are at most 1,000,000"
    if word == "budget":
        return budget_hint(piece, lists)
    return HINTS.get(word, "")


def shortened(piece, width):
    piece = " ".join(piece.split())
    return piece if len(piece) <= width else piece[:width - 3] + "..."


def main(words):
    if len(words) not in (1, 2) or words[0].startswith("--"):
        print("usage: annotate.py SCRIPT [TRANSCRIPT]", file=sys.stderr)
        return 2
    try:
        raw = sys.stdin.buffer.read() if words[0] == "-" else open(words[0], "rb").read()
        if len(words) == 2:
            transcript = open(words[1], "rb").read()
        else:
            program = os.path.join(HERE, "simp")
            transcript = subprocess.run([program, "run"], input=raw, stdout=subprocess.PIPE, check=False).stdout
    except OSError as fault:
        print(f"annotate: {fault}", file=sys.stderr)
        return 2
    text = raw.decode("utf-8", "replace")
    answers = replies(transcript.decode("ascii", "replace"))
    number, refused, lists = 0, 0, {}
    for piece, start, ended in pieces(text):
        if start is None:
            continue
        number += 1
        reply, behind = answers.get(number, ["(no reply)", 0])
        line = text.count("\n", 0, start) + 1
        shown = f"[{number}] line {line}: {shortened(piece, 50)}"
        tail = f" (and {behind} lines)" if behind else ""
        if reply.startswith("refused"):
            refused += 1
            print(f"{shown:<64} !! {reply:<22} {hint(reply, piece, text, lists)}".rstrip())
        else:
            print(f"{shown:<64}    {shortened(reply, 60)}{tail}")
        made = re.match(r"\s*(\w+)\s*:=\s*(\[.*)", piece, re.DOTALL)
        other = re.match(r"\s*(\w+)\s*:=|\s*(?:flip|add|drop|collapse|reduce|undo|redo)\s+(\w+)", piece)
        if made and reply.startswith("ok"):
            rows = [[int(x) for x in re.findall(r"\d+", row)] for row in re.findall(r"\[([^\[\]]*)\]", made.group(2))]
            lists[made.group(1)] = [row for row in rows if row]
        elif other and reply.startswith(("ok", "reduced")):
            lists.pop(other.group(1) or other.group(2), None)
    if refused:
        print(f"{refused} of {number} commands refused", file=sys.stderr)
    return 1 if refused else 0


if __name__ == "__main__":
    sys.exit(main(sys.argv[1:]))
