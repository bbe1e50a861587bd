#!/usr/bin/env python3
"""The tools of tools/: what they read and write, and what they refuse. Those that ask the program are tried where it is built.

Python 3.8 or later, and no packages. Status 0 where all holds.
"""
import itertools
import json
import os
import random
import re
import signal
import subprocess
import sys
import tempfile
import time

HERE = os.path.dirname(os.path.dirname(os.path.abspath(__file__)))
TOOLS = os.path.join(HERE, "tools")
sys.path.insert(0, TOOLS)
import facets  # noqa: E402
import simp  # noqa: E402

PROGRAM = os.environ.get("SIMP") or os.path.join(HERE, "crates", "simp_program", "out", "simp_program")
TRIANGULATIONS = ["barnette_sphere", "complex_projective_plane", "dunce_hat", "k3_surface", "klein_bottle", "poincare_sphere",
                  "real_projective_plane", "real_projective_space", "rudin_ball", "torus"]
checked = failed = 0


def holds(what, truth, more=""):
    global checked, failed
    checked += 1
    if not truth:
        failed += 1
        print(f"tools: not so: {what} {more}")


def tool(name, *words, given="", env=None):
    done = subprocess.run([sys.executable, os.path.join(TOOLS, name), *words], input=given.encode("utf-8"), capture_output=True,
                          env={**os.environ, **(env or {})}, check=False)
    return done.returncode, done.stdout.decode("utf-8"), done.stderr.decode("utf-8")


def triangulation(name):
    with open(os.path.join(HERE, "examples", name + ".simp"), encoding="utf-8") as file:
        text = re.sub(r"#[^\n]*", "", file.read())
    return json.loads(re.search(r"(?:show|:=)\s*(\[\s*\[.*?\]\s*\])\s*;", text, re.DOTALL).group(1))


def as_set(rows):
    return {tuple(sorted(row)) for row in rows}


# ---- lists of other systems
def notations():
    for name in TRIANGULATIONS:
        rows = triangulation(name)
        labels = sorted(set(itertools.chain.from_iterable(rows)))
        dense = as_set([[labels.index(x) + 1 for x in row] for row in rows])
        for system in ("simp", "sage", "gap", "polymake", "macaulay2", "json", "lines"):
            text = facets.spelled("K", rows, system)
            _, out, _ = tool("facets.py", given=text)
            back = json.loads(out.split(":=")[1].strip().rstrip(";"))
            wanted = dense if system in ("polymake", "macaulay2") else as_set(rows)
            holds(f"{name} comes back from {system}", as_set(back) == wanted)
        _, out, _ = tool("facets.py", "--to", "lines", given="[7] facets " + json.dumps(rows))
        holds(f"{name} as rows from a reply", as_set([map(int, line.split()) for line in out.splitlines()]) == as_set(rows))


SPHERE = as_set([[1, 2, 3], [1, 2, 4], [1, 3, 4], [2, 3, 4]])
READ = {
    "Sage, with its vertices": "Simplicial complex with vertex set (0, 1, 2, 3) and facets {(0, 1, 2), (0, 1, 3), (0, 2, 3), (1, 2, 3)}\n",
    "Sage's set of facets": "{(0, 1, 2), (0, 1, 3), (0, 2, 3), (1, 2, 3)}",
    "words for labels": "{('a', 'b', 'c'), ('a', 'b', 'd'), ('a', 'c', 'd'), ('b', 'c', 'd')}",
    "GAP with ranges": "SCFromFacets([ [ 1 .. 3 ], [ 1, 2, 4 ], [ 1, 3, 4 ], [ 2 .. 4 ] ]);",
    "GAP's own print": "[ [ 1, 2, 3 ], [ 1, 2, 4 ],\n  [ 1, 3, 4 ], [ 2, 3, 4 ] ]\n",
    "HAP": "K:=MaximalSimplicesToSimplicialComplex([[1,2,3],[1,2,4],[1,3,4],[2,3,4]]);;",
    "polymake's rows": "FACETS\n{0 1 2}\n{0 1 3}\n{0 2 3}\n{1 2 3}\n\n",
    "polymake's call": "$p = new topaz::SimplicialComplex(INPUT_FACES=>[[0,1,2],[0,1,3],[0,2,3],[1,2,3]]);",
    "polymake's file": json.dumps({"_type": "topaz::SimplicialComplex", "FACETS": [[0, 1, 2], [0, 1, 3], [0, 2, 3], [1, 2, 3], {"cols": 4}]}),
    "a list of Lutz": "manifold_lex_d2_n4_#1=[[1,2,3],[1,2,4],\n[1,3,4],[2,3,4]]\n",
    "Macaulay2's print": "o2 = simplicialComplex | bcd acd abd abc |\n",
    "Macaulay2's input": "simplicialComplex {x_1*x_2*x_3, x_1*x_2*x_4, x_1*x_3*x_4, x_2*x_3*x_4}",
    "rows with blanks": "1 2 3\n1 2 4\n# a comment\n1 3 4\n2 3 4\n",
    "rows with commas": "1,2,3\r\n1,2,4\r\n1,3,4\r\n2,3,4\r\n",
    "a byte order mark and no-break spaces": "\ufeff[[1,\u00a02,3],[1,2,4],[1,3,4],[2,3,4]]",
    "a reply of simp": "[2] facets [[1,2,3],[1,2,4],[1,3,4],[2,3,4]]\n[3] fvec [4,6,4]\n".replace("[3] fvec [4,6,4]\n", ""),
    "labels above the limit": "[[1000001,1000002,1000003],[1000001,1000002,1000004],[1000001,1000003,1000004],[1000002,1000003,1000004]]",
    "labels below 0": "-3 -2 -1\n-3 -2 5\n-3 -1 5\n-2 -1 5\n",
}
REFUSED = [
    ("", "no facet list"), ("\n\n", "no facet list"), ("# nothing\n", "no facet list"), ("[[1,2,3],[1,2", "nothing closes"), ("[[1,2]", "nothing closes"),
    ("[[1,2],[2,3]]]", "closes nothing"), ("[[1,2),[2,3]]", "closes nothing"), ("{[1,2],[2,3)}", "closes nothing"), ("[[1,1,2]]", "twice"),
    ("[[1,2],[3,4,3]]", "twice"), ("1 2 2\n", "twice"), ("1 2 3\n4 5 4\n", "twice"), ("[[1,2,3,4,5,6,7,8,9,10,11,12,13]]", "13 labels"),
    ("1 2 3 4 5 6 7 8 9 10 11 12 13\n", "13 labels"), ("[1,2,[3,4]]", "brackets"), ("[] []", "a list of empty lists"), ("[[],[]]", "empty lists"),
    ("1: 2 3\n", ": in a row"), ("1 2 | 3\n", "| in a row"), ("a+b\n", "+ in a row"), ("1..3\n", ".. in a row"), ("f(x)\n", "between rows"),
    ("0: 1 (012), 2 (013)\n1: 0 (012), boundary\n", "between rows"), (" Tet  |  face 012   face 013\n 0 | 1 (012) 1 (013)\n", "between rows"),
    ("1 2 a\n", "numbers and words"), ("hello\n1 2\n", "numbers and words"), ("[[1,2],[1;?3]]", "? "), ("[[1/2,3]]", "/ "), ("[[1,2],[3*4]]", "* "),
    ("[[1.5,2]]", ". "), ("[[1,2]?,[3,4]]", "? in a list"), ("simplicialComplex | ab c+d |", "no product"), ("simplicialComplex | 1 2 |", "no product"),
    ("{\"FACETS\": 3}", "no list of lists"), ("{\"FACETS\": [1,2]}", "no list of lists"), ("{\"FACETS\": [[1,1]]}", "twice"),
    ("{\"FACETS\": []}", "no list of lists"), ("(1,2)(2,3) and more", "between rows"), ("<1,2>", "in a row"), ("1 2\n3 4;\n5 & 6\n", "& in a row"),
    ("%%% 1 2\n", "% in a row"), ("[1,2", "nothing closes"), ("]", "in a row"), (")", "in a row"), ("{1,2}}", "closes nothing"), ("[[1,2],[2,'x]]", "among the labels"),
    ("[[1,2],[2,3]", "nothing closes"), ("1 2 3 # 4\n1 2 2 # x\n", "twice"), ("\\begin{matrix}", "between rows"), ("[ { 1 : 2 } , 3 ]", "brackets"),
]


def readings():
    for what, text in READ.items():
        status, out, _ = tool("facets.py", given=text)
        rows = json.loads(out.split(":=")[1].strip().rstrip(";")) if status == 0 else []
        holds(f"{what} is read", as_set(rows) == SPHERE, out)
    for text, why in REFUSED:
        status, out, err = tool("facets.py", given=text)
        holds(f"{text!r} is refused with {why!r}", status == 1 and not out and why in err, f"{status} {out}{err}")
    status, out, err = tool("facets.py", given="{(0, 1), (0, 2), (1, 2)}")
    holds("a renaming is said", "0->1 1->2 2->3" in err, err)
    status, out, err = tool("facets.py", "--zero-based", given="[[1,2],[2,3]]")
    holds("--zero-based adds one", out == "X := [[2,3],[3,4]];\n", out)
    status, out, err = tool("facets.py", given="A=[[1,2]]\nB=[[2,3]]\nA=[[3,4]]\n")
    holds("several lists have their names", out == "A := [[1,2]];\nB := [[2,3]];\nA_2 := [[3,4]];\n", out)
    status, out, err = tool("facets.py", "--subdivide", "2", given="[[1,2,3]]")
    rows = json.loads(out.split(":=")[1].strip().rstrip(";"))
    holds("the second subdivision of a triangle has 36 triangles and 25 vertices", len(rows) == 36 and len(set(sum(rows, []))) == 25)


# ---- scripts beside their replies
MISTAKES = [
    ("X = [[1,2]]", "syntax", "NAME := .."), ("X := [[0,1]]", "label_range", "begin at 1"), ("X := [[1..3]]", "syntax", "ranges"),
    ("X := {{1,2,3}}", "syntax", "[ ]"), ("X := [(1,2,3)]", "syntax", "[ ]"), ("homology X", "syntax", "no command `homology`"),
    ("sphere X 1000", "syntax", "sphere X B SEED"), ("sphere 1000 X 7", "syntax", "sphere X B SEED"), ("fvec(X)", "syntax", "[ ]"), ("show X", "syntax", "print X"),
    ("print link X [1]", "syntax", "L := link"), ("help", "syntax", "no command"), ("flip X [1,2] [3,4] undo X", "syntax", "`undo` inside"),
    ("fvec X Y := copy X", "syntax", "assignment to Y inside"), ("\ufefffvec X", "syntax", "byte order mark"), ("fvec\u00a0X", "syntax", "no-break"),
    ("degree X [01]", "syntax", "leading zero"), ("degree X [-1]", "syntax", "no sign"), ("link X [1]", "syntax", "is given a name"), ("X := link [1]", "syntax", "link X LIST"),
    ("X := homology Y", "syntax", "no construction"), ("spere X 1 1", "syntax", "`sphere`?"), ("sphere Q 1 1", "no_name", "no complex"),
    ("undo X", "no_past", "nothing to undo"), ("degree X \"1\"", "syntax", "begins no token"),
]


def annotations(folder):
    script, transcript = os.path.join(folder, "s.simp"), os.path.join(folder, "s.out")
    with open(script, "w", encoding="utf-8") as file:
        file.write("".join(f"# line {2 * k + 1}; no command\n{said};\n" for k, (said, _, _) in enumerate(MISTAKES)) + "euler X")
    with open(transcript, "w", encoding="utf-8") as file:
        file.write("".join(f"[{k + 1}] refused {why}\n" for k, (_, why, _) in enumerate(MISTAKES)) + f"[{len(MISTAKES) + 1}] refused unended\n")
    status, out, _ = tool("annotate.py", script, transcript)
    lines = out.splitlines()
    holds("a refused script: status 1", status == 1)
    for k, (said, _, hint) in enumerate(MISTAKES):
        holds(f"{said!r} has the hint {hint!r}", hint in lines[k] and f"line {2 * k + 2}:" in lines[k], lines[k])
    holds("an unended rest", "lacks its ;" in lines[-1], lines[-1])


# ---- certificates
def certificates(folder):
    cases = os.path.join(HERE, "tests", "cases")
    transcript = os.path.join(cases, "spheres_found.out")
    with open(transcript, encoding="ascii") as file:
        count = sum(line.startswith("certificate ") for line in file)
    status, out, _ = tool("check_certificates.py", "--names", transcript)
    holds("each is named by its reply", status == 0 and all(re.match(r".*:\d+ \[\d+\] sphere \d+: accepted sphere \d+$", line) for line in out.splitlines()[:-1]), out)
    holds("all of them", out.splitlines()[-1] == f"checked {count} accepted {count}")
    status, _, _ = tool("check_certificates.py", "--least", str(count + 1), transcript)
    holds("fewer than --least is no success", status == 1)
    status, out, _ = tool("check_certificates.py", "--least", "1", given="")
    holds("nothing found is no success with --least 1", status == 1 and out == "checked 0 accepted 0\n")
    folder = os.path.join(folder, "split")
    status, _, _ = tool("split_certificates.py", transcript, folder)
    files = sorted(os.listdir(folder))
    holds("a file for each", status == 0 and len(files) == count, str(files))
    for name in files:
        path = os.path.join(folder, name)
        with open(path, encoding="ascii") as file:
            first = json.loads(file.read().split("\n")[1].split(" ", 1)[1])
        random.Random(1).shuffle(first)
        own = os.path.join(folder, "..", "own")
        with open(own, "w", encoding="ascii") as file:
            file.write("X := " + json.dumps(first) + ";\n")
        holds(f"{name} is of its facets", tool("check_certificates.py", "--of", own, path)[0] == 0)
        with open(own, "w", encoding="ascii") as file:
            file.write(json.dumps(first[1:] or [[1, 2]]))
        status, out, _ = tool("check_certificates.py", "--of", own, path)
        holds(f"{name} is not of others", status == 1 and out.startswith("refused other"), out)
    status, out, _ = tool("plot.py", "--svg", os.path.join(folder, "..", "p.svg"), transcript)
    holds("a drawing of each", status == 0 and sum(line.startswith("sphere: ") for line in out.splitlines()) == count)
    with open(os.path.join(folder, "..", "p.svg"), encoding="utf-8") as file:
        text = file.read()
    holds("a picture", text.startswith("<svg") and text.endswith("</svg>\n"))


# ---- with the program
def conversations():
    with simp.Simp(PROGRAM, seconds=60) as run:
        holds("an assignment", run.let("X", [[1, 2, 3], [1, 2, 4], [1, 3, 4], [2, 3, 4]]) == 4)
        holds("a value", run.value("fvec X") == [4, 6, 4] and run.value("closed X") is True and run.value("euler X") == 2)
        answer = run.ask("sphere X 0 1")
        holds("a verdict and its certificate", answer == "sphere 0" and answer.certificate[0] == "certificate 1 sphere")
        for command, condition in (("fvec Y", "no_name"), ("flip X [1] [2]", "flip_size"), ("homology X", "syntax")):
            try:
                run.ask(command)
                holds(f"{command} is refused", False)
            except simp.Refused as fault:
                holds(f"{command} is refused", fault.condition == condition, fault.condition)
        try:
            run.let("X", [[0, 1, 2]])
        except simp.Refused:
            pass
        holds("after a bad list the name is void, and not what it was", run.ask("print X") == "facets []")
    replies = simp.run(["X := bdsimplex 3", "sphere X 0 1", "fvec X"], program=PROGRAM)
    holds("a script at once", [str(it) for it in replies] == ["ok 4", "sphere 0", "fvec [4,6,4]"] and replies[1].certificate[-1] == "end")


def census(folder):
    """A census of a thousand complexes, killed five times and taken up again, comes to what an uninterrupted one does."""
    words = random.Random(7)
    path = os.path.join(folder, "list")
    with open(path, "w", encoding="ascii") as file:
        for k in range(1000):
            rows = [[1, 2, 3], [1, 2, 4], [1, 3, 4], [2, 3, 4]]
            for new in range(5, 5 + words.randrange(6)):
                gone = rows.pop(words.randrange(len(rows)))
                rows += [sorted([new] + gone[:i] + gone[i + 1:]) for i in range(3)]
            if k % 10 == 0:
                rows.pop()
            file.write(f"c{k}\t{json.dumps(rows)}\n")
    env = {"SIMP": PROGRAM}
    command = [sys.executable, os.path.join(TOOLS, "census.py"), path]
    whole, cut = os.path.join(folder, "whole"), os.path.join(folder, "cut")
    status, out, err = tool("census.py", path, whole, "--try", "0,1", "300,1", env=env)
    holds("a census of a thousand complexes", status == 0 and out == "sphere: 900 yes, 100 no, 0 open\n", out + err)
    for _ in range(5):
        run = subprocess.Popen(command + [cut, "--try", "0,1", "300,1"], env={**os.environ, **env}, stdout=subprocess.DEVNULL, start_new_session=True)
        time.sleep(0.4)
        try:
            os.killpg(run.pid, signal.SIGKILL)
        except ProcessLookupError:
            pass
        run.wait()
    with open(os.path.join(cut, "results.jsonl"), "ab") as file:
        file.write(b'{"name":"c')
    tool("census.py", path, cut, "--try", "0,1", "300,1", env=env)
    for name in ("table.tsv", "certificates.txt"):
        with open(os.path.join(whole, name), "rb") as one, open(os.path.join(cut, name), "rb") as two:
            holds(f"{name} after five kills", one.read() == two.read())
    status, out, _ = tool("check_certificates.py", "--names", "--least", "900", os.path.join(whole, "certificates.txt"))
    holds("its certificates, each by its name", status == 0 and out.splitlines()[0].endswith("# c1 sphere: accepted sphere 0") or "# c1 sphere" in out)
    with open(os.path.join(whole, "certificates.txt"), "rb") as file:
        done = subprocess.run([PROGRAM, "replay"], stdin=file, capture_output=True, check=False)
    holds("and the program accepts them as they are", done.returncode == 0 and done.stdout.endswith(b"checked 900 accepted 900\n"))


def comparisons(folder):
    torus, plane = triangulation("torus"), triangulation("real_projective_plane")

    def sum_of(a, b):
        top = max(map(max, a))
        other = [[x + top for x in row] for row in b]
        glue = dict(zip(other[0], a[0]))
        return a[1:] + [[glue.get(x, x) for x in row] for row in other[1:]]

    paths = []
    for name, rows in (("a", sum_of(torus, plane)), ("b", sum_of(sum_of(plane, plane), plane)), ("t", torus)):
        paths.append(os.path.join(folder, name))
        with open(paths[-1], "w", encoding="ascii") as file:
            json.dump(rows, file)
    env = {"SIMP": PROGRAM}
    status, out, err = tool("compare.py", paths[0], paths[1], "--budget", "500", "--seeds", "12", env=env)
    holds("a torus and a projective plane are three projective planes", status == 0, err)
    if status == 0:
        status, out, _ = tool("check_certificates.py", "--least", "3", given=out)
        holds("by a chain of three certificates", status == 0 and out.endswith("checked 3 accepted 3\n"), out)
    status, out, err = tool("compare.py", paths[0], paths[2], env=env)
    holds("and no torus", status == 1 and "no: euler -1 and euler 0" in err, err)


def main():
    with tempfile.TemporaryDirectory() as folder:
        notations()
        readings()
        annotations(folder)
        certificates(folder)
        if os.access(PROGRAM, os.X_OK):
            conversations()
            census(folder)
            comparisons(folder)
        else:
            print("tools: the program is not built: what asks it is not tried")
    print(f"{checked} points of the tools, {failed} failed")
    return failed > 0


if __name__ == "__main__":
    sys.exit(main())
