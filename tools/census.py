#!/usr/bin/env python3
"""Asks many complexes at once: which are spheres, which are manifolds.

    tools/census.py LIST FOLDER [--ask sphere,manifold] [--try 0,1 300,1 2000,2 ..] [--seconds 60] [--jobs N]

LIST is a file with a complex on each line, `NAME TAB [[1,2,3],..]`, `NAME=[[..]]` or `NAME := [[..]];`, or a folder of files that
tools/facets.py reads, each named by its file. Each question is asked with one budget and seed after another (--try BUDGET,SEED)
until it is yes, each in a process of its own that has so many seconds. Before the walks it asks whether the complex is closed, and for
`sphere` its Euler characteristic and Betti numbers: where these are not a sphere's, the table says `no: ..`, which is this tool's
answer and not the program's (closed, Euler characteristic and Betti numbers are the program's).

FOLDER/results.jsonl has a line for each complex that is done, so that a census that was stopped at any moment goes on where it
was. FOLDER/table.tsv (name, question, answer, budget, seed) and FOLDER/certificates.txt, with a line `# NAME QUESTION` before each
certificate, which `simp replay` and tools/check_certificates.py take as they are, are written from it at the end.

Status 0: every question has an answer; 1: some are open (`undecided`, out of time, refused); 2: wrong words.
"""
import argparse
import concurrent.futures
import json
import os
import sys
import time

sys.path.insert(0, os.path.dirname(os.path.abspath(__file__)))
import facets  # noqa: E402
import simp  # noqa: E402

SPHERE_SUM = {True: 2, False: 0}


def complexes(path):
    """The complexes of a list or a folder: pairs of a name and the facets, with labels that simp takes."""
    found = []
    if os.path.isdir(path):
        for entry in sorted(os.listdir(path)):
            with open(os.path.join(path, entry), encoding="utf-8") as file:
                found += [(entry if given is None else given, it) for given, it in facets.read(file.read())]
    else:
        with open(path, encoding="utf-8") as file:
            for number, line in enumerate(file, 1):
                if not line.strip() or line.startswith("# "):
                    continue
                name, tab, rest = line.rstrip("\n").partition("\t")
                try:
                    for given, it in facets.read(rest if tab else line):
                        found.append((name.strip() if tab else given or f"line_{number}", it))
                except facets.Nonsense as fault:
                    raise SystemExit(f"census: {path}: line {number}: {fault}")
    names, unique = set(), []
    for name, it in found:
        stem, count = name, 1
        while name in names:
            count += 1
            name = f"{stem}_{count}"
        names.add(name)
        unique.append((name, facets.renamed(it, False)[0]))
    return unique


def words_of(reply):
    return reply.split(" ", 1)[1] if " " in reply else ""


def no_of(question, replies):
    """Why the tool says no, or None: closed, euler, betti and the numbers of facets, in this order."""
    closed, euler, betti, fvec = replies
    if closed == "closed no":
        return "no: not closed"
    if question == "sphere" and fvec.startswith("fvec ["):
        size = len(json.loads(words_of(fvec)))
        if euler != f"euler {SPHERE_SUM[size % 2 == 1]}":
            return f"no: {euler}"
        if betti.startswith("betti ") and size > 1 and json.loads(words_of(betti)) != [1] + [0] * (size - 2) + [1]:
            return f"no: {betti}"
    return None


def look_at(task):
    """All answers for one complex."""
    (name, rows), words = task
    start = ["X := []", "X := " + json.dumps(rows, separators=(",", ":"))]
    began, answers = time.monotonic(), []
    replies = simp.run(start + ["closed X", "euler X", "betti X", "fvec X"], words.seconds)
    if len(replies) < 2 or not replies[1].startswith("ok"):
        why = replies[1] if len(replies) > 1 else "no reply"
        answers = [[question, why, None, None, []] for question in words.ask]
    for question in words.ask if not answers else []:
        no = no_of(question, replies[2:]) if len(replies) == 6 else None
        if no is not None:
            answers.append([question, no, None, None, []])
            continue
        answer = ["undecided", None, None, []]
        for budget, seed in words.tries:
            asked = simp.run(start + [f"{question} X {budget} {seed}"], words.seconds)
            if len(asked) < 3:
                answer = [f"no reply in {words.seconds} s", budget, seed, []]
                break
            if asked[2].certificate:
                answer = [str(asked[2]), budget, seed, list(asked[2].certificate)]
                break
            answer = [str(asked[2]), budget, seed, []]
            if asked[2].startswith("refused") and asked[2] != "refused budget":
                break
        answers.append([question] + answer)
    return {"name": name, "answers": answers, "seconds": round(time.monotonic() - began, 3)}


def done_already(path, wanted):
    """What an earlier run finished; what was torn off at the end of its file is cut away."""
    results = {}
    if not os.path.exists(path):
        return results
    whole = 0
    with open(path, "rb") as file:
        for line in file:
            try:
                result = json.loads(line) if line.endswith(b"\n") else None
            except ValueError:
                result = None
            if result is None:
                break
            whole += len(line)
            results[result["name"]] = result
    os.truncate(path, whole)
    return {name: it for name, it in results.items() if name in wanted}


def write_all(folder, order, results):
    for name, lines in (("table.tsv", table), ("certificates.txt", certificates)):
        path = os.path.join(folder, name)
        with open(path + ".new", "w", encoding="utf-8") as file:
            for it in order:
                if it in results:
                    file.writelines(lines(results[it]))
        os.replace(path + ".new", path)


def table(result):
    for question, answer, budget, seed, _ in result["answers"]:
        yield "\t".join([result["name"], question, answer] + ["" if it is None else str(it) for it in (budget, seed)]) + "\n"


def certificates(result):
    for question, _, _, _, lines in result["answers"]:
        if lines:
            yield f"# {result['name']} {question}\n" + "".join(line + "\n" for line in lines)


def is_open(answer):
    return not answer.startswith(("no:", "sphere ", "manifold "))


def main():
    words = argparse.ArgumentParser(usage="census.py LIST FOLDER [--ask sphere,manifold] [--try B,SEED ..] [--seconds S] [--jobs N]")
    words.add_argument("list")
    words.add_argument("folder")
    words.add_argument("--ask", default="sphere")
    words.add_argument("--try", dest="tries", nargs="+", default=["0,1", "300,1", "2000,1", "2000,2", "20000,3"])
    words.add_argument("--seconds", type=float, default=60)
    words.add_argument("--jobs", type=int, default=os.cpu_count() or 1)
    parser, words = words, words.parse_args()
    words.ask = words.ask.split(",")
    try:
        words.tries = [tuple(map(int, it.split(","))) for it in words.tries]
    except ValueError:
        parser.error("--try takes a budget and a seed, as 300,1")
    if not set(words.ask) <= {"sphere", "manifold"} or any(len(it) != 2 for it in words.tries):
        parser.error("--ask takes sphere, manifold, or both with a comma; --try a budget and a seed, as 300,1")
    try:
        all_of = complexes(words.list)
        os.makedirs(words.folder, exist_ok=True)
    except (OSError, facets.Nonsense) as fault:
        parser.error(f"{words.list}: {fault}")
    path = os.path.join(words.folder, "results.jsonl")
    order = [name for name, _ in all_of]
    results = done_already(path, set(order))
    left = [(it, words) for it in all_of if it[0] not in results]
    began, shows = time.monotonic(), sys.stderr.isatty()
    with open(path, "a", encoding="utf-8") as file, concurrent.futures.ThreadPoolExecutor(words.jobs) as pool:
        for result in pool.map(look_at, left):
            file.write(json.dumps(result, separators=(",", ":")) + "\n")
            file.flush()
            results[result["name"]] = result
            if shows:
                print(f"\r{len(results)} of {len(order)} complexes, {time.monotonic() - began:.0f} s", end="", file=sys.stderr)
    if shows:
        print(file=sys.stderr)
    write_all(words.folder, order, results)
    counts = {}
    for name in order:
        for question, answer, _, _, _ in results[name]["answers"]:
            kind = "open" if is_open(answer) else "no" if answer.startswith("no:") else "yes"
            counts[question, kind] = counts.get((question, kind), 0) + 1
    for question in words.ask:
        said = ", ".join(f"{counts.get((question, kind), 0)} {kind}" for kind in ("yes", "no", "open"))
        print(f"{question}: {said}")
    return 1 if any(kind == "open" for _, kind in counts) else 0


if __name__ == "__main__":
    sys.exit(main())
