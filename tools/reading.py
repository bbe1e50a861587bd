#!/usr/bin/env python3
"""What must be believed of the program: the definitions that the contract of script_shell::run_program and those of the traits of
its ends rest on, by the names in their clauses and in what these lead to. Lines are counted without blank ones and imports, with
the comments above a definition.

    tools/reading.py            the numbers in docs/READING.md are true, or the status is 1
    tools/reading.py --write    puts the true numbers there
    tools/reading.py --list     each definition, with its file and its first and last line

Two parsers are read by their laws: the law says of the parser's name all that is to be known, so what the parser alone leads
to need not be read. Each law that the page names in backticks, as `crate::law`, has to be there. Run at the top of the
repository."""
import re
import sys
from pathlib import Path

PAGE = Path("docs/READING.md")
# The files and the first lines of the contracts, each up to the line that ends it.
CONTRACTS = [
    (Path("crates/script_shell/src/run.rt"), "pub fn run_program", "{"),
    (Path("crates/run_ends/src/ends.rt"), "pub trait Source", "}"),
    (Path("crates/run_ends/src/ends.rt"), "pub trait Sink", "}"),
]
# A name that a law pins down, and the laws in whose place it stands: (crate, module, name).
BY_LAW = {
    ("script_text", "Reading", "command_of"): [("script_text", "Laws", "ReadsTheSpelled")],
    ("flip_certificate", "Reading", "reading"): [
        ("flip_certificate", "Laws", "ReadsTheSpelled"),
        ("flip_certificate", "Laws", "FormLines"),
    ],
}
WORD = re.compile(r"(?<![\w.'])([A-Za-z_][\w']*)(?:\.([A-Za-z_]\w*))?")
START = re.compile(r"(?:(?:  )?(?:abbrev |unfoldable )+pub |pub (?:record |data )?)([A-Za-z_][\w']*)")
IMPORT = re.compile(r"(?:pub )?(?:ghost )?use Rattle\.(\w+)\.specs\.([\w.]+?)(?:\.\{(.*)\}| as (\w+))?;?$")


def imports_in(lines):
    """What each name or alias in the lines stands for: (crate, module, name), and None for the name of a whole module."""
    found = {}
    for crate, module, names, alias in (m.groups() for m in map(IMPORT.match, lines) if m):
        if names is None:
            found[alias or module.split(".")[-1]] = (crate, module, None)
        else:
            for name in names.split(","):
                name, _, other = name.strip().partition(" as ")
                found[other or name] = (crate, module, name)
    return found


class Module:
    """A file of definitions: the place and the text of each, and what the names in it stand for."""

    def __init__(self, path):
        self.path = path
        self.lines = path.read_text(encoding="utf-8").split("\n")
        self.imports = imports_in(self.lines)
        self.definitions = {}
        starts = [at for at, line in enumerate(self.lines) if START.match(line)]
        for at, behind in zip(starts, starts[1:] + [len(self.lines)]):
            self.definitions[START.match(self.lines[at]).group(1)] = (self.above(at), self.end(behind))

    def above(self, at):
        """The first line of the comment above a definition."""
        while at > 0 and self.lines[at - 1].lstrip().startswith("--") and not self.lines[at - 1].startswith("-- ----"):
            at -= 1
        return at

    def end(self, behind):
        """The line behind a definition, where the next one begins there."""
        while behind > 0 and (self.lines[behind - 1].strip() + "--").startswith(("--", "module ")):
            behind -= 1
        return behind

    def text(self, name):
        first, end = self.definitions[name]
        return [line for line in self.lines[first:end] if line.strip()]


def names_in(lines, module, own):
    """The definitions that the names in the lines stand for; those of the same file are the ones in own."""
    text = "\n".join(line.partition("--")[0] for line in lines)
    for word, member in WORD.findall(text):
        if word in module.imports:
            crate, path, name = module.imports[word]
            yield (crate, path, name or member)
        elif word in own:
            yield own[word]


def read_modules():
    modules = {}
    for path in Path("crates").glob("*/specs/*.antt"):
        if path.stem != "Lib":
            modules[path.parts[1], path.stem] = Module(path)
    return modules


class Contract:
    """The lines of a contract, and what the names in it stand for."""

    def __init__(self, path, start, end):
        lines = path.read_text(encoding="utf-8").split("\n")
        first = next(at for at, line in enumerate(lines) if line.startswith(start))
        last = next(at for at in range(first, len(lines)) if lines[at] == end)
        self.lines = [line for line in lines[first : last + 1] if line.strip()]
        self.imports = imports_in(lines)

    def names(self):
        return names_in([line for line in self.lines if not line.strip().startswith("//")], self, {})


def closure(modules, contracts, by_law):
    """The definitions under the contracts, and the Rust types that they speak of."""
    todo = [name for contract in contracts for name in contract.names()]
    seen, types = set(), set()
    while todo:
        crate, path, name = todo.pop()
        if path.startswith("declared."):
            types.add((crate, path))
            continue
        module = modules.get((crate, path))
        if module is None or (crate, path, name) in seen:
            continue
        if name not in module.definitions:
            assert name in module.imports, f"{module.path}: no {name}"
            todo.append(module.imports[name])
            continue
        seen.add((crate, path, name))
        own = {other: (crate, path, other) for other in module.definitions if other != name}
        todo += by_law.get((crate, path, name)) or names_in(module.text(name), module, own)
    return seen, types


def type_lines(crate, path):
    """The file of a Rust type, and its lines there with the comments above."""
    _, *parts = path.split(".")
    names = [part for part in parts if part[0].isupper() and part != "TheVariants"]
    stem = [part for part in parts if part[0].islower()]
    for file in sorted(Path("crates", crate, "src").rglob((stem[-1] if stem else "*") + ".rt")):
        lines = file.read_text(encoding="utf-8").split("\n")
        for at, line in enumerate(lines):
            if names and re.match(r"pub (enum|struct) %s\b" % names[0], line):
                first = at
                while first > 0 and lines[first - 1].startswith(("///", "#[")):
                    first -= 1
                end = at
                while not (lines[end].startswith("}") or lines[end].endswith(";")):
                    end += 1
                return file, names[0], end + 1 - first
    return None


def laws_missing(page):
    """The laws that the page names and that are not there."""
    for crate, law in sorted(set(re.findall(r"`(\w+)::(\w+)`", page))):
        files = Path("crates", crate, "src").rglob("*.rt")
        if not any(f"pub fn {law}" in file.read_text(encoding="utf-8") for file in files):
            yield crate, law


def count(modules, keys):
    """The lines to read in each file."""
    lines = {}
    for crate, path, name in keys:
        file = f"{crate}/specs/{path}.antt"
        lines[file] = lines.get(file, 0) + len(modules[crate, path].text(name))
    return lines


def count_types(types):
    """The lines of Rust types in each file."""
    found = {place[:2]: place[2] for place in (type_lines(*key) for key in types) if place}
    lines = {}
    for (file, _), length in found.items():
        name = "/".join(file.parts[1:])
        lines[name] = lines.get(name, 0) + length
    return lines


def main():
    modules = read_modules()
    contracts = [Contract(*where) for where in CONTRACTS]
    everything, types = closure(modules, contracts, {})
    needed, types_needed = closure(modules, contracts, BY_LAW)
    spared = everything - needed
    read_files = count(modules, needed)
    spared_files = count(modules, spared)
    read_types = count_types(types_needed)
    spared_types = count_types(types - types_needed)
    clauses = sum(len(contract.lines) for contract in contracts)

    if "--list" in sys.argv:
        for crate, path, name in sorted(everything | needed):
            first, end = modules[crate, path].definitions[name]
            mark = "  by its law" if (crate, path, name) in spared else ""
            print(f"crates/{crate}/specs/{path}.antt:{first + 1}-{end} {name}{mark}")
        return 0

    total = (f"Counted by `tools/reading.py`: {sum(read_files.values()):,} lines in {len(needed)} definitions in {len(read_files)} "
             f"files must be read, {clauses} lines of contracts above them, and {sum(read_types.values())} lines of Rust types beside them; "
             f"{sum(spared_files.values())} lines in {len(spared)} definitions need not, since a law stands above them.")
    read, left = read_files | read_types, spared_files | spared_types
    numbers = {file: (read.get(file, 0), left.get(file, 0)) for file in set(read) | set(left)}

    wrong, named, out = [], set(), []
    for line in PAGE.read_text(encoding="utf-8").split("\n"):
        row = re.match(r"\| `([\w/]+\.(?:antt|rt))` \| ([\d, +]+) \|(.*)$", line)
        if row:
            file = row.group(1)
            named.add(file)
            if file not in numbers:
                wrong.append(f"{file}: nothing in it needs to be read")
            else:
                must, need_not = numbers[file]
                true = f"{must} + {need_not}" if need_not else str(must)
                if row.group(2).strip() != true:
                    wrong.append(f"{file}: {row.group(2).strip()}, and it is {true}")
                line = f"| `{file}` | {true} |{row.group(3)}"
        elif line.startswith("Counted by `tools/reading.py`"):
            named.add("total")
            if line != total:
                wrong.append("the totals")
            line = total
        out.append(line)
    wrong += [f"{crate}::{law}: no such law" for crate, law in laws_missing("\n".join(out))]
    wrong += [f"{file}: not on the page" for file in sorted(set(numbers) - named)]
    if "total" not in named:
        wrong.append("no line of totals")
    if "--write" in sys.argv:
        PAGE.write_text("\n".join(out), encoding="utf-8")
        wrong = [text for text in wrong if text.endswith(("page", "read", "law", "no line of totals"))]
    for text in wrong:
        print(f"{PAGE}: {text}")
    print(total)
    return 1 if wrong else 0


if __name__ == "__main__":
    sys.exit(main())
