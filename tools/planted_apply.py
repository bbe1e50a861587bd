#!/usr/bin/env python3
"""Whether each planted bug still applies: in each edit of crates/NAME/must-fail and tests/planted/NAME every old text stands just
once in the file that it names. Run at the top of the repository; the status is 1 where one does not."""
import sys
from pathlib import Path


def edits():
    """Each edit, with the folder of its crate."""
    for edit in sorted(Path(".").glob("crates/*/must-fail/*.edit")):
        yield edit, edit.parents[1]
    for edit in sorted(Path(".").glob("tests/planted/*/*.edit")):
        yield edit, Path("crates") / edit.parent.name


def misfit(edit, crate):
    """The first old text of the edit that does not stand just once, and how often it stands; None where there is none."""
    texts, path, old = {}, None, None
    for line in edit.read_text(encoding="utf-8").splitlines():
        if line.startswith("file: "):
            path = crate / line[6:].strip()
            texts.setdefault(path, path.read_text(encoding="utf-8") if path.exists() else "")
        elif line.startswith("old: "):
            old = line[5:]
        elif line.startswith("new:"):
            count = texts[path].count(old)
            if count != 1:
                return old, count
            texts[path] = texts[path].replace(old, line[5:])
    return None


def main():
    tried = [(edit, misfit(edit, crate)) for edit, crate in edits()]
    wrong = [(edit, found) for edit, found in tried if found]
    for edit, (old, count) in wrong:
        print(f"{edit}: stands {count} times: {old.strip()}")
    print(f"{len(tried)} planted bugs, {len(wrong)} do not apply")
    return 1 if wrong else 0


if __name__ == "__main__":
    sys.exit(main())
