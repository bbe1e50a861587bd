#!/usr/bin/env python3
"""Writes each certificate of a transcript, or of a file of certificates, into a file of its own.

    tools/split_certificates.py TRANSCRIPT FOLDER

TRANSCRIPT is a file, or - for standard input. The files are FOLDER/NAME.txt, where NAME comes from the line `# NAME` before the
certificate, else from the number of its reply. What stands in a file already is written over only where --force is given.
Status 0: each was written; 1: there was none; 2: wrong words, or a file could not be written.
"""
import os
import re
import sys

sys.path.insert(0, os.path.dirname(os.path.abspath(__file__)))
from check_certificates import named_parts  # noqa: E402


def main(words):
    force = "--force" in words
    words = [it for it in words if it != "--force"]
    if len(words) != 2:
        print("usage: split_certificates.py [--force] TRANSCRIPT FOLDER", file=sys.stderr)
        return 2
    source, folder = words
    try:
        lines = (sys.stdin.buffer if source == "-" else open(source, "rb")).read().decode("latin-1").splitlines(keepends=True)
        os.makedirs(folder, exist_ok=True)
        used = set()
        for number, name, part in named_parts(lines):
            reply = re.match(r"\[(\d+)\]", name)
            stem = f"reply_{reply.group(1)}" if reply else re.sub(r"[^A-Za-z0-9_.-]+", "_", name.lstrip("# ")) or f"line_{number}"
            stem = stem if stem not in used else f"{stem}_line_{number}"
            used.add(stem)
            with open(os.path.join(folder, stem + ".txt"), "wb" if force else "xb") as out:
                out.write("".join(part).encode("latin-1"))
    except OSError as fault:
        print(f"split_certificates: {fault}", file=sys.stderr)
        return 2
    print(f"{len(used)} certificates in {folder}", file=sys.stderr)
    return 0 if used else 1


if __name__ == "__main__":
    sys.exit(main(sys.argv[1:]))
