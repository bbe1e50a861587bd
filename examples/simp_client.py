#!/usr/bin/env python3
"""A client that keeps one `simp run` open and asks it one command at a time. Python 3.8 or later, and no packages.

    with Simp() as simp:
        simp.ask("X := bdsimplex 3")       # ('ok 4', [])
        simp.ask("sphere X 10 1")          # ('sphere 0', ['certificate 1 sphere', .., 'end'])

As a program it passes the commands of its arguments on and prints each reply with its certificate.
"""

import pathlib
import subprocess
import sys

PROGRAM = pathlib.Path(__file__).resolve().parent.parent / "simp"


class Simp:
    def __init__(self, program=PROGRAM):
        pipe = subprocess.PIPE
        self.process = subprocess.Popen([str(program), "run"], stdin=pipe, stdout=pipe, encoding="ascii")

    def ask(self, command):
        """The reply to one command, without its number, and the lines of the certificate behind it."""
        if not command.strip() or ";" in command or "#" in command:
            raise ValueError("one command, with no `;` and no comment: " + command)
        self.process.stdin.write(command + ";\n")
        self.process.stdin.flush()
        reply = self.line().split(" ", 1)[1]
        certificate = []
        if reply.split()[0] in ("sphere", "equivalent", "manifold"):
            while not certificate or certificate[-1] != "end":
                certificate.append(self.line())
        return reply, certificate

    def line(self):
        line = self.process.stdout.readline()
        if not line.endswith("\n"):
            raise EOFError("simp ended with status " + str(self.process.wait()))
        return line[:-1]

    def close(self):
        """Ends the run, and gives its status."""
        self.process.stdin.close()
        self.process.stdout.close()
        return self.process.wait()

    def __enter__(self):
        return self

    def __exit__(self, *error):
        self.close()


if __name__ == "__main__":
    with Simp() as client:
        for words in sys.argv[1:]:
            answer, lines = client.ask(words)
            print("\n".join([answer, *lines]))
