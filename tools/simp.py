"""A run of simp that stays open, for programs in Python 3.8 or later: no package beside Python's own.

    import sys; sys.path.append("tools")
    from simp import Simp, Refused

    with Simp() as simp:
        simp.let("X", [[1, 2, 3], [1, 2, 4], [1, 3, 4], [2, 3, 4]])
        simp.ask("fvec X")                       # 'fvec [4,6,4]'
        simp.value("fvec X")                     # [4, 6, 4]
        answer = simp.ask("sphere X 300 1")      # a str; answer.certificate has the lines of its certificate

A reply `refused ..` raises Refused, so no later command speaks of an older complex by mistake; `let` gives the name the void complex
first for the same reason. With seconds=.. a command that takes longer ends the run and raises TimeoutError.
"""
import json
import os
import queue
import subprocess
import threading

HERE = os.path.dirname(os.path.dirname(os.path.abspath(__file__)))
VERDICTS = ("sphere", "equivalent", "manifold")


class Refused(Exception):
    """A command was refused: `condition` is why, `command` what was asked."""

    def __init__(self, condition, command):
        super().__init__(f"{condition}: {command}")
        self.condition, self.command = condition, command


class Ended(Exception):
    """The program ended before it replied."""


class Reply(str):
    """The text of a reply, with the lines of the certificate behind it, if there is one."""

    certificate = ()

    @classmethod
    def of(cls, text, certificate):
        reply = cls(text)
        reply.certificate = tuple(certificate)
        return reply

    @property
    def text(self):
        """The certificate as one text, as `simp replay` reads it."""
        return "".join(line + "\n" for line in self.certificate)


def program_path(program=None):
    """The program: the one named, that of the variable SIMP, the built one, or the launcher, which builds it."""
    built = os.path.join(HERE, "crates", "simp_program", "out", "simp_program")
    return program or os.environ.get("SIMP") or (built if os.access(built, os.X_OK) else os.path.join(HERE, "simp"))


def run(commands, seconds=None, program=None):
    """Runs a script of these commands, each without its `;`, and gives the replies, `refused ..` too, in order.

    Fewer replies than commands where the program ended early, or the time was over.
    """
    script = "".join(command + ";\n" for command in commands).encode("ascii")
    process = subprocess.Popen([program_path(program), "run"], stdin=subprocess.PIPE, stdout=subprocess.PIPE)
    try:
        out, _ = process.communicate(script, timeout=seconds)
    except subprocess.TimeoutExpired:
        process.kill()
        out, _ = process.communicate()
    replies, lines = [], out.decode("ascii").split("\n")
    for line in lines[:-1]:
        if line.startswith("["):
            replies.append((line.split("] ", 1)[1], []))
        else:
            replies[-1][1].append(line)
    if replies and replies[-1][0].split()[0] in VERDICTS and (not replies[-1][1] or replies[-1][1][-1] != "end"):
        replies.pop()
    return [Reply.of(text, certificate) for text, certificate in replies]


class Simp:
    """One run of the program. Each command is answered before the next is written."""

    def __init__(self, program=None, seconds=None):
        self.seconds = seconds
        self._run = subprocess.Popen([program_path(program), "run"], stdin=subprocess.PIPE, stdout=subprocess.PIPE)
        self._lines = queue.Queue()
        threading.Thread(target=self._read, daemon=True).start()

    def _read(self):
        for line in self._run.stdout:
            self._lines.put(line.decode("ascii").rstrip("\n"))
        self._lines.put(None)

    def _line(self):
        try:
            line = self._lines.get(timeout=self.seconds)
        except queue.Empty:
            self.kill()
            raise TimeoutError(f"no reply in {self.seconds} s") from None
        if line is None:
            raise Ended(f"the program ended with status {self._run.wait()}")
        return line

    def ask(self, command):
        """Writes one command, without its `;`, and gives its reply."""
        if ";" in command or "#" in command or not command.strip():
            raise ValueError("ask takes one command, without ; and without a comment")
        try:
            self._run.stdin.write(command.encode("ascii") + b";\n")
            self._run.stdin.flush()
        except BrokenPipeError:
            raise Ended(f"the program ended with status {self._run.wait()}") from None
        text = self._line().split("] ", 1)[1]
        certificate = []
        words = text.split()
        if words[0] == "refused":
            raise Refused(words[1], command)
        if words[0] in VERDICTS:
            while not certificate or certificate[-1] != "end":
                certificate.append(self._line())
        return Reply.of(text, certificate)

    def let(self, name, facets):
        """Gives the name the complex that the lists generate, and answers the number of its facets."""
        self.ask(f"{name} := []")
        return int(self.ask(f"{name} := {json.dumps([list(facet) for facet in facets])}").split()[1])

    def value(self, command):
        """The reply's value: a number, a list, True or False for yes and no; of `options`, `fvec`, `betti` and others a list."""
        rest = self.ask(command).split(" ", 1)[1]
        return {"yes": True, "no": False}.get(rest) if rest in ("yes", "no") else json.loads(rest)

    def facets(self, name):
        """The facets that the name stands for."""
        return self.value(f"print {name}")

    def kill(self):
        self._run.kill()
        self._run.wait()

    def close(self):
        """Ends the run and gives its status."""
        if self._run.poll() is None:
            self._run.stdin.close()
        return self._run.wait()

    def __enter__(self):
        return self

    def __exit__(self, kind, value, trace):
        if kind is None:
            self.close()
        else:
            self.kill()
