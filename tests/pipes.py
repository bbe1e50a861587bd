"""What the program does at the end of a pipe.

Each case of tests/cases has its input given one byte at a time, each byte only once the one before it was taken: the
output and the status have to be those of the case. Inputs as long as the limit come in pieces of 4,096 bytes. Then
clients talk with the program: each writes a command, waits for the reply, and only then writes the next.
"""

import fcntl
import os
import pathlib
import select
import signal
import subprocess
import sys
import tempfile
import termios
import time

HERE = pathlib.Path(__file__).resolve().parent
SIMP = str(HERE.parent / "simp")
sys.path.insert(0, str(HERE.parent / "examples"))
from simp_client import Simp  # noqa: E402

LIMIT = 16_777_216
PATIENCE = 20  # seconds for one reply
ALL = 300  # seconds for the whole script


def waiting(pipe):
    """How many bytes nobody has taken from the pipe yet."""
    return int.from_bytes(fcntl.ioctl(pipe, termios.FIONREAD, b"\0\0\0\0"), sys.byteorder)


def given(words, pieces, one_by_one):
    """The status and the output of the program, which is given these pieces."""
    with tempfile.TemporaryFile() as out:
        none = subprocess.DEVNULL
        process = subprocess.Popen([SIMP, *words], stdin=subprocess.PIPE, stdout=out, stderr=none, bufsize=0)
        pipe = process.stdin.fileno()
        try:
            for piece in pieces:
                os.write(pipe, piece)
                spins = 0
                while one_by_one and waiting(pipe) and process.poll() is None:
                    spins += 1
                    time.sleep(0 if spins < 1000 else 0.0005)
        except BrokenPipeError:
            pass
        process.stdin.close()
        status = process.wait()
        out.seek(0)
        return status, out.read()


def cases():
    """Name, words, input, output and status of each case."""
    for file in sorted((HERE / "cases").glob("*.in")):
        words, status = file.with_suffix(".words"), file.with_suffix(".status")
        yield (
            file.stem,
            words.read_text().split("\n")[:-1] if words.exists() else ["run"],
            file.read_bytes(),
            file.with_suffix(".out").read_bytes(),
            int(status.read_text()) if status.exists() else 0,
        )


def slow_cases():
    count, failed = 0, []
    for name, words, text, out, status in cases():
        count += 1
        if given(words, (text[i : i + 1] for i in range(len(text))), True) != (status, out):
            failed.append("case " + name + ", one byte at a time")
    for over, status in [(0, 0), (1, 6)]:
        count += 1
        text = b" " * (LIMIT + over)
        if given(["run"], (text[i : i + 4096] for i in range(0, len(text), 4096)), False) != (status, b""):
            failed.append("spaces, %d above the limit" % over)
    return count, failed


def conversation(commands):
    """The lines that come back for each command before the next is written."""
    process = subprocess.Popen([SIMP, "run"], stdin=subprocess.PIPE, stdout=subprocess.PIPE, bufsize=0)
    replies = []
    for command in commands:
        os.write(process.stdin.fileno(), command)
        line = b""
        while not line.endswith(b"\n"):
            if not select.select([process.stdout], [], [], PATIENCE)[0]:
                process.kill()
                return replies, None
            part = os.read(process.stdout.fileno(), 65536)
            if not part:
                break
            line += part
        replies.append(line)
    process.stdin.close()
    rest = process.stdout.read()
    return replies, (process.wait(), rest)


def conversations():
    failed = []
    # the `;` is the last byte written, so that it alone has to bring the reply
    wanted = [b"[%d] facets [[%d]]\n" % (n, n) for n in range(1, 1001)]
    if conversation(b"show [[%d]];" % n for n in range(1, 1001)) != (wanted, (0, b"")):
        failed.append("a conversation of 1,000 commands")
    # a comment that goes on from one write to the next
    talk = [b"show [[1]]; # no ;", b" nor ;\nshow [[2]]; #", b"\nshow [[3]];"]
    wanted = [b"[%d] facets [[%d]]\n" % (n, n) for n in range(1, 4)]
    if conversation(talk) != (wanted, (0, b"")):
        failed.append("a conversation with comments")
    # what no `;` ends is called so at the end alone
    wanted = [b"[1] refused no_name\n", b"[2] facets [[1]]\n"]
    if conversation([b"print X;", b"show [[1]]; show"]) != (wanted, (1, b"[3] refused unended\n")):
        failed.append("a conversation that ends in a command")
    with Simp() as client:
        certificate = ["certificate 1 sphere", "facets [[1,2],[1,3],[2,3]]", "end"]
        wanted = [("ok 3", []), ("sphere 0", certificate), ("refused no_name", []), ("euler 0", [])]
        answers = [client.ask(command) for command in ("X := bdsimplex 2", "sphere X 10 1", "print Y", "euler X")]
        if answers != wanted or client.close() != 1:
            failed.append("the client of examples/")
    return 4, failed


def late(signal_number, frame):
    print("no end within %d seconds" % ALL, flush=True)
    os._exit(1)


signal.signal(signal.SIGALRM, late)
signal.alarm(ALL)
talks, failed_talks = conversations()
slow, failed_cases = slow_cases()
failed = failed_talks + failed_cases
for what in failed:
    print(what)
print("%d cases and inputs through a pipe and %d conversations, %d failed" % (slow, talks, len(failed)))
sys.exit(bool(failed))
