#!/usr/bin/env python3
"""Compares `simp` with the model and the checker of this folder. Usage: compare.py SIMP SCRIPTS SEED.

The scripts are those of SEED and the seeds after it for which the model can answer. `simp run` has to write what the
model writes. Each transcript with certificates is then replayed as it stands, and damaged: there `simp replay` has to
write what check.js writes, which accepts what stands undamaged. `run.sh` calls this.
"""
import base64
import itertools
import json
import os
import subprocess
import sys

import damage
import model
import scripts

CHECKER = os.path.join(os.path.dirname(os.path.abspath(__file__)), "check.js")
PATIENCE = 300  # seconds
DAMAGED = 8  # damaged transcripts for each one
LONGEST = 20000  # bytes of a transcript that is damaged
BATCH = 100  # scripts whose transcripts are checked by one call of the checker


def call(simp, word, data):
    """Standard output, status and standard error of the program."""
    try:
        done = subprocess.run([simp, word], input=data, capture_output=True, timeout=PATIENCE)
    except subprocess.TimeoutExpired:
        return b"", "none in %d seconds" % PATIENCE, b""
    return done.stdout, done.returncode, done.stderr


def check(texts):
    """What check.js writes for each text, and its status."""
    encoded = json.dumps([base64.b64encode(data).decode() for data in texts]).encode()
    done = subprocess.run(["node", CHECKER, "--many"], input=encoded, stdout=subprocess.PIPE, check=True)
    return [(replies.encode(), status) for replies, status in json.loads(done.stdout)]


def difference(got, wanted, status):
    """In words, what the program did other than wanted; None where there is nothing."""
    if got[2]:
        return "standard error is not empty"
    lines = itertools.zip_longest(got[0].split(b"\n"), wanted.split(b"\n"), fillvalue=b"missing")
    for number, pair in enumerate(lines, 1):
        if pair[0] != pair[1]:
            shown = tuple(line[:100].decode("ascii", "backslashreplace") for line in pair)
            return "line %d of the output is `%s` and not `%s`" % ((number,) + shown)
    return None if got[1] == status else "the status is %s and not %s" % (got[1], status)


def answered(first):
    """The seeds from the first on, with their scripts and the answers of the model, where it has one."""
    for seed in itertools.count(first):
        script = scripts.script(seed)
        try:
            yield seed, script, model.run(script)
        except model.TooLong:
            pass


class Trial:
    """Counts what is compared and what differs."""

    def __init__(self, simp):
        self.simp, self.waiting = simp, []
        self.commands = self.transcripts = self.differences = 0

    def judge(self, seed, what, found):
        """Tells of what differs, where anything does."""
        if found is not None:
            self.differences += 1
            print("seed %d (%s), %s: %s" % (seed, scripts.kind(seed).__name__, what, found), flush=True)

    def run(self, seed, script, wanted, status):
        """Runs a script, and takes its transcript."""
        got = call(self.simp, "run", script)
        self.judge(seed, "run", difference(got, wanted, status))
        self.commands += sum(line.startswith(b"[") for line in wanted.split(b"\n"))
        transcript = got[0]
        if b"\ncertificate " in transcript:
            self.waiting.append((seed, 0, transcript))
            if len(transcript) <= LONGEST:
                for number in range(1, DAMAGED + 1):
                    self.waiting.append((seed, number, damage.damaged(transcript, seed, number)))

    def replay(self):
        """Replays the transcripts taken, whole and damaged."""
        for (seed, number, data), (wanted, status) in zip(self.waiting, check([data for *_, data in self.waiting])):
            what = "replay of damage %d" % number if number else "replay"
            found = difference(call(self.simp, "replay", data), wanted, status)
            self.judge(seed, what, found or ("a certificate is refused" if status and not number else None))
        self.transcripts += len(self.waiting)
        self.waiting = []


def main(simp, number, first):
    trial = Trial(simp)
    for done, (seed, script, answer) in enumerate(itertools.islice(answered(first), number), 1):
        trial.run(seed, script, *answer)
        if done % BATCH == 0 or done == number:
            trial.replay()
    found = {0: "no difference", 1: "1 difference"}.get(trial.differences, "%d differences" % trial.differences)
    print("%d scripts, %d commands, %d transcripts: %s" % (number, trial.commands, trial.transcripts, found))
    return int(trial.differences > 0)


if __name__ == "__main__":
    sys.exit(main(sys.argv[1], int(sys.argv[2]), int(sys.argv[3])))
