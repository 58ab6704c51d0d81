"""Those who are asked: the built program, and the peers. An answer is whether the goal is valid, in what time."""

import os
import re
import shutil
import subprocess
import tempfile
import time

from certificates.formulas import printed, subformulas
from measuring import translation

TOP = os.path.dirname(os.path.dirname(os.path.dirname(os.path.abspath(__file__))))
PROGRAM = os.path.join(TOP, "crates", "lw", "out", "lw")
MOST_SUBFORMULAS = 128


class Answer:
    """`valid` is True, False or None: none within the limit. `why` says why there is none; `size` is the certificate's."""

    def __init__(self, valid, seconds, why="", size=None):
        self.valid, self.seconds, self.why, self.size = valid, seconds, why, size


def timed(words, seconds):
    """What the command writes and how long it takes, by the wall clock; None where it takes more than so many seconds."""
    begin = time.perf_counter()
    try:
        run = subprocess.run(words, stdout=subprocess.PIPE, stderr=subprocess.DEVNULL, stdin=subprocess.DEVNULL, timeout=seconds)
    except subprocess.TimeoutExpired:
        return None, seconds
    return run.stdout.decode("utf-8", "replace"), time.perf_counter() - begin


def with_file(text, words, seconds):
    """The same of a command whose last word is a file with this text."""
    with tempfile.NamedTemporaryFile("w", suffix=".txt", delete=False) as file:
        file.write(text)
    try:
        return timed(words + [file.name], seconds)
    finally:
        os.unlink(file.name)


class Program:
    """The built program, asked for an answer alone."""

    name = "lw"

    def knows(self, logic):
        """Whether it decides the logic: a word that is none is a variable, and the script has a fault."""
        written, _ = with_file("print provable(%s, p -> p);" % logic, [PROGRAM, "run"], 10)
        return written == "yes\n"

    def answer(self, logic, goal, seconds):
        if len(subformulas(goal)) > MOST_SUBFORMULAS:
            return Answer(None, 0, "over the limit")
        written, took = with_file("print provable(%s, %s);\n" % (logic, printed(goal)), [PROGRAM, "run"], seconds)
        return Answer({"yes\n": True, "no\n": False}.get(written), took, "" if written is None else written.strip()[:60])


class CertifyingProgram(Program):
    """The built program, asked for a certificate that its own checker accepts. The time is that of both runs."""

    name = "lw+check"

    def answer(self, logic, goal, seconds):
        if len(subformulas(goal)) > MOST_SUBFORMULAS:
            return Answer(None, 0, "over the limit")
        text, took = with_file("print certificate(%s, %s);\n" % (logic, printed(goal)), [PROGRAM, "run"], seconds)
        if text is None or not text.startswith("certificate 1\n"):
            return Answer(None, took, (text or "").strip()[:60])
        line, checking = with_file(text, [PROGRAM, "check"], max(0.001, seconds - took))
        if line is None:
            return Answer(None, seconds)
        if line == "fault: file limit\n":
            return Answer(None, took + checking, "certificate over the limit of a file")
        kind = {"proof": True, "model": False}[text.split("\n")[3]]
        # a certificate that isn't accepted counts as the wrong answer
        return Answer(kind if line == "accepted\n" else not kind, took + checking, line.strip(), len(text.encode()))


class Peer:
    """Another prover, which reads the standard translation."""

    def __init__(self, name, command, words, translate, yes, no, version):
        self.name, self.command, self.words, self.translate = name, command, words, translate
        self.yes, self.no, self.version_words = yes, no, version

    def is_installed(self):
        return shutil.which(self.command) is not None

    def version(self):
        """The first number with a point in what the peer says of itself."""
        words = [self.command] + self.version_words
        run = subprocess.run(words, stdin=subprocess.DEVNULL, stdout=subprocess.PIPE, stderr=subprocess.STDOUT)
        found = re.search(r"[0-9]+\.[0-9]+", run.stdout.decode("utf-8", "replace"))
        return found.group() if found else "unknown"

    def knows(self, logic):
        return logic in translation.AXIOMS

    def answer(self, logic, goal, seconds):
        text = self.translate(logic, goal)
        written, took = with_file(text, [self.command] + self.words, seconds)
        if written is None:
            return Answer(None, took)
        valid = True if self.yes in written else False if self.no in written else None
        return Answer(valid, took, "" if valid is not None else "no answer")


PEERS = {
    "spass": Peer("spass", "SPASS", ["-PGiven=0", "-PProblem=0"], translation.dfg, "Proof found", "Completion found", []),
    "eprover": Peer(
        "eprover", "eprover", ["--auto", "--silent"], translation.tptp, "SZS status Theorem", "SZS status CounterSatisfiable",
        ["--version"],
    ),
}
