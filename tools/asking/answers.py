"""The script that asks a question, what the program's answer to it says, and how its certificate is shown."""

import os
import subprocess
import sys
from collections import namedtuple

from certificates.formulas import printed
from explaining.faults import explain

SHOW = os.path.join(os.path.dirname(os.path.dirname(os.path.abspath(__file__))), "show")

# `word` is yes or no; `certificate` holds the bytes of its text, `fault` the fault's line in place of one
Answer = namedtuple("Answer", "word certificate fault")


class NoAnswer(Exception):
    """The program gave neither yes nor no: why, in a line."""


def script(logic, a, has_certificate):
    """The script that asks whether a formula is provable in a logic. It has its name since each formula may stand behind
    `:=`, and not each in the brackets of a call, which are one more unfinished construct.
    """
    lines = ["A := %s;" % printed(a), "print provable(%s, A);" % logic]
    return lines + ["print certificate(%s, A);" % logic] if has_certificate else lines


def told_of(line):
    """What tools/explain says of a fault line of a run."""
    said = explain(b"", line)
    return said[0] if said else line


def answer_of(data):
    """The Answer in what the program wrote; raises NoAnswer."""
    first, _, rest = data.partition(b"\n")
    word = first.decode("latin-1")
    if word.startswith("fault: "):
        raise NoAnswer(told_of(word))
    if word not in ("yes", "no"):
        raise NoAnswer("the program gave no answer")
    if rest.startswith(b"fault: "):
        return Answer(word, b"", told_of(rest.decode("latin-1").rstrip("\n")))
    return Answer(word, rest, None)


def show(certificate, picture):
    """What tools/show writes of the certificate, as bytes, and its status. Its picture goes into the file of this name,
    where there is one.
    """
    words = ["--svg=" + picture] if picture else []
    done = subprocess.run([sys.executable, SHOW, "-"] + words, input=certificate, stdout=subprocess.PIPE, check=False)
    return done.stdout, done.returncode
