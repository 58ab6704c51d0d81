"""Whether Coq accepts the development of tools/coq, and from which axioms, and makes theorems of the certificates of
examples/check that are accepted, and of no others; skipped, saying so, where there is no coqc."""

import concurrent.futures
import glob
import os
import re
import tempfile

from certificates.formulas import formula
from certificates.judge import verdict
from certificates.texts import read
from checks.report import TOP, text_of
from theorems.coqc import FILES, compiled, develop, is_there, write
from theorems.files import theorem

AXIOMS = {"check_sound": {"Classical_Prop.classic"}, "refutes_sound": set(), "check_numbered_sound": {"Classical_Prop.classic"}}
QUESTION = "Require Import Modal Calculus Sound Models Numbered.\nPrint Assumptions %s."
MOST_LINES = 900

# by hand, in the logics that docs/CERTIFICATES.md doesn't have yet: the formula, the steps, and whether they prove it
STEPS = [
    ("kd", b"box p -> dia p", [("one", "F", b"box p -> dia p"), ("serial", "T", b"box p"), ("close", "T", b"p")], True),
    ("k", b"box p -> dia p", [("one", "F", b"box p -> dia p"), ("serial", "T", b"box p"), ("close", "T", b"p")], False),
    ("k4", b"box p -> box box p", [("one", "F", b"box p -> box box p"), ("step", "F", b"box box p"), ("close", "T", b"box p")], True),
    ("kd", b"box p -> box box p", [("one", "F", b"box p -> box box p"), ("step", "F", b"box box p"), ("close", "T", b"box p")], False),
]
# the same for models: the worlds that each sees, and its variables
MODELS = [
    ("kd", b"box p -> p", ([[1], [1]], [set(), {"p"}], 0), True),
    ("kd", b"box p -> p", ([[1], []], [set(), {"p"}], 0), False),
    ("k4", b"box p -> p", ([[1], []], [set(), {"p"}], 0), True),
    ("k4", b"box p -> box box p", ([[1], [2], []], [set(), {"p"}, set()], 0), False),
]


def axioms_of(written):
    """The names in an answer of Print Assumptions, whose lines after the first are `name : type`, or indented ones."""
    lines = written.splitlines()
    if lines == ["Closed under the global context"]:
        return set()
    if not lines or lines[0] != "Axioms:":
        raise ValueError("no answer of Print Assumptions: %r" % written)
    return {line.split()[0] for line in lines[1:] if line.strip() and not line.startswith(" ")}


def check_axioms(report, folder):
    for law, axioms in AXIOMS.items():
        write(folder, "Asked.v", [QUESTION % law])
        run = compiled(folder, "Asked.v")
        report.check("coqc, asked for the axioms of %s, ends" % law, run.status == 0, run.told)
        if run.status == 0:
            report.compare("the axioms of %s" % law, axioms, axioms_of(run.written))


def examples():
    """Each certificate of examples/check with its name, and whether it is accepted."""
    for path in sorted(glob.glob(os.path.join(TOP, "examples", "check", "*.txt"))):
        with open(path, "rb") as file:
            data = file.read()
        line = verdict(data)[0]
        if not line.startswith("fault"):
            yield os.path.basename(path), read(data), line == "accepted"


def by_hand():
    for logic, text, steps, holds in STEPS:
        body = [(rule, (sign, formula(principal))) for rule, sign, principal in steps]
        yield "%s, proof of %s" % (logic, text.decode()), (logic, formula(text), body), holds
    for logic, text, model, holds in MODELS:
        yield "%s, model for %s" % (logic, text.decode()), (logic, formula(text), model), holds


def answer_of(run, lines):
    """What coqc says of a theorem: `accepted`, or the line that it refuses and why."""
    place = re.match(r'File "[^"]*", line ([0-9]+), ', run.told)
    if run.status != 1 or place is None:
        return "accepted" if run.status == 0 else run.told
    why = "computes to false" if 'Unable to unify "true" with "false"' in re.sub(r"\s+", " ", run.told) else run.told
    return "%s: %s" % (lines[int(place.group(1)) - 1].strip(), why)


def check_theorems(report, folder):
    """Each certificate has a file of its own; they are compiled beside one another."""
    wanted = list(examples()) + list(by_hand())
    texts = [theorem(certificate) for _, certificate, _ in wanted]
    names = ["Answer%d.v" % count for count in range(len(wanted))]
    for name, lines in zip(names, texts):
        write(folder, name, lines)
    with concurrent.futures.ThreadPoolExecutor(os.cpu_count()) as pool:
        runs = list(pool.map(lambda name: compiled(folder, name), names))
    for (what, _, holds), lines, run in zip(wanted, texts, runs):
        right = "accepted" if holds else "vm_compute; reflexivity.: computes to false"
        report.compare("coqc on the theorem of %s" % what, right, answer_of(run, lines))


def code_lines(text):
    """How many lines a text of Coq has, empty lines and comments aside."""
    return sum(1 for line in re.sub(r"\(\*.*?\*\)", "", text, flags=re.DOTALL).splitlines() if line.strip())


def check_lengths(report):
    """The development is short, and README.md tells how much of it one has to believe."""
    texts = {name: text_of("tools/coq/" + name) for name in FILES}
    count = sum(1 for text in texts.values() for line in text.splitlines() if line.strip())
    report.check("tools/coq has under %d lines, empty lines aside" % MOST_LINES, count < MOST_LINES, str(count))
    told = "the %d lines of `tools/coq/Modal.v`, empty lines and comments aside" % code_lines(texts["Modal.v"])
    report.check("README.md tells %r" % told, told in text_of("README.md"))


def check_all(report):
    check_lengths(report)
    if not is_there():
        print("tools: tools/coq and its theorems are not compiled: there is no coqc (Debian's package coq)")
        return
    with tempfile.TemporaryDirectory() as folder:
        for name, run in develop(folder):
            report.check("coqc accepts %s" % name, run.status == 0, run.told)
        if run.status == 0:
            report.compare("coqc that takes too long", None, compiled(folder, "Sound.v", 0.01).status)
            check_axioms(report, folder)
            check_theorems(report, folder)
