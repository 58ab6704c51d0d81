"""Whether tools/to-coq writes the terms that were told beforehand, refuses what is no certificate's, and then writes no file."""

import glob
import os
import subprocess
import tempfile

from certificates.calculus import RULES as CALCULUS
from certificates.calculus import STEP_PARTS
from certificates.judge import FILE_LIMIT
from certificates.models import CLASSES
from checks.report import TOP, text_of
from theorems.files import GUARDED, LOGICS, RULES

TOOL = os.path.join(TOP, "tools", "to-coq")
LOEB, CUT = "examples/check/loeb-in-gl.txt", "examples/check/cut-in-s5.txt"

# by hand: each formula behind its parts, in the order in which the formula has them
LOEB_LINES = """Definition f1 : form := Box (Var 1).
Definition f : form := Imp (Box (Imp f1 (Var 1))) f1.

Definition rows1 : list form := [
    Var 1;
    Box (Var 1);
    Imp (Var 2) (Var 1);
    Box (Var 3);
    Imp (Var 4) (Var 2)
  ].
Definition rows : list form := rows1.
Definition guards : list (positive * positive) := [].
Definition steps1 : list (rule * positive) := [
    (ByOne, no 5);
    (ByStep, no 2);
    (ByTwo, yes 3);
    (ByClose, yes 2);
    (ByClose, yes 1)
  ].
Definition steps : list (rule * positive) := steps1.
Definition shown : numbered_proof := Numbered rows guards 5 steps.

Theorem answer : valid GL f.
Proof.
  apply (check_numbered_sound GL f shown).
  vm_compute; reflexivity.
Qed.
"""
MODEL = "certificate 1\nlogic kt\nformula box p -> box box p\nmodel\nworlds 3\nrefuted 0\n"
MODEL += "world 0 sees 0 1 true p\nworld 1 sees 1 2 true p q\nworld 2 sees 2 true\nend\n"
MODEL_LINES = """Definition f1 : form := Box (Var 1).
Definition f : form := Imp f1 (Box f1).

Definition shown1 : list (list positive * list positive) := [
    ([1; 2], [1]);
    ([2; 3], [1; 2]);
    ([3], [])
  ].
Definition shown : list (list positive * list positive) := shown1.

Theorem answer : ~ valid KT f.
Proof.
  apply (refutes_sound KT shown 1 f).
  vm_compute; reflexivity.
Qed.
"""


# a shared formula within a shared one
NESTED = "certificate 1\nlogic k\nformula box(box p & q) & box(box p & q) & box p\nproof\nclose T p\nend\n"
NESTED_LINES = """Definition f1 : form := Box (Var 1).
Definition f2 : form := Box (And f1 (Var 2)).
Definition f : form := And f2 (And f2 f1).
"""


def run(*words, **more):
    done = subprocess.run([TOOL] + list(words), cwd=TOP, stdout=subprocess.PIPE, stderr=subprocess.PIPE, text=True, **more)
    return done.stdout, done.stderr, done.returncode


def behind_comment(written):
    return written.partition(" *)\n")[2]


def check_written(report):
    written, told, status = run(LOEB)
    report.compare("to-coq %s" % LOEB, (LOEB_LINES, "", 0), (behind_comment(written), told, status))
    written, told, status = run("-", input=MODEL)
    report.compare("to-coq - of a model", (MODEL_LINES, "", 0), (behind_comment(written), told, status))
    written = behind_comment(run("-", input=NESTED)[0])
    report.compare("to-coq - of shared formulas in one another", NESTED_LINES, written[: len(NESTED_LINES)])


def check_file(report, folder):
    out = os.path.join(folder, "answer.v")
    report.compare("to-coq -o", ("", "", 0), run(LOEB, "-o", out))
    with open(out, encoding="utf-8") as file:
        report.compare("to-coq -o: the file", run(LOEB)[0], file.read())
    report.compare("to-coq -o: files", ["answer.v"], os.listdir(folder))
    report.compare("to-coq -o over a file", ("", "", 0), run(CUT, "-o", out))
    nowhere = os.path.join(folder, "nosuch", "answer.v")
    report.compare("to-coq -o into no folder: status", 4, run(LOEB, "-o", nowhere)[2])
    os.remove(out)


def refused():
    """Each text that is no certificate's: its name, its bytes, and what is said of it."""
    for path in sorted(glob.glob(os.path.join(TOP, "examples", "check", "*.expected"))):
        verdict = text_of(path).rstrip("\n")
        if verdict.startswith("fault: "):
            text = path[: -len("expected")] + "txt"
            with open(text, "rb") as file:
                yield os.path.basename(text), file.read(), verdict[len("fault: ") :]
    loeb = text_of(LOEB).encode()
    yield "a logic that isn't known", loeb.replace(b"logic gl", b"logic kt5"), "line 2: proof text"
    yield "nothing", b"", "line 1: proof text"
    yield "bytes that aren't text", b"\xff\x00", "line 1: proof text"
    yield "a long file", b"p" * (FILE_LIMIT + 1), "more than 1048576 bytes"


def check_refused(report, folder):
    source, out = os.path.join(folder, "certificate.txt"), os.path.join(folder, "answer.v")
    for what, data, wanted in refused():
        with open(source, "wb") as file:
            file.write(data)
        said = "to-coq: %s: no certificate: %s\n" % (source, wanted)
        report.compare("to-coq of %s" % what, ("", said, 2), run(source, "-o", out))
        report.compare("to-coq of %s: files" % what, ["certificate.txt"], os.listdir(folder))
    for words, status in (((), 2), ((LOEB, CUT), 2), (("nosuch",), 3), (("tools",), 3)):
        written, told, ended = run(*words)
        report.compare("to-coq %s" % " ".join(words), ("", status), (written, ended))
        report.check("to-coq %s: no traceback" % " ".join(words), "Traceback" not in told, told)


def check_rows(report):
    """Each logic and each rule of the second checker has its row."""
    for table in (LOGICS, GUARDED, CLASSES):
        report.compare("the logics with a row", sorted(STEP_PARTS), sorted(table))
    report.compare("the rules with a row", sorted(CALCULUS), sorted(RULES))


def check_all(report):
    check_written(report)
    check_rows(report)
    with tempfile.TemporaryDirectory() as folder:
        check_file(report, folder)
        check_refused(report, folder)
