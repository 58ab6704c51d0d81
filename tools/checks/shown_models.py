"""Whether tools/show finds every certificate in a text, tells what is true in a model of one's own, and writes pictures whole."""

import os
import subprocess
import tempfile

from checks.report import TOP, text_of
from checks.running import run

OUTPUT = "examples/run/workbench.expected"
FIRST_LINES = ["accepted: a proof of box p -> p in KT, 3 steps", "accepted: a model of 1 world that refutes box p -> p in K"]
MODEL = "examples/check/two-worlds-see-each-other.txt"
# a ring of three worlds, with what is true there by hand
RING = "worlds 3\nworld 0 sees 1 true p\nworld 1 sees 2 true p q\nworld 2 sees 0 true\n"
RING_SHOWN = """a Kripke model of 3 worlds; its accessibility relation is serial, irreflexive and antisymmetric
world  sees  true variables
0      1     p
1      2     p q
2      0     -

true at  formula
0 2      box p
0        dia(p & q)
1 2      ~p v box ~p
"""
UNICODE = "true at  formula\n0 2      □p\n1 2      p → ◇¬p\n0 1 2    ⊤ ∧ ¬⊥ ↔ q ∨ ¬q\n"
# texts that are no model's, with the line at fault
NO_MODELS = (
    ("", 1),
    ("worlds 0\n", 1),
    ("worlds 2\nworld 0 sees true\n", 3),
    ("worlds 1\nworld 0 sees 1 true\n", 2),
    ("worlds 1\nrefuted 1\nworld 0 sees true\n", 2),
    ("worlds 1\nworld 0 sees true q p\n", 2),
    ("worlds 1\nworld 0 sees true\nend\nend\n", 4),
    ("certificate 1\n", 1),
    ("worlds 1\nworld 0 sees tr\u00fce\n", 2),
)
NO_FORMULAS = ("", "box", "p q", "(p", "p -> ", "\u25a1p", "box " * 401 + "p")


def write(path, text):
    with open(path, "w", encoding="utf-8") as file:
        file.write(text)


def lines_with(text, words):
    return [line for line in text.split("\n") if words in line]


def check_output(report):
    """The output of README's first script has a proof and a model, and both are shown under their places."""
    lines = text_of(OUTPUT).split("\n")
    places = [at + 1 for at, line in enumerate(lines) if line == "certificate 1"]
    wanted = ["%s:%d: %s" % (OUTPUT, place, line) for place, line in zip(places, FIRST_LINES)]
    written, status = run("tools/show", OUTPUT)
    report.compare("show of an output", (wanted, 0), (lines_with(written, "accepted"), status))
    report.check("show of an output: an empty line between", "\n\n" + wanted[1] in written, written)
    with open(os.path.join(TOP, OUTPUT), "rb") as file:
        command = [os.path.join(TOP, "tools", "show"), "-"]
        done = subprocess.run(command, stdin=file, stdout=subprocess.PIPE, check=False, text=True)
    report.compare("show - of an output", written.replace(OUTPUT, "-"), done.stdout)


def check_mixed(report, folder):
    """A rejected certificate and one with a fault are shown among others, and the status tells of them."""
    path = os.path.join(folder, "mixed.txt")
    write(path, "yes\n" + "no\n".join(text_of("examples/check/%s.txt" % name) for name in ("loeb-in-k", "leading-zero", "dead-end-in-kt")))
    written, status = run("tools/show", path)
    for words in (": rejected: step 4: no proof", "breaks its rule: T box p isn't in the set", ": fault: line 5: ", ": rejected: model: the relation isn't one of KT: world 0 "):
        report.check("show of mixed certificates: %s" % words, words in written, written)
    report.compare("show of mixed certificates: status", 1, status)


def check_numbers(report, folder):
    """Several models have pictures with numbers, and one name for all is refused before anything is written."""
    path = os.path.join(folder, "two.txt")
    write(path, text_of(MODEL) + "between\n" + text_of("examples/check/loeb-in-gl.txt") + text_of("examples/check/one-dead-end.txt"))
    for option, ending in (("--svg", "svg"), ("--dot", "dot")):
        for pattern in ("one." + ending, "-"):
            written, status = run("tools/show", path, option, os.path.join(folder, pattern) if pattern != "-" else "-")
            report.check("show %s %s of two models" % (option, pattern), status == 2 and written.count("\n") == 1, written)
        written, status = run("tools/show", path, option, os.path.join(folder, "n%d." + ending))
        report.compare("show %s of two models: status" % option, 0, status)
        for number, name in ((1, MODEL), (2, "examples/check/one-dead-end.txt")):
            alone, _ = run("tools/show", name, option, "-")
            report.compare("show %s, number %d" % (option, number), alone, text_of(os.path.join(folder, "n%d.%s" % (number, ending))))
    report.compare("show with numbers leaves nothing else", {"two.txt", "n1.svg", "n2.svg", "n1.dot", "n2.dot"}, set(os.listdir(folder)))


def check_whole(report, folder):
    """The picture is there though the pipe of the text is closed; and where it can't be written the old one stays."""
    path = os.path.join(folder, "out.svg")
    reading, writing = os.pipe()
    os.close(reading)
    command = [os.path.join(TOP, "tools", "show"), os.path.join(TOP, MODEL), "--svg", path]
    done = subprocess.run(command, stdout=writing, stderr=subprocess.PIPE, check=False)
    os.close(writing)
    report.compare("show into a closed pipe: status", 4, done.returncode)
    report.compare("show into a closed pipe: picture", run("tools/show", MODEL, "--svg", "-")[0], text_of(path))
    link = os.path.join(folder, "link.svg")
    os.symlink("out.svg", link)
    run("tools/show", "examples/check/one-dead-end.txt", "--svg", link)
    report.check("show keeps a link", os.path.islink(link) and "one-dead-end" not in text_of(path))
    report.compare("show through a link", run("tools/show", "examples/check/one-dead-end.txt", "--svg", "-")[0], text_of(path))
    done = subprocess.run(command[:-1] + [os.path.join(folder, "nosuch", "out.svg")], capture_output=True, check=False, text=True)
    report.check("show into no folder", done.returncode == 4 and done.stderr.count("\n") == 1 and "nosuch/out.svg:" in done.stderr and not done.stdout, done.stderr)


def check_own(report, folder):
    """A model without a certificate, and what is true in it."""
    path = os.path.join(folder, "ring.txt")
    also = ("--also", "box p", "--also", "dia(p&q)", "--also", "((~p))  v box ~p")
    for text in (RING, RING.replace("\n", "\r\n"), "model\n" + RING + "end", RING + "\n\n"):
        write(path, text)
        report.compare("show --model %r" % text, (RING_SHOWN, 0), run("tools/show", "--model", path, *also))
    write(path, RING.replace("3\n", "3\nrefuted 2\n"))
    report.check("show --model with refuted", "2 refuting  0" in run("tools/show", "--model", path)[0])
    written, _ = run("tools/show", "--model", path, "--unicode", "--also", "box p", "--also", "p -> dia ~p", "--also", "true & ~false <-> (q v ~q)")
    report.check("show --model --unicode", written.endswith(UNICODE), written)
    report.check("show --model --svg -", run("tools/show", "--model", path, "--svg", "-")[0].startswith("<svg "))
    for text, line in NO_MODELS:
        write(path, text)
        written, status = run("tools/show", "--model", path)
        report.check("show --model %r" % text, status == 2 and written.count("\n") == 1 and ": line %d: " % line in written, written)


def check_also(report):
    """Formulas besides those of the certificate; one that is there already is told once."""
    written, status = run("tools/show", "examples/check/three-worlds-refute-transitivity.txt", "--also", "dia ~p", "--also", "box p")
    report.check("show --also", status == 0 and written.endswith("1 2      box p -> box box p\n1 2      dia ~p\n"), written)
    for text in NO_FORMULAS:
        written, status = run("tools/show", MODEL, "--also", text)
        report.check("show --also %r" % text, status == 2 and written.count("\n") == 1, written)
    written, status = run("tools/show", "examples/check/loeb-in-gl.txt", "--also", "p")
    report.check("show --also of a proof", status == 1 and written.count("\n") == 1, written)


def check_all(report):
    check_output(report)
    for check in (check_mixed, check_numbers, check_whole, check_own):
        with tempfile.TemporaryDirectory() as folder:
            check(report, folder)
    check_also(report)
