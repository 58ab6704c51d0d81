"""Whether tools/show says what the second checker says, and leaves out of a model what follows."""

import glob
import os

from certificates.calculus import first_break, flip, walk
from certificates.judge import verdict
from certificates.models import true_worlds
from certificates.texts import ARITY, LOGICS, read
from checks.report import TOP
from checks.running import run
from showing import graph, quotient, reasons, reduction

CERTIFICATES = os.path.join(TOP, "examples", "check")
GRAPH = """digraph model {
    compound=true;
    node [shape=circle];
    0 [label="0", shape=doublecircle];
    subgraph cluster_1 {
        1 [label="1\\np"];
        2 [label="2\\nq"];
    }
    0 -> 1 [lhead=cluster_1];
}"""


def data_of(name):
    with open(os.path.join(CERTIFICATES, name + ".txt"), "rb") as file:
        return file.read()


def names_of_certificates():
    return sorted(os.path.basename(path)[: -len(".txt")] for path in glob.glob(os.path.join(CERTIFICATES, "*.txt")))


def models():
    """The models among the certificates: name, logic, formula and model."""
    for name in names_of_certificates():
        if not verdict(data_of(name))[0].startswith("fault"):
            logic, goal, body = read(data_of(name))
            if not isinstance(body, list):
                yield name, logic, goal, body


def check_first_lines(report):
    """The first line begins with the checker's own, and the status is its own; text behind `end` is no matter here."""
    for name in names_of_certificates():
        if "behind-the-end" in name:
            continue
        line, status = verdict(data_of(name))
        written, ended = run("tools/show", "examples/check/%s.txt" % name)
        report.check("show %s" % name, written.startswith(line) and ended == status, written.split("\n")[0])


def damaged_proofs():
    """Proofs with another rule of as many premises, or with the principal under the other sign, at one step."""
    for name in names_of_certificates():
        data = data_of(name)
        if len(data) < 2000 and not verdict(data)[0].startswith("fault") and isinstance(read(data)[2], list):
            logic, goal, steps = read(data)
            for at, (rule, s) in enumerate(steps):
                for other in ARITY:
                    if ARITY[other] == ARITY[rule]:
                        yield goal, steps[:at] + [(other, s)] + steps[at + 1 :]
                        yield goal, steps[:at] + [(other, flip(s))] + steps[at + 1 :]


def check_reasons(report):
    """A step that breaks its rule has a reason, in each logic, and no other step has one."""
    for goal, steps in damaged_proofs():
        for logic in LOGICS:
            for count, rule, s, have, left in walk(logic, goal, steps):
                why = reasons.of_step(logic, goal, have, rule, s)
                if (why is None) != (left is not None):
                    report.check("reason of %s %s in %s" % (rule, s, logic), False, str(why))
    report.check("reasons of steps", True)


# the conditions by which the relation of a logic follows from its reduced arrows
CLOSED_UNDER = {
    "k": (),
    "kt": ("reflexive",),
    "k4": ("transitive",),
    "kd": (),
    "s4": ("reflexive", "transitive"),
    "s5": ("reflexive", "symmetric", "transitive"),
    "gl": ("transitive",),
    "grz": ("reflexive", "transitive"),
}


def closure(logic, count, arrows):
    """The least relation with these arrows that is reflexive, symmetric or transitive as the logic's are."""
    seen = [set() for _ in range(count)]
    for v, w in arrows:
        seen[v].add(w)
        if "symmetric" in CLOSED_UNDER[logic]:
            seen[w].add(v)
    if "reflexive" in CLOSED_UNDER[logic]:
        for w in range(count):
            seen[w].add(w)
    if "transitive" in CLOSED_UNDER[logic]:
        for through in range(count):
            for w in range(count):
                if through in seen[w]:
                    seen[w] |= seen[through]
    return [sorted(row) for row in seen]


def check_reduction(report, name, logic, sees):
    """What is left out follows from the class, and the less can be left out of what is drawn."""
    arrows, left_out = reduction.drawn_arrows(logic, sees, True)
    if reasons.of_class(logic, sees) is None:
        report.compare("reduced %s" % name, [sorted(row) for row in sees], closure(logic, len(sees), arrows))


def check_reductions(report):
    for name, logic, _, model in models():
        check_reduction(report, name, logic, model[0])


def check_graph(report):
    logic, goal, model = read(data_of("two-worlds-see-each-other"))
    arrows, left_out = reduction.drawn_arrows(logic, model[0], True)
    report.compare("graph of two-worlds-see-each-other", GRAPH, "\n".join(graph.lines(model, arrows)))


def check_smallest(report):
    """A model found by hand; and of each example: the same is true at a world and at its place, and no worlds are left to join."""
    fork = ([[1, 3], [2], [], [4], []], [set(), {"p"}, {"q"}, {"r"}, {"q"}], 3)
    report.check("smallest model of a fork", quotient.smallest(fork) == (([[1, 3], [2], [], [2]], [set(), {"p"}, {"q"}, {"r"}], 3), [0, 1, 2, 3, 2]))
    for name, _, goal, model in models():
        smaller, places = quotient.smallest(model)
        known, there = {}, {}
        true_worlds(model[0], model[1], goal, known)
        true_worlds(smaller[0], smaller[1], goal, there)
        same = all((w in known[a]) == (place in there[a]) for a in known for w, place in enumerate(places))
        report.check("smallest model of %s" % name, same and quotient.smallest(smaller)[0][0] == smaller[0] and smaller[2] == places[model[2]])


BOX_P, TWICE, DIA_P = ("box", ("letter", "p")), ("box", ("box", ("letter", "p"))), ("dia", ("letter", "p"))
# judged by hand from the rules, as formulas and steps, since no text names these two logics yet: the number of the first step that
# breaks its rule, or None
SMALL_PROOFS = [
    ("k4", ("->", BOX_P, TWICE), [("step", ("F", TWICE)), ("step", ("F", BOX_P)), ("close", ("T", BOX_P[1]))], None),
    ("k", ("->", BOX_P, TWICE), [("step", ("F", TWICE)), ("step", ("F", BOX_P)), ("close", ("T", BOX_P[1]))], 4),
    ("k4", ("->", BOX_P, BOX_P[1]), [("refl", ("T", BOX_P)), ("close", ("T", BOX_P[1]))], 2),
    ("kd", ("->", BOX_P, DIA_P), [("serial", ("T", BOX_P)), ("close", ("T", BOX_P[1]))], None),
    ("k", ("->", BOX_P, DIA_P), [("serial", ("T", BOX_P)), ("close", ("T", BOX_P[1]))], 2),
    ("kd", ("->", BOX_P, DIA_P), [("serial", ("T", BOX_P[1])), ("close", ("T", BOX_P[1]))], 2),
]


def check_small_proofs(report):
    """Proofs of K4 and KD are judged by their own rows."""
    for logic, goal, steps, wanted in SMALL_PROOFS:
        report.compare("%s: %s" % (logic, goal), wanted, first_break(logic, goal, [("one", ("F", goal))] + steps))


def check_all(report):
    check_small_proofs(report)
    check_first_lines(report)
    check_reasons(report)
    check_reductions(report)
    check_graph(report)
    check_smallest(report)
