"""Whether tools/from-other turns its examples, whose answers the prover of examples/provers gives, and refuses by name."""

import glob
import os

from certificates.formulas import printed
from checks.provers import answer_of
from checks.report import TOP, text_of
from checks.running import run
from exchange.forms import FORMS
from exchange.reading import CannotTurn

# a problem in DFG, by its symbols, its list of formulas, and what stands in that list
DFG = """begin_problem(p).
list_of_descriptions.
name({*a*}). author({*b*}). status(unknown). description({*c*}).
end_of_list.
list_of_symbols.
%s
end_of_list.
list_of_special_formulae(%s, eml).
%s
end_of_list.
end_problem.
"""


def problem(formula):
    return DFG % ("predicates[r, s, p, q, P, (R, 2)].", "conjectures", "prop_formula(" + formula + ").")


# a form, a text in it, and what is said of it
REFUSED = [
    ("dfg", "begin_problem(by).", "line 1 column 15: `by` isn't understood here"),
    ("dfg", "begin_problem(p)", "line 1 column 17: the text ends too early"),
    ("dfg", DFG % ("functions[f].", "conjectures", ""), "line 6 column 1: `functions`, first-order symbols, isn't turned"),
    ("dfg", DFG % ("predicates[p, step].", "conjectures", ""), "line 6 column 15: `step` isn't understood here"),
    ("dfg", DFG % ("", "axioms", "prop_formula(true)."), "line 8 column 26: `axioms`, formulas that are to be true at all worlds"),
    ("dfg", DFG % ("", "conjectures", "rel_formula(id)."), "line 9 column 1: `rel_formula`, a formula of relations, isn't turned"),
    ("dfg", problem("p).\nprop_formula(q"), "line 10 column 1: `prop_formula`, a second formula, isn't turned"),
    ("dfg", problem("and(p, box(r, p), dia(s, q))"), "line 9 column 36: `s`, another relation, isn't turned: there is one, r"),
    ("dfg", problem("box(conv(r), p)"), "line 9 column 18: `conv`, a relation that isn't a name, isn't turned"),
    ("dfg", problem("box(R, p)"), "line 9 column 18: `R` is declared with the arity 2, and has no arguments here"),
    ("dfg", problem("x"), "line 9 column 14: `x` isn't declared among the predicates"),
    ("dfg", problem("P"), "line 9 column 14: `P` isn't turned, since it can't be the name of a variable in the workbench"),
    ("dfg", problem("xor(p, q)"), "line 9 column 14: `xor`, a connective that SPASS 3.9 reads and doesn't translate, isn't turned"),
    ("dfg", problem("not(p, q)"), "line 9 column 19: `,` isn't understood here"),
    ("dfg", problem("and()"), "line 9 column 18: `)` isn't understood here"),
    ("dfg", problem("p") + "p", "line 12 column 1: `p` isn't understood here"),
]


def said_of(form, text):
    try:
        return "turned: " + printed(FORMS[form].read(text))
    except CannotTurn as error:
        return str(error)


def answer_in_k(formula):
    """Whether the formula is valid, by the example prover's certificate."""
    return "valid in k" if answer_of(formula) == "proof" else "not valid in k"


def check_examples(report):
    for form in FORMS:
        paths = sorted(glob.glob(os.path.join(TOP, "examples", "from-other", form, "*." + form)))
        report.check("ten examples of %s" % form, len(paths) >= 10)
        for path in paths:
            formula, answer = text_of(path[: -len(form)] + "expected").splitlines()
            report.compare("from-other %s %s" % (form, path), (formula + "\n", 0), run("tools/from-other", form, path))
            report.compare("answer of %s" % path, answer, answer_in_k(formula))


def check_script(report):
    path = "examples/from-other/dfg/reflexivity.dfg"
    wanted = "print certificate(s4, box p -> p);\n"
    report.compare("from-other --script", (wanted, 0), run("tools/from-other", "--script", "s4", "dfg", path))


def check_turned(report):
    """What stands with one operand, with many, or with a label."""
    rows = [
        ("and(p)", "p"),
        ("or(p, q, and(p, q, p))", "p v q v p & q & p"),
        ("true, label", "true"),
        ("some(r, all(r, false))", "dia box false"),
    ]
    for formula, wanted in rows:
        report.compare("dfg: %s" % formula, "turned: " + wanted, said_of("dfg", problem(formula)))


def check_refused(report):
    for form, text, wanted in REFUSED:
        said = said_of(form, text)
        report.check("%s: %r" % (form, text), said.startswith(wanted), said)


def check_all(report):
    check_examples(report)
    check_script(report)
    check_turned(report)
    check_refused(report)
