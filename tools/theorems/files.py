"""What stands in a file for Coq: the definitions of a certificate, and the theorem that they show or the answer of the check."""

from certificates.calculus import guard, is_pi
from certificates.formulas import printed
from theorems.formulas import Definitions, Table, Variables

LOGICS = {"k": "K", "kt": "KT", "k4": "K4", "kd": "KD", "s4": "S4", "s5": "S5", "gl": "GL", "grz": "Grz"}
RULES = {
    "close": "ByClose", "absurd": "ByAbsurd", "one": "ByOne", "two": "ByTwo",
    "refl": "ByRefl", "step": "ByStep", "serial": "BySerial", "cut": "ByCut",
}
SIGNS = {"T": "yes", "F": "no"}
GUARDED = {"k": False, "kt": False, "k4": False, "kd": False, "s4": False, "s5": False, "gl": False, "grz": True}
# how many items of a list stand in one piece
PIECE = 1000
HEAD = ["Require Import Modal Models Numbered.", "Require Import List PArith.", "Import ListNotations.", "Open Scope positive_scope."]


def bracketed(items):
    """The lines of a list of Coq, an item a line."""
    return ["["] + ["    %s;" % item for item in items[:-1]] + ["    %s" % item for item in items[-1:]] + ["  ]"]


def defined_list(name, kind, items):
    """The lines that define a list, in pieces, since coqc reads a list by recursion over its length."""
    pieces = [items[at : at + PIECE] for at in range(0, len(items), PIECE)]
    lines = []
    for count, piece in enumerate(pieces, 1):
        lines += define("%s%d" % (name, count), "list %s" % kind, bracketed(piece))
    joined = " ++ ".join("%s%d" % (name, count) for count in range(1, len(pieces) + 1))
    return lines + define(name, "list %s" % kind, [joined or "[]"])


def define(name, kind, lines):
    text = ["Definition %s : %s := %s" % (name, kind, lines[0])] + lines[1:]
    text[-1] += "."
    return text


def guards_of(logic, steps, table):
    """The pairs of the number of a principal's formula and of its guard's, for each step that adds a guard."""
    found = {}
    for rule, s in steps:
        if GUARDED[logic] and rule == "step" and is_pi(s):
            found[table.number(s[1])] = table.number(guard(s)[1])
    return ["(%d, %d)" % pair for pair in found.items()]


def proof_lines(logic, goal, steps, variables):
    table = Table(variables)
    number = table.number(goal)
    lines = ["(%s, %s %d)" % (RULES[rule], SIGNS[sign], table.number(a)) for rule, (sign, a) in steps]
    guards = guards_of(logic, steps, table)
    return (
        defined_list("rows", "form", table.rows)
        + defined_list("guards", "(positive * positive)", guards)
        + defined_list("steps", "(rule * positive)", lines)
        + ["Definition shown : numbered_proof := Numbered rows guards %d steps." % number]
    )


def model_lines(model, variables):
    """World I of the certificate is the number I + 1."""
    sees, facts, _ = model
    rows = [
        "([%s], [%s])" % ("; ".join(str(v + 1) for v in seen), "; ".join(str(variables.number(name)) for name in sorted(names)))
        for seen, names in zip(sees, facts)
    ]
    return defined_list("shown", "(list positive * list positive)", rows)


def definitions(certificate):
    """The lines that define the formula f and what shows the answer, behind a comment that says what it is."""
    logic, goal, body = certificate
    variables = Variables()
    formula = Definitions(variables, goal).lines
    shown = proof_lines(logic, goal, body, variables) if isinstance(body, list) else model_lines(body, variables)
    names = ", ".join("%d is %s" % (number, name) for name, number in variables.numbers.items())
    told = ["(* f is the formula", "     %s" % printed(goal), "   of which the certificate is in %s. Variables: %s. *)" % (logic, names or "none")]
    return told + formula + [""] + shown


def call(certificate):
    """The word of the check and its operands, and the law that it is sound."""
    logic, _, body = certificate
    if isinstance(body, list):
        return "check_numbered %s f shown" % LOGICS[logic], "check_numbered_sound %s f shown" % LOGICS[logic]
    told = "%s shown %d f" % (LOGICS[logic], body[2] + 1)
    return "refutes " + told, "refutes_sound " + told


def theorem(certificate):
    """The lines of a file with the theorem. Raises KeyError where a logic or a rule has no row."""
    logic, _, body = certificate
    claim = "valid" if isinstance(body, list) else "~ valid"
    proof = ["Proof.", "  apply (%s)." % call(certificate)[1], "  vm_compute; reflexivity.", "Qed."]
    return HEAD + [""] + definitions(certificate) + ["", "Theorem answer : %s %s f." % (claim, LOGICS[logic])] + proof


def answers(certificates):
    """The lines of a file for which coqc writes, for each of the certificates in order, whether its check computes to true."""
    lines = list(HEAD)
    for count, certificate in enumerate(certificates, 1):
        asked = "Eval vm_compute in %s." % call(certificate)[0]
        lines += ["", "Module Certificate%d." % count] + definitions(certificate) + [asked, "End Certificate%d." % count]
    return lines
