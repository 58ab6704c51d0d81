"""The standard translation of modal formulas into first-order logic, with the frame axioms of a logic, in DFG and in TPTP.

A world is a variable, a modal variable a predicate of it, and box a quantifier over what the relation r reaches. The goal is
valid in the logic exactly where the axioms give it at all worlds. Source: Blackburn, de Rijke, Venema, Modal Logic, 2.4.
GL and Grz have no such axioms; so there is no row for them, and asking for one raises KeyError.
"""

# each axiom as a first-order formula: (quantifier, variable, a), (connective, a..), ("r", x, y)
REFLEXIVE = ("forall", "X", ("r", "X", "X"))
SERIAL = ("forall", "X", ("exists", "Y", ("r", "X", "Y")))
SYMMETRIC = ("forall", "X", ("forall", "Y", ("implies", ("r", "X", "Y"), ("r", "Y", "X"))))
TRANSITIVE = (
    "forall", "X",
    ("forall", "Y", ("forall", "Z", ("implies", ("and", ("r", "X", "Y"), ("r", "Y", "Z")), ("r", "X", "Z")))),
)
AXIOMS = {
    "k": [],
    "kt": [REFLEXIVE],
    "kd": [SERIAL],
    "k4": [TRANSITIVE],
    "s4": [REFLEXIVE, TRANSITIVE],
    "s5": [REFLEXIVE, SYMMETRIC, TRANSITIVE],
}
CONNECTIVES = {"~": "not", "&": "and", "v": "or", "->": "implies", "<->": "equiv"}
TPTP_SIGNS = {"and": "&", "or": "|", "implies": "=>", "equiv": "<=>"}
QUANTIFIERS = {"forall": "!", "exists": "?"}


def standard(a, depth=0):
    """The formula at the world X0, X1, .., by how many modalities it stands under."""
    world = "X%d" % depth
    if a[0] in ("true", "false"):
        return a
    if a[0] == "letter":
        return ("at", "p_" + a[1], world)
    if a[0] in CONNECTIVES:
        return (CONNECTIVES[a[0]],) + tuple(standard(b, depth) for b in a[1:])
    seen, inner = "X%d" % (depth + 1), standard(a[1], depth + 1)
    quantifier, connective = {"box": ("forall", "implies"), "dia": ("exists", "and")}[a[0]]
    return (quantifier, seen, (connective, ("r", world, seen), inner))


def in_dfg(a):
    if a[0] in ("true", "false"):
        return a[0]
    if a[0] == "at":
        return "%s(%s)" % a[1:]
    if a[0] == "r":
        return "r(%s,%s)" % a[1:]
    if a[0] in QUANTIFIERS:
        return "%s([%s],%s)" % (a[0], a[1], in_dfg(a[2]))
    return "%s(%s)" % (a[0], ",".join(in_dfg(b) for b in a[1:]))


def in_tptp(a):
    if a[0] in ("true", "false"):
        return "$" + a[0]
    if a[0] == "at":
        return "%s(%s)" % a[1:]
    if a[0] == "r":
        return "r(%s,%s)" % a[1:]
    if a[0] in QUANTIFIERS:
        return "(%s[%s]: %s)" % (QUANTIFIERS[a[0]], a[1], in_tptp(a[2]))
    if a[0] == "not":
        return "~(%s)" % in_tptp(a[1])
    return "(%s %s %s)" % (in_tptp(a[1]), TPTP_SIGNS[a[0]], in_tptp(a[2]))


def predicates(a):
    """The predicates of worlds in a first-order formula."""
    found, waiting = set(), [a]
    while waiting:
        b = waiting.pop()
        if b[0] == "at":
            found.add(b[1])
        waiting += [c for c in b[1:] if isinstance(c, tuple)]
    return sorted(found)


def dfg(logic, goal):
    """The question whether the goal is valid in the logic, as a problem for SPASS; KeyError for a logic without axioms."""
    a = standard(goal)
    names = ["(%s,1)" % name for name in predicates(a)] + ["(r,2)"]
    axioms = "".join("formula(%s).\n" % in_dfg(b) for b in AXIOMS[logic])
    return (
        "begin_problem(goal).\nlist_of_descriptions.\nname({*goal*}).\nauthor({*bench/run*}).\nstatus(unknown).\n"
        "description({*standard translation*}).\nend_of_list.\nlist_of_symbols.\npredicates[%s].\nend_of_list.\n"
        "list_of_formulae(axioms).\n%send_of_list.\nlist_of_formulae(conjectures).\nformula(forall([X0],%s)).\nend_of_list.\n"
        "end_problem.\n" % (",".join(names), axioms, in_dfg(a))
    )


def tptp(logic, goal):
    """The same question for E."""
    axioms = ["fof(frame%d, axiom, %s).\n" % (i, in_tptp(a)) for i, a in enumerate(AXIOMS[logic])]
    return "".join(axioms) + "fof(goal, conjecture, (![X0]: %s)).\n" % in_tptp(standard(goal))
