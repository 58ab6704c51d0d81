"""Why a step breaks its rule, and why a model doesn't refute its formula."""

from certificates.calculus import RULES, flip, is_nu, is_pi, one, two
from certificates.formulas import printed, subformulas
from certificates.models import true_worlds
from showing.words import LOGIC_NAMES, signed


def is_modal(s):
    return is_nu(s) or is_pi(s)


# what the principal of each rule has to be, whatever the set is
SHAPES = {
    "close": (lambda s: s[0] == "T", "signed T"),
    "absurd": (lambda s: (s[0], s[1][0]) in (("T", "false"), ("F", "true")), "`T false` or `F true`"),
    "one": (lambda s: one(s) is not None, "in the table of `one`"),
    "two": (lambda s: two(s) is not None, "in the table of `two`"),
    "refl": (is_nu, "a ν, `T box A` or `F dia A`"),
    "step": (is_pi, "a π, `F box A` or `T dia A`"),
    "serial": (is_nu, "a ν, `T box A` or `F dia A`"),
    "cut": (lambda s: s[0] == "T" and is_modal(s), "signed T, and begins with `box` or `dia`"),
}


def of_step(logic, goal, have, rule, s, form=printed):
    """Why the step breaks its rule: the logic, then the principal's shape, then what the set lacks, then the goal."""
    if logic not in RULES[rule][0]:
        return "the rule %s isn't one of %s" % (rule, LOGIC_NAMES[logic])
    fits, shape = SHAPES[rule]
    if not fits(s):
        return "the principal of %s is %s, and %s isn't" % (rule, shape, signed(s, form))
    if rule == "cut":
        return "%s is no subformula of the goal" % form(s[1]) if s[1] not in subformulas(goal) else None
    for wanted in [s, flip(s)] if rule == "close" else [s]:
        if wanted not in have:
            return "%s isn't in the set" % signed(wanted, form)
    return None


def pairs(sees):
    return [(w, v) for w, row in enumerate(sees) for v in row]


def not_reflexive(sees):
    return next(("world %d doesn't see itself" % w for w, row in enumerate(sees) if w not in row), None)


def not_serial(sees):
    return next(("world %d sees no world" % w for w, row in enumerate(sees) if not row), None)


def not_irreflexive(sees):
    return next(("world %d sees itself" % w for w, row in enumerate(sees) if w in row), None)


def not_symmetric(sees):
    return next(("world %d sees %d, and isn't seen from it" % (w, v) for w, v in pairs(sees) if w not in sees[v]), None)


def not_antisymmetric(sees):
    return next(("the worlds %d and %d see each other" % (w, v) for w, v in pairs(sees) if w != v and w in sees[v]), None)


def not_transitive(sees):
    for w, v in pairs(sees):
        missing = set(sees[v]) - set(sees[w])
        if missing:
            return "world %d sees %d, which sees %d, and it doesn't see %d" % (w, v, min(missing), min(missing))
    return None


CLASSES = {
    "k": [],
    "kt": [not_reflexive],
    "k4": [not_transitive],
    "kd": [not_serial],
    "s4": [not_reflexive, not_transitive],
    "s5": [not_reflexive, not_symmetric, not_transitive],
    "gl": [not_transitive, not_irreflexive],
    "grz": [not_reflexive, not_transitive, not_antisymmetric],
}


def of_class(logic, sees):
    """Why the relation isn't one of the logic's, or None."""
    rows = [set(row) for row in sees]
    return next((why for why in (test(rows) for test in CLASSES[logic]) if why), None)


def of_model(logic, goal, model):
    """Why the model doesn't refute the formula in the logic, or None."""
    sees, facts, refuted = model
    why = of_class(logic, sees)
    if why:
        return "the relation isn't one of %s: %s" % (LOGIC_NAMES[logic], why)
    if refuted in true_worlds(sees, facts, goal, {}):
        return "the formula is true at world %d" % refuted
    return None
