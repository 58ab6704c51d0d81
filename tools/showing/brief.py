"""A proof as an indented tree, a line for each step: its rule, its principal, and what is new in the set that it leaves.

The kinds α, β, ν and π are those of uniform notation (Fitting, Proof Methods for Modal and Intuitionistic Logics, 1983).
"""

from certificates.formulas import printed
from showing import reasons
from showing.places import NEW_WORLD, closing, fresh, kind, visits
from showing.words import counted, listed, signed

LEGEND = [
    "Each line has the rule, the principal with its kind, and behind => what is new; two premises stand farther in.",
    "A world that is gone to is set apart by |, and begins with its whole set.",
]


def told_new(place, additions, form):
    return listed(fresh(place, additions), form) if fresh(place, additions) else "nothing new"


def outcome(visit, form):
    """What stands behind the principal."""
    if not visit.additions:
        return closing(visit, lambda s: signed(s, form))
    if visit.rule in NEW_WORLD:
        return " => world %d" % (visit.place.world + 1)
    return " => " + " | ".join(told_new(visit.place, added, form) for added in visit.additions)


def broken(logic, goal, visit, behind, form):
    """What is said of the step that breaks its rule: why, its whole set, and how much isn't shown."""
    yield "breaks its rule: %s" % reasons.of_step(logic, goal, visit.have, visit.rule, visit.principal, form)
    yield "its set has %s" % listed(visit.place.formulas, form)
    if behind:
        yield "(%s behind it %s not shown)" % (counted(behind, "step"), "is" if behind == 1 else "are")


def step_line(visit, form):
    """The step without its margin, and without what is said where it breaks its rule."""
    told = "%d. %s %s%s" % (visit.number, visit.rule, kind(visit.principal), signed(visit.principal, form))
    return told if visit.left is None else told + outcome(visit, form)


def heading(place, form):
    return "world %d: %s" % (place.world, listed(place.formulas, form))


def lines(logic, goal, steps, form=printed):
    """The tree, up to the first step that breaks its rule, with the formulas as `form` writes them."""
    yield from LEGEND
    for visit in visits(logic, goal, steps):
        margin = visit.place.margin
        if visit.place.is_world():
            yield margin + heading(visit.place, form)
        yield margin + step_line(visit, form)
        if visit.left is None:
            for line in broken(logic, goal, visit, len(steps) - visit.number, form):
                yield "%s   %s" % (margin, line)
