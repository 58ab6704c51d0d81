"""The steps of a proof, each with the set that it closes in the order in which its formulas came, and what is new in it."""

from certificates.calculus import flip, is_nu, is_pi, one, two, walk
from showing.proofs import explained

NEW_WORLD, BRANCHING = ("step", "serial"), ("two", "cut")


class Place:
    """A set that waits to be closed: its formulas in order, those that are new, the number of the step above it (0 where
    there is none), the number of its world (how many steps to other worlds lead to it), and the margin of its lines."""

    def __init__(self, formulas, new, above, world, margin):
        self.formulas, self.new, self.above, self.world, self.margin = formulas, new, above, world, margin

    def is_world(self):
        """Whether a world begins here: then all of the set is new."""
        return len(self.new) == len(self.formulas)


class Visit:
    """A step at its place: its number from 1, its rule, its principal, its set, and what its premises add. Where it breaks
    its rule, `left` is None, and nothing is said to be added."""

    def __init__(self, number, rule, principal, have, left, place):
        self.number, self.rule, self.principal, self.have, self.left, self.place = number, rule, principal, have, left, place
        self.additions = []

    def premises(self):
        """The places of the premises, the first one first."""
        return [below(self, added) for added in self.additions]


def kind(s):
    """The name of the formula's kind in uniform notation, or nothing for a variable or a constant."""
    tests = (("α", one(s) is not None), ("β", two(s) is not None), ("ν", is_nu(s)), ("π", is_pi(s)))
    return next((name + " " for name, holds in tests if holds), "")


def fresh(place, additions):
    """What is added and isn't in the set, each once."""
    return [s for s in dict.fromkeys(additions) if s not in place.formulas]


def below(visit, added):
    """The place of the premise that adds this."""
    place = visit.place
    if visit.rule in NEW_WORLD:
        formulas = list(dict.fromkeys(added))
        return Place(formulas, formulas, visit.number, place.world + 1, place.margin + "| ")
    new = fresh(place, added)
    margin = place.margin + ("  " if visit.rule in BRANCHING else "")
    return Place(place.formulas + new, new, visit.number, place.world, margin)


def visits(logic, goal, steps):
    """The steps in their order, up to the first that breaks its rule."""
    start = [("F", goal)]
    waiting = [Place(start, start, 0, 0, "")]
    for number, rule, s, have, left in walk(logic, goal, steps):
        visit = Visit(number, rule, s, have, left, waiting.pop())
        if left is not None:
            visit.additions = explained(logic, rule, s, visit.place)[1]
            waiting += reversed(visit.premises())
        yield visit


class Unfinished:
    """A step, and how many of its premises aren't closed yet; one that breaks its rule is never closed."""

    def __init__(self, visit):
        self.visit, self.wanting = visit, 1 if visit.left is None else len(visit.left)


def taken_ends(unfinished):
    """Takes the steps that are closed whole from the end of the list: the innermost first."""
    while unfinished and unfinished[-1].wanting == 0:
        yield unfinished.pop().visit
        if unfinished:
            unfinished[-1].wanting -= 1


def with_ends(steps):
    """Each of these steps, with those that are closed whole once it is: the innermost first, and none behind a step that
    has premises or that breaks its rule."""
    unfinished = []
    for visit in steps:
        unfinished.append(Unfinished(visit))
        yield visit, list(taken_ends(unfinished))


def closing(visit, signed_text):
    """What is said of a step without premises behind its principal."""
    return " with %s" % signed_text(flip(visit.principal)) if visit.rule == "close" else " can't hold"
