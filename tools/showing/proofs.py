"""A proof as an indented tree, with the whole set at each step."""

from certificates.calculus import component, flip, one, step_parts, two, under_nus, walk
from certificates.formulas import printed
from showing import reasons
from showing.words import LOGIC_NAMES, counted, listed, signed

LEGEND = "Below each step's rule stands the set that it has to close: > is its principal, + is new in it."


class Place:
    """What is shown of a set that waits to be closed: its formulas in order, those that are new, and where it stands."""

    def __init__(self, formulas, new, indent, heading):
        self.formulas, self.new, self.indent, self.heading = formulas, new, indent, heading


def below(place, have, additions, indent, heading):
    """The place of a premise: what is left of the set above in its order, and then what is new."""
    above = [s for s in place.formulas if s in have]
    new = []
    for s in additions:
        if s not in place.formulas and s not in new:
            new.append(s)
    return Place(above + new, set(new), indent, heading)


def step_lines(logic, parts, form):
    yield "goes to a world that is seen; in %s its set has" % LOGIC_NAMES[logic]
    for name, part in parts:
        yield "  %s: %s" % (name, listed(part, form))


def branching(sides, form):
    return ["leaves two sets, with %s and with %s" % (listed(sides[0], form), listed(sides[1], form))]


def explain_close(logic, s, place, form):
    return ["%s and %s can't both hold" % (signed(s, form), signed(flip(s), form))], []


def explain_absurd(logic, s, place, form):
    return ["%s can't hold" % signed(s, form)], []


def explain_one(logic, s, place, form):
    return ["leaves the set with %s" % listed(one(s), form)], [one(s)]


def explain_two(logic, s, place, form):
    return branching(two(s), form), list(two(s))


def explain_refl(logic, s, place, form):
    return ["each world sees itself, so leaves the set with %s" % listed([component(s)], form)], [[component(s)]]


def explain_cut(logic, s, place, form):
    return branching(([s], [flip(s)]), form), [[s], [flip(s)]]


def explain_step(logic, s, place, form):
    parts = step_parts(logic, s, place.formulas)
    return list(step_lines(logic, parts, form)), [[t for name, part in parts for t in part]]


def explain_serial(logic, s, place, form):
    under = under_nus(place.formulas)
    told = ["each world sees a world, so goes to one; in %s its set has" % LOGIC_NAMES[logic]]
    return told + ["  the components of all ν: %s" % listed(under, form)], [under]


EXPLAINED = {
    "close": explain_close,
    "absurd": explain_absurd,
    "one": explain_one,
    "two": explain_two,
    "refl": explain_refl,
    "step": explain_step,
    "serial": explain_serial,
    "cut": explain_cut,
}


def explained(logic, rule, s, place, form=printed):
    """What the step does, in lines, and what each of its premises adds. Raises KeyError where the rule has no row."""
    return EXPLAINED[rule](logic, s, place, form)


def set_lines(place, principal, form):
    for s in place.formulas:
        yield "%s%s %s" % (">" if s == principal else " ", "+" if s in place.new else " ", signed(s, form))


def premise_places(place, left, additions, form):
    """The places of the premises; where there are two, each stands under a heading and farther in."""
    if len(left) == 1:
        return [below(place, left[0], additions[0], place.indent, None)]
    indent = place.indent + "  "
    return [below(place, have, added, indent, "with %s:" % listed(added, form)) for have, added in zip(left, additions)]


def broken(logic, goal, have, rule, s, behind, form):
    why = reasons.of_step(logic, goal, have, rule, s, form)
    yield "breaks its rule: %s" % why
    if behind:
        yield "(%s behind it %s not shown)" % (counted(behind, "step"), "is" if behind == 1 else "are")


def lines(logic, goal, steps, form=printed):
    """The tree, up to the first step that breaks its rule, with the formulas as `form` writes them."""
    yield LEGEND
    waiting = [Place([("F", goal)], set(), "", None)]
    for number, rule, s, have, left in walk(logic, goal, steps):
        place = waiting.pop()
        if place.heading:
            yield place.indent[:-2] + place.heading
        yield "%s%d. %s" % (place.indent, number, rule)
        for line in set_lines(place, s, form):
            yield "%s     %s" % (place.indent, line)
        if left is None:
            told = broken(logic, goal, have, rule, s, len(steps) - number, form)
        else:
            told, additions = explained(logic, rule, s, place, form)
            waiting += reversed(premise_places(place, left, additions, form))
        for line in told:
            yield "%s   %s" % (place.indent, line)
