"""The calculus, from the third section of docs/CERTIFICATES.md. A signed formula is a pair of a sign and a formula."""

from certificates.formulas import subformulas


def flip(s):
    return ("F" if s[0] == "T" else "T", s[1])


def one(s):
    sign, a = s
    if sign == "T" and a[0] == "&":
        return [("T", a[1]), ("T", a[2])]
    if sign == "F" and a[0] == "v":
        return [("F", a[1]), ("F", a[2])]
    if sign == "F" and a[0] == "->":
        return [("T", a[1]), ("F", a[2])]
    if a[0] == "~":
        return [flip((sign, a[1]))]
    return None


def two(s):
    sign, a = s
    if sign == "F" and a[0] == "&":
        return [("F", a[1])], [("F", a[2])]
    if sign == "T" and a[0] == "v":
        return [("T", a[1])], [("T", a[2])]
    if sign == "T" and a[0] == "->":
        return [("F", a[1])], [("T", a[2])]
    if a[0] == "<->":
        other = flip((sign, a[2]))[0]
        return [("T", a[1]), (sign, a[2])], [("F", a[1]), (other, a[2])]
    return None


def is_nu(s):
    return (s[0], s[1][0]) in (("T", "box"), ("F", "dia"))


def is_pi(s):
    return (s[0], s[1][0]) in (("F", "box"), ("T", "dia"))


def component(s):
    return (s[0], s[1][1])


def guard(s):
    a = s[1][1]
    if s[0] == "F":
        return ("T", ("box", ("->", a, ("box", a))))
    return ("F", ("dia", ("&", ("~", a), ("dia", a))))


def nus_of(have):
    return [t for t in have if is_nu(t)]


def pis_of(have):
    return [t for t in have if is_pi(t)]


def under_nus(have):
    return [component(t) for t in nus_of(have)]


# what the premise of a step has beside the component, by logic: each part with its name
STEP_PARTS = {
    "k": lambda s, have: [("the components of all ν", under_nus(have))],
    "kt": lambda s, have: [("the components of all ν", under_nus(have))],
    "kd": lambda s, have: [("the components of all ν", under_nus(have))],
    "k4": lambda s, have: [("all ν", nus_of(have)), ("their components", under_nus(have))],
    "s4": lambda s, have: [("all ν", nus_of(have))],
    "s5": lambda s, have: [("all ν", nus_of(have)), ("all π", pis_of(have))],
    "gl": lambda s, have: [("the principal flipped", [flip(s)]), ("all ν", nus_of(have)), ("their components", under_nus(have))],
    "grz": lambda s, have: [("the guard", [guard(s)]), ("all ν", nus_of(have))],
}


def step_parts(logic, s, have):
    """What the premise of a step on s has, by the logic's row: each part with its name, in the order of the set.

    Raises KeyError where the logic has no row."""
    return [("the component", [component(s)])] + STEP_PARTS[logic](s, have)


def after_step(logic, s, have):
    return frozenset(t for name, part in step_parts(logic, s, have) for t in part)


def after_close(logic, cuts, have, s):
    return [] if s[0] == "T" and s in have and flip(s) in have else None


def after_absurd(logic, cuts, have, s):
    return [] if (s[0], s[1][0]) in (("T", "false"), ("F", "true")) and s in have else None


def after_one(logic, cuts, have, s):
    return [have | set(one(s))] if s in have and one(s) is not None else None


def after_two(logic, cuts, have, s):
    return [have | set(side) for side in two(s)] if s in have and two(s) is not None else None


def after_refl(logic, cuts, have, s):
    return [have | {component(s)}] if s in have and is_nu(s) else None


def after_the_step(logic, cuts, have, s):
    return [after_step(logic, s, have)] if s in have and is_pi(s) else None


def after_serial(logic, cuts, have, s):
    return [frozenset(under_nus(have))] if s in have and is_nu(s) else None


def after_cut(logic, cuts, have, s):
    is_modal = s[0] == "T" and s[1][0] in ("box", "dia")
    return [have | {s}, have | {flip(s)}] if is_modal and s[1] in cuts else None


EVERY_LOGIC = frozenset(STEP_PARTS)

# each rule: the logics that have it, and what it leaves to be closed
RULES = {
    "close": (EVERY_LOGIC, after_close),
    "absurd": (EVERY_LOGIC, after_absurd),
    "one": (EVERY_LOGIC, after_one),
    "two": (EVERY_LOGIC, after_two),
    "refl": (frozenset(["kt", "s4", "s5", "grz"]), after_refl),
    "step": (EVERY_LOGIC, after_the_step),
    "serial": (frozenset(["kd"]), after_serial),
    "cut": (frozenset(["s5"]), after_cut),
}


def premises(logic, cuts, have, rule, s):
    """The sets that the step leaves to be closed, or None where it breaks its rule. Raises KeyError where the rule has no row."""
    logics, after = RULES[rule]
    return after(logic, cuts, have, s) if logic in logics else None


def walk(logic, goal, steps):
    """Each step, up to the first that breaks its rule: its number from 1, its rule and its principal, the set that it has
    to close, and the sets that it leaves to be closed, or None where it breaks its rule."""
    cuts = subformulas(goal)
    waiting = [frozenset([("F", goal)])]
    for count, (rule, s) in enumerate(steps, 1):
        have = waiting.pop()
        left = premises(logic, cuts, have, rule, s)
        yield count, rule, s, have, left
        if left is None:
            return
        waiting += reversed(left)


def first_break(logic, goal, steps):
    """The number, from 1, of the first step that breaks its rule, or None."""
    for count, _, _, _, left in walk(logic, goal, steps):
        if left is None:
            return count
    return None
