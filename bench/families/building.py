"""What the families' formulas are built with; a formula is a tuple, as in tools/certificates/formulas.py."""

TRUE, FALSE = ("true",), ("false",)


def letter(name, *numbers):
    """The variable of this name and these numbers: p1, or p1_2 for two."""
    return ("letter", name + "_".join("%d" % number for number in numbers))


def negation(a):
    return ("~", a)


def implies(a, b):
    return ("->", a, b)


def box(a, count=1):
    """The formula under so many boxes."""
    for _ in range(count):
        a = ("box", a)
    return a


def dia(a, count=1):
    """The formula under so many diamonds."""
    for _ in range(count):
        a = ("dia", a)
    return a


def joined(sign, parts, empty):
    """The parts under one sign as a balanced tree, so that few constructs are unfinished; `empty` where there is none."""
    parts = list(parts)
    if not parts:
        return empty
    if len(parts) == 1:
        return parts[0]
    half = len(parts) // 2
    return (sign, joined(sign, parts[:half], empty), joined(sign, parts[half:], empty))


def conjunction(parts):
    return joined("&", parts, TRUE)


def disjunction(parts):
    return joined("v", parts, FALSE)


def levels(rules):
    """Rule 0 here, rule 1 at each successor, rule 2 at each of theirs, and so on: r0 & box(r1 & box(r2 & ..))."""
    rules = list(rules)
    if not rules:
        return TRUE
    whole = rules[-1]
    for rule in reversed(rules[:-1]):
        whole = ("&", rule, box(whole))
    return whole


def word(modalities, count, a):
    """The formula under this word of `box` and `dia`, so many times."""
    for _ in range(count):
        for modality in reversed(modalities):
            a = (modality, a)
    return a


def letters(name, count, first=1):
    return [letter(name, number) for number in range(first, first + count)]


P = ("letter", "p")
# the axiom schemes at one formula
def axiom_t(a):
    return implies(box(a), a)


def axiom_d(a):
    return implies(box(a), dia(a))


def axiom_4(a):
    return implies(box(a), box(box(a)))


def axiom_5(a):
    return implies(negation(box(a)), box(negation(box(a))))


def grz_body(a):
    """What Grz's axiom has under its box."""
    return implies(box(implies(a, box(a))), a)


def axiom_grz(a):
    return implies(box(grz_body(a)), a)


def axiom_dum(a):
    return implies(box(grz_body(a)), implies(dia(box(a)), a))


def axiom_h(a, b):
    """Of what is seen, one sees the other or is it: a scheme of linear order."""
    return implies(
        ("&", dia(a), dia(b)), disjunction([dia(("&", a, b)), dia(("&", a, dia(b))), dia(("&", b, dia(a)))])
    )
