"""Families that several logics have. Each gives the provable formula for a number from 1 on, or the other one."""

from families.building import (
    box, conjunction, dia, disjunction, implies, letter, letters, levels, negation, word, axiom_grz, grz_body, P,
)


def branch(depth, provable):
    """Halpern and Moses' tree that branches so many times, denied. It is satisfied at the root of a binary tree, also of a
    reflexive or transitive one; with one variable true at all worlds of a level it isn't."""
    step, high = lambda i: letter("d", i), range(depth + 1)
    deep = [implies(step(i), step(i - 1)) for i in range(1, depth + 2)]
    fixed = [
        implies(step(i), implies(side, box(implies(step(i), side))))
        for i in high for side in (letter("p", i), negation(letter("p", i)))
    ]
    forks = [fork(step, i, side) for i in range(depth) for side in (letter("p", i + 1), negation(letter("p", i + 1)))]
    rules = conjunction(deep + fixed + forks)
    tree = conjunction([step(0), negation(step(1)), levels([rules] * (depth + 1))])
    if provable:
        tree = ("&", tree, box(letter("p", depth // 3 + 1), depth))
    return negation(tree)


def fork(step, i, side):
    """A world at level i sees one of the next level at which this side holds."""
    at_next = conjunction([step(i + 1), negation(step(i + 2)), side])
    return implies(("&", step(i), negation(step(i + 1))), dia(at_next))


def path(length, provable):
    """From each of two places a rule leads to the next two. A rule that is left out half way leaves a world, which may see
    itself, at which b0 to bm alone hold."""
    place = lambda i: ("v", letter("a", i), letter("b", i))
    rules = []
    for i in range(length):
        sides = ["a", "b"] if provable or i != length // 2 else ["a"]
        rules.append(conjunction(implies(letter(side, i), box(place(i + 1))) for side in sides))
    return implies(("&", place(0), levels(rules)), box(place(length), length))


def pigeons(holes, provable):
    """One pigeon more than holes, each in a hole, so two in one; or as many, which a world shows at which pii alone hold."""
    count = holes + 1 if provable else holes
    sits = lambda i, j: box(letter("p", i, j)) if i < j else letter("p", i, j)
    left = conjunction(disjunction(sits(i, j) for j in range(1, holes + 1)) for i in range(1, count + 1))
    right = disjunction(
        ("&", sits(i, j), sits(other, j))
        for j in range(1, holes + 1) for i in range(1, count + 1) for other in range(i + 1, count + 1)
    )
    return implies(dia(left), dia(right))


def polygon(number, provable):
    """Of a polygon with an odd number of corners two neighbours have one colour; those of an even one may alternate, as in a
    world that sees itself and has the variables of even number."""
    count = 2 * number + 1 if provable else 2 * number
    colour = [box(a) for a in letters("p", count)]
    return box(disjunction(("<->", colour[i], colour[(i + 1) % count]) for i in range(count)), number)


def grz_letters(number, provable):
    """Grz's axiom for each variable, at this world and all that it sees, gives them; where it is asked of the first one at
    this world alone, a cluster of two worlds behind a world with all variables shows that it doesn't."""
    variables = letters("p", number)
    asked = [axiom_grz(a) if a == variables[0] and not provable else ("&", axiom_grz(a), box(axiom_grz(a))) for a in variables]
    bodies = [box(grz_body(a)) for a in variables]
    return implies(conjunction(asked + bodies), box(conjunction(variables)))


def split(number, first):
    """box(.. box(box(p v box q1) v box q2) ..) and its disjuncts, of which q1 may be missing."""
    whole = P
    for a in letters("q", number):
        whole = box(("v", whole, box(a)))
    return implies(whole, disjunction([box(P)] + [box(a) for a in letters("q", number)[0 if first else 1 :]]))


def mckinsey(number, provable_way):
    """(box dia)^n p -> (dia box)^n p, or the other way."""
    one, other = word(["box", "dia"], number, P), word(["dia", "box"], number, P)
    return implies(one, other) if provable_way else implies(other, one)
