"""Families of our own for GL."""

from families.building import FALSE, P, box, conjunction, implies, letter


def loeb(number, provable):
    """The last world without p has none behind it without; one world without p sees nothing, so it has no p to show."""
    return implies(box(implies(box(P, number), P)), box(P) if provable else P)


def height(number, provable):
    """A world of less than so many levels has less than one more; not the other way: a chain."""
    low, high = box(FALSE, number), box(FALSE, number + 1)
    return implies(low, high) if provable else implies(high, low)


def ring(number, provable):
    """Each variable follows from the boxed one before it, round a ring; without the rule for p0 a world that sees one with all
    others refutes it."""
    rules = [
        box(implies(box(letter("p", (i - 1) % number)), letter("p", i))) for i in range(number) if provable or i != 0
    ]
    return implies(conjunction(rules), box(letter("p", 0)))


FAMILIES = {"height": height, "loeb": loeb, "ring": ring}
