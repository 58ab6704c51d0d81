"""Families of our own for S5."""

from families.building import P, box, implies, word
from families.shared import pigeons, polygon, split


def words(number, provable):
    """In S5 the last modality of a word alone counts: two worlds, one with p, refute dia p -> box p."""
    return implies(word(["dia", "box"] if provable else ["box", "dia"], number, P), box(P))


FAMILIES = {"ph": pigeons, "poly": polygon, "split": split, "words": words}
