"""Writes what a text has as pictures and as graphs, into files of their own."""

from common.outputs import write
from showing import graph, picture, proof_picture


class OneName(Exception):
    """There are several pictures, and the name of the files has no place for a number."""


def names(pattern, count):
    """The names of so many files: %d is the number of the picture among all, from 1. Raises OneName."""
    if count > 1 and "%d" not in pattern:
        raise OneName(pattern)
    return [pattern.replace("%d", str(number)) for number in range(1, count + 1)]


def picture_of(views):
    """The lines of the picture of a case's views, side by side."""
    return picture.beside([picture.lines(view.model, view.arrows, view.caption) for view in views])


def graph_of(views):
    return graph.lines(views[0].model, views[0].arrows)


def pictures_of(found, shown, with_trees):
    """The pictures of the cases in their order: of the models, and of the proofs where their trees are wanted."""
    for number, case in enumerate(found):
        if number in shown:
            yield picture_of(shown[number])
        elif with_trees and case.is_proof():
            yield proof_picture.lines(case.logic, case.goal, case.body, case.line == "accepted")


def write_all(wanted):
    """Writes under each pattern, where there is one, its texts into files. All are drawn before the first is written. Raises
    OneName, and picture.TooManyArrows."""
    files = []
    for pattern, texts in wanted:
        if pattern:
            files += [(name, list(lines)) for name, lines in zip(names(pattern, len(texts)), texts)]
    for name, lines in files:
        write(name, lines)
