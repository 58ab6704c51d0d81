"""What is measured: each solver's answers to a family's formulas, number by number, until one has no answer."""

import math


class WrongAnswer(Exception):
    """An answer that contradicts the family's known one."""


class Row:
    """The answers to one family, provable or not: `answers[solver]` is the list of those from n = 1 on."""

    def __init__(self, logic, family, provable, solvers):
        self.logic, self.family, self.provable = logic, family, provable
        self.answers = {solver.name: [] for solver in solvers}

    def name(self):
        return "%s_%s_%s" % (self.logic, self.family, "p" if self.provable else "n")

    def solved(self, solver):
        return [answer for answer in self.answers[solver] if answer.valid is not None]

    def greatest(self, solver):
        """The greatest n up to which all are solved, with `limit` where the next is over the program's limit."""
        answers = self.answers[solver]
        over = "limit" if answers and answers[-1].why == "over the limit" else ""
        return len(self.solved(solver)), over


def measure(row, make, solvers, most, seconds):
    """Asks each solver for n = 1, 2, .. in turn, and no further where one has no answer."""
    for number in range(1, most + 1):
        goal = make(number, row.provable)
        waiting = [solver for solver in solvers if len(row.solved(solver.name)) == number - 1]
        if not waiting:
            return
        for solver in waiting:
            row.answers[solver.name].append(judged(solver.answer(row.logic, goal, seconds), solver.name, row, number))


def judged(answer, solver, row, number):
    """The answer, if it doesn't contradict the known one; WrongAnswer else."""
    if answer.valid is not None and answer.valid != row.provable:
        told = ("valid" if answer.valid else "not valid") + (", " + answer.why if answer.why else "")
        raise WrongAnswer("%s says of %s for n = %d: %s" % (solver, row.name(), number, told))
    return answer


def ratio(rows, solver, other):
    """The geometric mean of the other's times over the solver's, where both solve; None where they never do."""
    pairs = [
        (ours.seconds, theirs.seconds)
        for row in rows for ours, theirs in zip(row.solved(solver), row.solved(other))
    ]
    if not pairs:
        return None
    return math.exp(sum(math.log(theirs / ours) for ours, theirs in pairs) / len(pairs))
