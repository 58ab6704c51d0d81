"""A proof as a table of the sets that its steps close, each once, as the function `shared` of scripts counts them."""

from certificates.formulas import printed
from showing.brief import broken, step_line
from showing.models import table
from showing.places import kind, visits, with_ends
from showing.words import counted, listed, signed


class Line:
    """A closed set, its formulas in order, with the step that closes it first, and the numbers of its premises' lines."""

    def __init__(self, visit, cites):
        self.rule, self.principal, self.formulas, self.cites = visit.rule, visit.principal, visit.place.formulas, cites


class Table:
    """The lines in order, from 1, each behind those that it cites; the last step that was read closes the last of them."""

    def __init__(self):
        self.lines, self.numbers, self.cites = [], {}, {}

    def enter(self, visit):
        """Puts the set of a step that is closed whole into the table, where it isn't there yet."""
        cites = self.cites.pop(visit.number, [])
        if visit.have not in self.numbers:
            self.lines.append(Line(visit, cites))
            self.numbers[visit.have] = len(self.lines)
        self.cites.setdefault(visit.place.above, []).append(self.numbers[visit.have])


def shared(logic, goal, steps):
    """The table of the steps that are closed whole, and the step that breaks its rule, or None."""
    found, faulty = Table(), None
    for visit, ended in with_ends(visits(logic, goal, steps)):
        for closed in ended:
            found.enter(closed)
        if visit.left is None:
            faulty = visit
    return found, faulty


def rows(lines, form):
    yield ("line", "cites", "rule", "principal", "closed set")
    for number, line in enumerate(lines, 1):
        cited = " ".join(str(other) for other in line.cites) or "-"
        yield (str(number), cited, line.rule, kind(line.principal) + signed(line.principal, form), listed(line.formulas, form))


def lines(logic, goal, steps, form=printed):
    """The table; behind it, where a step breaks its rule, that step."""
    found, faulty = shared(logic, goal, steps)
    yield "The steps close %s, each once below; a line cites those of its premises." % counted(len(found.lines), "set")
    yield from table(list(rows(found.lines, form)))
    if faulty is not None:
        yield "Not closed: " + step_line(faulty, form)
        for line in broken(logic, goal, faulty, len(steps) - faulty.number, form):
            yield "   " + line
