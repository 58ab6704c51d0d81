"""Formulas as terms of Modal.v, and as the rows of a table of Numbered.v, each once."""

OPERATORS = {
    "true": "Top", "false": "Bot", "~": "Not", "box": "Box", "dia": "Dia",
    "&": "And", "v": "Or", "->": "Imp", "<->": "Iff",
}


def parts(a):
    return () if a[0] == "letter" else a[1:]


def applied(word, operands):
    return " ".join([word] + list(operands))


class Variables:
    """The numbers of variables, from 1 in the order in which they are met."""

    def __init__(self):
        self.numbers = {}

    def term(self, name):
        return "Var %d" % self.number(name)

    def number(self, name):
        return self.numbers.setdefault(name, len(self.numbers) + 1)


class Table:
    """The rows of formulas by their numbers, from 1, each formula behind its parts, at its first visit."""

    def __init__(self, variables):
        self.variables, self.numbers, self.rows = variables, {}, []

    def number(self, a):
        if a not in self.numbers:
            row = self.row(a)
            self.rows.append(row)
            self.numbers[a] = len(self.rows)
        return self.numbers[a]

    def row(self, a):
        if a[0] == "letter":
            return self.variables.term(a[1])
        return applied(OPERATORS[a[0]], ["(Var %d)" % self.number(b) for b in parts(a)])


class Definitions:
    """The definitions of a formula: of its subformulas with parts that occur more than once, and of itself as f."""

    def __init__(self, variables, goal):
        self.variables, self.names, self.lines = variables, {}, []
        self.shared = shared(goal)
        self.define("f", self.term(goal))

    def define(self, name, term):
        self.lines.append("Definition %s : form := %s." % (name, term))

    def term(self, a):
        if a[0] == "letter":
            return self.variables.term(a[1])
        return applied(OPERATORS[a[0]], [self.operand(b) for b in parts(a)])

    def operand(self, a):
        if a in self.names:
            return self.names[a]
        term = self.term(a)
        if a in self.shared:
            # its parts have their names by now
            self.names[a] = "f%d" % (len(self.names) + 1)
            self.define(self.names[a], term)
            return self.names[a]
        return "(%s)" % term if " " in term else term


def shared(goal):
    """The subformulas with parts that are a part at more than one place of the formula, each subformula taken once."""
    seen, twice, waiting = set(), set(), [goal]
    while waiting:
        for b in parts(waiting.pop()):
            if b not in seen:
                seen.add(b)
                waiting.append(b)
            elif parts(b):
                twice.add(b)
    return twice
