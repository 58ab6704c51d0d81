"""The first fault of a script's text, by the grammar and the limits of docs/LANGUAGE.md."""

import sys
from collections import namedtuple

from explaining.tokens import FUNCTIONS, LOGICS, RESERVED, STATEMENTS, end_of, place, tokens

NESTING_LIMIT = 400
NAME_LIMIT = 64
NUMBER_LIMIT = 2**64
# the binary operators from loose to tight; `right` groups to the right, `once` doesn't chain, `left` is a row of signs
LEVELS = (
    ("right", ("or",)),
    ("right", ("and",)),
    ("not", ("not",)),
    ("once", ("==", "!=", "<", "<=")),
    ("right", ("<->",)),
    ("right", ("->",)),
    ("right", ("v",)),
    ("right", ("&",)),
    ("left", ("+", "-")),
    ("left", ("*",)),
)
CONSTANTS = ("true", "false", "yes", "no", "none") + LOGICS

sys.setrecursionlimit(40000)

# kind is unexpected, name, number or nested; `before` is the token before, or None; `wanted` says what was open
SyntaxFault = namedtuple("SyntaxFault", "kind token before wanted opened line column")
# an expression: its shape is binary, prefix, call, brackets, list or atom, its token the sign, the function's name, the
# bracket or the atom; `parts` are the expressions in it, `begin` and `end` offsets
Node = namedtuple("Node", "shape token parts begin end")
# `word` is :=, print, if, while, to or in; `target` is the token of the variable that it gives a value to, or None; `heads`
# are the expressions outside the statements in it, and `end` is the offset behind it
Statement = namedtuple("Statement", "word token target heads body end")


class Stop(Exception):
    """The token at hand has a fault."""


class Reader:
    """Reads a script by recursive descent. `opened` holds the tokens whose bracket or statement isn't closed, `found` the
    script's statements that are read whole, apart from those within others.
    """

    def __init__(self, data):
        self.tokens, self.at, self.depth, self.opened, self.found = tokens(data), 0, 0, [], []

    def token(self):
        return self.tokens[self.at]

    def end(self):
        """The offset behind what was read."""
        return end_of(self.tokens[self.at - 1])

    def refuse(self, kind, wanted=""):
        raise Stop(kind, wanted)

    def test(self):
        """Refuses a name or a number that is too long."""
        token = self.token()
        if token.kind == "word" and token.text not in RESERVED and len(token.text) > NAME_LIMIT:
            self.refuse("name")
        if token.kind == "number" and int(token.text.lstrip("0")[:21] or "0") >= NUMBER_LIMIT:
            self.refuse("number")

    def take(self, opens=0):
        """Reads a token, and gives it."""
        self.test()
        self.depth += opens
        if self.depth > NESTING_LIMIT:
            self.refuse("nested")
        self.at += 1
        return self.tokens[self.at - 1]

    def is_next(self, *words):
        return self.token().kind in ("word", "symbol") and self.token().text in words

    def want(self, word):
        if not self.is_next(word):
            self.refuse("unexpected", word)
        self.take()

    def script(self):
        self.statements(self.found)
        if self.token().kind != "end":
            self.refuse("unexpected", "statement")

    def statements(self, found):
        """Reads statements, and appends each to the list, which is given back."""
        while self.is_next(*STATEMENTS) or self.is_upper():
            found.append(self.statement())
        return found

    def is_upper(self):
        return self.token().kind == "word" and self.token().text[0].isupper()

    def statement(self):
        token, target = self.token(), None
        word = token.text if token.text in STATEMENTS else ":="
        if word in ("if", "for", "while"):
            return self.block(word)
        if word == "print":
            self.take()
            heads = self.items()
        else:
            target = self.upper()
            self.want(":=")
            heads = [self.expression()]
        self.want(";")
        return Statement(word, token, target, heads, [], self.end())

    def upper(self):
        if not self.is_upper():
            self.refuse("unexpected", "script variable")
        return self.take()

    def block(self, word):
        token, target = self.token(), None
        self.opened.append(token)
        self.take(1)
        if word == "for":
            word, target, heads = self.range()
        else:
            heads = [self.expression()]
        self.want("then" if word == "if" else "do")
        body = self.statements([])
        if word == "if" and self.is_next("else"):
            self.take()
            self.statements(body)
        self.want("end")
        self.depth -= 1
        self.opened.pop()
        return Statement(word, token, target, heads, body, self.end())

    def range(self):
        target = self.upper()
        if self.is_next("in"):
            self.take()
            return "in", target, [self.expression()]
        self.want(":=")
        first = self.expression()
        self.want("to")
        return "to", target, [first, self.expression()]

    def items(self):
        found = [self.expression()]
        while self.is_next(","):
            self.take()
            found.append(self.expression())
        return found

    def expression(self, level=0):
        if level == len(LEVELS):
            return self.prefixed(("~", "box", "dia"), self.atom)
        shape, signs = LEVELS[level]
        if shape == "not":
            return self.prefixed(signs, lambda: self.expression(level + 1))
        before = self.depth
        made = self.expression(level + 1)
        while self.is_next(*signs):
            sign = self.take(1)
            right = self.expression(level if shape == "right" else level + 1)
            made = Node("binary", sign, [made, right], made.begin, right.end)
            if shape != "left":
                break
        self.depth = before
        return made

    def prefixed(self, signs, operand):
        before, taken = self.depth, []
        while self.is_next(*signs):
            taken.append(self.take(1))
        made = operand()
        self.depth = before
        for sign in reversed(taken):
            made = Node("prefix", sign, [made], sign.at, made.end)
        return made

    def atom(self):
        token = self.token()
        if token.kind == "word" and token.text in FUNCTIONS:
            return self.call(token.text)
        if self.is_next("("):
            return self.bracket("brackets", ")", lambda: [self.expression()])
        if self.is_next("["):
            return self.bracket("list", "]", lambda: [] if self.is_next("]") else self.items())
        if token.kind in ("number", "text") or self.is_next(*CONSTANTS) or (token.kind == "word" and token.text not in RESERVED):
            self.take()
            return Node("atom", token, [], token.at, end_of(token))
        self.refuse("unexpected", "operand")

    def bracket(self, shape, closing, inner):
        token = self.token()
        self.opened.append(token)
        self.take(1)
        parts = inner()
        self.want(closing)
        self.depth -= 1
        self.opened.pop()
        return Node(shape, token, parts, token.at, self.end())

    def call(self, function):
        token = self.take()
        if not self.is_next("("):
            self.refuse("unexpected", "(")
        inside = self.bracket("list", ")", lambda: self.arguments(FUNCTIONS[function]))
        return Node("call", token, inside.parts, token.at, inside.end)

    def arguments(self, count):
        found = [self.expression()]
        for _ in range(count - 1):
            self.want(",")
            found.append(self.expression())
        return found


def read(data):
    """The whole Statements with which a script's bytes begin, and the first SyntaxFault, or None where the text is a
    script's.
    """
    reader = Reader(data)
    try:
        reader.script()
    except Stop as stop:
        kind, wanted = stop.args
        token = reader.token()
        before = reader.tokens[reader.at - 1] if reader.at else None
        return reader.found, SyntaxFault(kind, token, before, wanted, list(reader.opened), *place(data, token.at))
    return reader.found, None


def first_fault(data):
    """The first SyntaxFault of a script's bytes, or None where its text is a script's."""
    return read(data)[1]


def fault_line(fault):
    """The line that the program writes of a SyntaxFault."""
    return "fault: line %d column %d: %s" % (fault.line, fault.column, fault.kind)
