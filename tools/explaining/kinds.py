"""The kinds of values, as far as a script's text shows them, by the tables of operators and calls of docs/LANGUAGE.md.

A kind is a word; a formula is a `letter`, where it is a single propositional variable, or `compound`.
"""

from collections import namedtuple

from explaining.tokens import LOGICS

KINDS = frozenset("letter compound truth number text logic list none certificate".split())
LETTER, COMPOUND, TRUTH, NUMBER = (frozenset([kind]) for kind in ("letter", "compound", "truth", "number"))
LOGIC, LIST, MAYBE, CERTIFICATE = (frozenset([kind]) for kind in ("logic", "list", "none", "certificate"))
FORMULA, COMPARED = LETTER | COMPOUND, KINDS - CERTIFICATE
# what each sign takes, and what it gives
SIGNS = {
    **dict.fromkeys(("~", "box", "dia", "&", "v", "->", "<->"), (FORMULA, COMPOUND)),
    **dict.fromkeys(("+", "-", "*"), (NUMBER, NUMBER)),
    **dict.fromkeys(("<", "<="), (NUMBER, TRUTH)),
    **dict.fromkeys(("==", "!="), (COMPARED, TRUTH)),
    **dict.fromkeys(("not", "and", "or"), (TRUTH, TRUTH)),
}
# what each function takes, argument by argument, and what it gives
CALLS = {
    "provable": ((LOGIC, FORMULA), TRUTH),
    "certificate": ((LOGIC, FORMULA), CERTIFICATE),
    "interpolate": ((LOGIC, FORMULA, FORMULA), FORMULA | MAYBE),
    "fixpoint": ((LETTER, FORMULA), FORMULA),
    "nnf": ((FORMULA,), FORMULA),
    "simplify": ((FORMULA,), FORMULA),
    "goedel": ((FORMULA,), FORMULA),
    "boxdot": ((FORMULA,), FORMULA),
    "substitute": ((FORMULA, LETTER, FORMULA), FORMULA),
    "vars": ((FORMULA,), LIST),
    "depth": ((FORMULA,), NUMBER),
    "count": ((FORMULA,), NUMBER),
    "length": ((LIST,), NUMBER),
    "item": ((LIST, NUMBER), KINDS),
    "append": ((LIST, KINDS), LIST),
    "smallest": ((CERTIFICATE,), CERTIFICATE),
    "trace": ((FORMULA,), LIST),
    "letterless": ((FORMULA,), FORMULA),
    "shared": ((CERTIFICATE,), LIST | MAYBE),
}
ROUNDS = 20
# what the expressions at the head of a statement are to be
HEADS = {":=": KINDS, "print": KINDS, "if": TRUTH, "while": TRUTH, "to": NUMBER, "in": LIST}
WORDS = {"true": COMPOUND, "false": COMPOUND, "yes": TRUTH, "no": TRUTH, "none": MAYBE}

# an operand whose kind isn't sure to be right: `taker` is the Node or the Statement that takes it, `is_met` whether it is
# evaluated wherever the statement is
Site = namedtuple("Site", "taker operand wanted kinds is_met")


def is_wrong(site):
    """Whether no value that the operand may have is of a kind that is taken."""
    return not site.kinds & site.wanted


def wanted_of(node):
    """The kinds that an expression takes, part by part."""
    if node.shape in ("binary", "prefix"):
        return [SIGNS[node.token.text][0]] * len(node.parts)
    if node.shape == "call":
        return CALLS[node.token.text][0]
    return [KINDS] * len(node.parts)


def kinds_of(node, variables):
    """The kinds of the values that an expression may come to; `variables` has those of the script variables."""
    token = node.token
    if node.shape == "brackets":
        return kinds_of(node.parts[0], variables)
    if node.shape in ("binary", "prefix"):
        return SIGNS[token.text][1]
    if node.shape == "call":
        return CALLS[token.text][1]
    if node.shape == "list":
        return LIST
    if token.kind in ("number", "text"):
        return frozenset([token.kind])
    if token.text[0].isupper():
        # one that is given no value is no matter of kinds
        return variables.get(token.text) or KINDS
    return WORDS.get(token.text) or (LOGIC if token.text in LOGICS else LETTER)


def given(statement, variables):
    """The kinds of the values that a statement gives to its target."""
    head = statement.heads[0]
    if statement.word == ":=":
        return kinds_of(head, variables)
    if statement.word == "to":
        return NUMBER
    if head.shape == "list":
        return frozenset().union(*(kinds_of(part, variables) for part in head.parts))
    return LETTER if head.shape == "call" and head.token.text == "vars" else KINDS


def all_of(statements):
    """Statements with those in them, in the order of the text."""
    for statement in statements:
        yield statement
        yield from all_of(statement.body)


def with_given(giving, variables):
    """The kinds of script variables, with those that these statements give, as far as the others are known."""
    variables = dict(variables)
    for statement in giving:
        name = statement.target.text
        variables[name] = variables.get(name, frozenset()) | given(statement, variables)
    return variables


def variables_of(statements):
    """The kinds of the values that each script variable is given somewhere; all kinds where that takes long to find."""
    giving = [statement for statement in all_of(statements) if statement.target]
    variables, before = {}, None
    for _ in range(ROUNDS):
        variables, before = with_given(giving, variables), variables
        if variables == before:
            return variables
    return dict.fromkeys(variables, KINDS)


def inside(node):
    """An expression's expressions in the order of their ends in the text, itself the last."""
    for part in node.parts:
        yield from inside(part)
    yield node


def tests_of(node, is_met):
    """The tests of kinds in an expression, in order: what takes an operand, the operand, the kinds that are taken, and
    whether it is evaluated wherever the statement is. `and` and `or` test their left side before they look at the right
    one, which they may leave; all else tests when all operands have values.
    """
    if node.token.text in ("and", "or"):
        left, right = node.parts
        tests = [(node, left, TRUTH, is_met), (node, right, TRUTH, False)]
        return tests_of(left, is_met) + tests[:1] + tests_of(right, False) + tests[1:]
    tests = [(node, part, kinds, is_met) for part, kinds in zip(node.parts, wanted_of(node))]
    return [test for part in node.parts for test in tests_of(part, is_met)] + tests


def sites_of(statement, variables):
    """The Sites in the heads of a statement, in the order in which they are tested."""
    tests = [test for head in statement.heads for test in tests_of(head, True)]
    tests += [(statement, head, HEADS[statement.word], True) for head in statement.heads]
    for taker, operand, wanted, is_met in tests:
        found = kinds_of(operand, variables)
        if not found <= wanted:
            yield Site(taker, operand, wanted, found, is_met)
