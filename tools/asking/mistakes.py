"""What is wrong in a text that is no formula's: its first mistake in a line. tools/explain knows the signs and the limits."""

from bisect import bisect_right

from asking.signs import joined, tokens
from certificates.formulas import NESTING_LIMIT, RESERVED, NoFormula, spelled
from exchange.reading import place_of
from explaining.faults import NAMES, explain
from explaining.grammar import first_fault
from explaining.tokens import FUNCTIONS

BRACKETS = "the brackets of formulas are `(` and `)`"
EQUIVALENT = "that two formulas are equivalent is written `<->`"
# what is said of signs that scripts and other texts have, where tools/explain has other words
SAID = {"=": EQUIVALENT, "==": EQUIVALENT, "<=>": "`<=>` is written `<->`", "&&": "`&&` is written `&`"}
SAID.update(dict.fromkeys("[]{}", BRACKETS))
FORMULA_WORDS = ("true", "false", "box", "dia", "v")
BEGIN, END = b"A := ", b" ;"


class Mistake(Exception):
    """What can't be read: one line."""


def shown(word):
    """A word as it may stand in a line, whatever is in it."""
    return "`%s`" % word if word.isprintable() else ascii(word)


def place(text, at):
    """Where a letter stands; where the text is one line its number isn't told."""
    line, column = place_of(text, at)
    return "line %d column %d" % (line, column) if "\n" in text else "column %d" % column


def first_fault_of(found):
    """The first fault of the tokens as a script's formula, and the index of the token that has it; None where there is none."""
    data, offsets = joined(found[:-1])
    fault = first_fault(BEGIN + data + END)
    if fault is None:
        return None, None
    at = fault.token.at - len(BEGIN)
    return fault, len(found) - 1 if at >= len(data) else bisect_right(offsets, at) - 1


def is_foreign(token):
    """Whether no formula has the token."""
    if token.kind == "word":
        return token.text[0].isupper() or token.text in RESERVED and token.text not in FORMULA_WORDS
    return token.kind in ("number", "other")


def told_of_foreign(found, at):
    token = found[at]
    if token.kind == "number":
        return "a formula has no numbers"
    if token.kind == "other":
        return told_of_sign(found, at)
    if token.text in FUNCTIONS:
        return "`%s` is a function of scripts, and `ask` takes a formula alone" % token.text
    if token.text in RESERVED:
        return "`%s` is a reserved word and can't be a name" % token.text
    return "a variable begins with a lower-case letter, and `%s` doesn't" % token.text


def told_of_sign(found, at):
    sign = found[at].text
    if sign in SAID:
        return SAID[sign]
    said = explain(BEGIN + joined(found[:-1])[0] + END)
    if said and said[0].startswith("`%s` is written" % sign):
        return said[0]
    return "%s can't stand in a formula" % shown(sign)


def told_of_fault(text, found, fault, at):
    """What is said of a fault among a formula's own tokens."""
    if fault.kind in NAMES:
        return NAMES[fault.kind]
    if fault.kind == "nested":
        return "more than %d constructs are unfinished here" % NESTING_LIMIT
    is_end = found[at].kind == "end"
    if fault.wanted == "operand":
        before = " behind `%s`" % found[at - 1].text if at else ""
        return "a formula is missing%s" % before if is_end else "a formula is missing%s, before `%s`" % (before, found[at].text)
    if is_end:
        return "`)` is missing for the `(` at %s" % place(text, opened(found))
    if found[at].text == ")":
        return "this `)` closes nothing"
    return "a connective is missing between `%s` and `%s`" % (found[at - 1].text, found[at].text)


def opened(found):
    """Where the last bracket stands that isn't closed."""
    waiting = []
    for token in found:
        if token.text == "(":
            waiting.append(token.at)
        elif token.text == ")":
            waiting.pop()
    return waiting[-1]


def told(text):
    """What is said of the first mistake in a text that is no formula's, with its place."""
    found = tokens(text)
    if len(found) == 1:
        return "the formula is empty"
    foreign = next((at for at, token in enumerate(found) if is_foreign(token)), len(found))
    fault, at = first_fault_of(found)
    if fault is None or foreign <= at:
        at, said = foreign, told_of_foreign(found, foreign)
    else:
        said = told_of_fault(text, found, fault, at)
    return "the formula, %s: %s" % (place(text, found[at].at), said)


def formula_of(text):
    """The formula that a text spells, in our signs or in those of textbooks; raises Mistake."""
    try:
        return spelled(joined(tokens(text)[:-1])[0])
    except NoFormula:
        raise Mistake(told(text)) from None


def logic_of(word, logics):
    """The word, if it is one of the logics'; raises Mistake."""
    if word in logics:
        return word
    meant = "did you mean `%s`? " % word.lower() if word.lower() in logics else ""
    raise Mistake("there is no logic %s: %sthe logics are %s" % (shown(word), meant, ", ".join(logics)))
