"""Formulas, from the first section of docs/CERTIFICATES.md: names, the printed text, reading and printing.

A formula is a tuple: ("letter", name), ("true",), ("false",), ("~", a), ("box", a), ("dia", a), (sign, a, b) with one of
the signs `&`, `v`, `->`, `<->`.
"""

import re
import sys

NESTING_LIMIT = 400
RESERVED = set(
    "true false box dia v yes no none and or not print if then else end for to in do while k kt s4 s5 gl grz k4 kd "
    "provable certificate interpolate fixpoint nnf simplify goedel boxdot substitute vars depth count length item "
    "append follows smallest trace letterless shared".split()
)
RANK = {"<->": 1, "->": 2, "v": 3, "&": 4}
TOKEN = re.compile(rb"<->|->|[~&()]|[A-Za-z][A-Za-z0-9_]*| +")

sys.setrecursionlimit(20000)


class NoFormula(Exception):
    """The bytes aren't a formula's printed text."""


def is_name(word):
    return re.fullmatch("[a-z][A-Za-z0-9_]*", word) is not None and len(word) <= 64 and word not in RESERVED


def tokens(text):
    found, at = [], 0
    while at < len(text):
        match = TOKEN.match(text, at)
        if match is None:
            raise NoFormula
        at = match.end()
        if not match.group().startswith(b" "):
            found.append(match.group().decode())
    return found


class Reader:
    """Reads a formula by recursive descent, with the number of unfinished constructs."""

    def __init__(self, text):
        self.tokens, self.at = tokens(text), 0

    def next(self):
        return self.tokens[self.at] if self.at < len(self.tokens) else None

    def take(self, open_constructs):
        if open_constructs > NESTING_LIMIT:
            raise NoFormula
        self.at += 1

    def expression(self, level, open_constructs):
        if level == 5:
            return self.prefixed(open_constructs)
        left = self.expression(level + 1, open_constructs)
        sign = self.next()
        if RANK.get(sign) != level:
            return left
        self.take(open_constructs + 1)
        return (sign, left, self.expression(level, open_constructs + 1))

    def prefixed(self, open_constructs):
        word = self.next()
        if word in ("~", "box", "dia"):
            self.take(open_constructs + 1)
            return (word, self.prefixed(open_constructs + 1))
        if word == "(":
            self.take(open_constructs + 1)
            inner = self.expression(1, open_constructs + 1)
            if self.next() != ")":
                raise NoFormula
            self.take(open_constructs)
            return inner
        if word in ("true", "false"):
            self.take(open_constructs)
            return (word,)
        if word is None or not is_name(word):
            raise NoFormula
        self.take(open_constructs)
        return ("letter", word)


def tightness(a):
    return RANK.get(a[0], 5)


def bracketed(a, least):
    text = printed(a)
    return "(" + text + ")" if tightness(a) < least else text


def printed(a):
    if a[0] == "letter":
        return a[1]
    if a[0] in ("true", "false"):
        return a[0]
    if a[0] == "~":
        return "~" + bracketed(a[1], 5)
    if a[0] in ("box", "dia"):
        text = bracketed(a[1], 5)
        return a[0] + ("" if text.startswith("(") else " ") + text
    rank = RANK[a[0]]
    return bracketed(a[1], rank + 1) + " " + a[0] + " " + bracketed(a[2], rank)


def spelled(text):
    """The formula that the text spells, with whatever brackets and spaces."""
    reader = Reader(text)
    a = reader.expression(1, 0)
    if reader.next() is not None:
        raise NoFormula
    return a


def formula(text):
    """The formula whose printed text this is."""
    a = spelled(text)
    if printed(a).encode() != text:
        raise NoFormula
    return a


def subformulas(goal):
    found, waiting = set(), [goal]
    while waiting:
        a = waiting.pop()
        if a not in found:
            found.add(a)
            waiting += [b for b in a[1:] if a[0] != "letter"]
    return found
