"""Formulas in other signs than those of their printed text: the signs of a blackboard, and LaTeX's."""

import re

from certificates.formulas import RANK, tightness

UNICODE = {"true": "⊤", "false": "⊥", "~": "¬", "box": "□", "dia": "◇", "&": "∧", "v": "∨", "->": "→", "<->": "↔"}
# \Box and \Diamond are of the package amssymb
LATEX = {
    "true": r"\top",
    "false": r"\bot",
    "~": r"\neg ",
    "box": r"\Box ",
    "dia": r"\Diamond ",
    "&": r"\land",
    "v": r"\lor",
    "->": r"\to",
    "<->": r"\leftrightarrow",
}


def written(a, signs, name):
    """The formula in these signs, with the brackets of its printed text, and each variable as `name` gives it."""
    if a[0] == "letter":
        return name(a[1])
    if len(a) == 1:
        return signs[a[0]]
    if len(a) == 2:
        return signs[a[0]] + bracketed(a[1], 5, signs, name)
    rank = RANK[a[0]]
    return "%s %s %s" % (bracketed(a[1], rank + 1, signs, name), signs[a[0]], bracketed(a[2], rank, signs, name))


def bracketed(a, least, signs, name):
    text = written(a, signs, name)
    return "(" + text + ")" if tightness(a) < least else text


def in_unicode(a):
    return written(a, UNICODE, str)


def latex_name(name):
    """The variable in LaTeX: one letter with digits behind it has them as an index."""
    match = re.fullmatch("([a-z])([0-9]*)", name)
    if match is None:
        return r"\mathit{%s}" % name.replace("_", r"\_")
    return match.group(1) + ("_{%s}" % match.group(2) if match.group(2) else "")


def in_latex(a):
    """The formula for LaTeX's mathematics."""
    return written(a, LATEX, latex_name)
