"""Formulas, sets and logics as a person reads them."""

from certificates.formulas import printed

LOGIC_NAMES = {"k": "K", "kt": "KT", "k4": "K4", "kd": "KD", "s4": "S4", "s5": "S5", "gl": "GL", "grz": "Grz"}


def signed(s, form=printed):
    """The sign, and the formula as `form` writes it."""
    return s[0] + " " + form(s[1])


def listed(parts, form=printed):
    """Signed formulas, joined by commas."""
    return ", ".join(signed(s, form) for s in parts) if parts else "nothing"


def counted(number, word):
    return "%d %s%s" % (number, word, "" if number == 1 else "s")
