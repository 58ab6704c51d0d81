"""The logics of scripts, and what is told of a word that is none."""

import difflib

from explaining.tokens import LOGICS

# whether `interpolate` takes the logic
HAS_INTERPOLANTS = {"k": True, "kt": True, "s4": True, "s5": False, "gl": True, "grz": False, "k4": False, "kd": False}
# what else logics are called
OTHER_NAMES = {"t": "kt", "m": "kt", "d": "kd", "g": "gl", "kw": "gl", "s4grz": "grz"}


def with_interpolants():
    return [logic for logic in LOGICS if HAS_INTERPOLANTS[logic]]


def listed(words):
    """Words in a row: `k, kt and s4`."""
    return " and ".join(part for part in (", ".join(words[:-1]), words[-1]) if part)


def nearest(word):
    """The logic that this word probably stands for, or None."""
    small = word.lower()
    if small in LOGICS:
        return small
    if OTHER_NAMES.get(small) in LOGICS:
        return OTHER_NAMES[small]
    return (difflib.get_close_matches(small, LOGICS, 1, 0.4) or [None])[0]


def told_of_word(word):
    """What is said of a word that stands where a logic is to stand."""
    small, near = word.lower(), nearest(word)
    if small in LOGICS:
        return "logics are written small: did you mean `%s`?" % small
    said = "there is no logic `%s`; the logics are %s" % (word, listed(LOGICS))
    if near is None:
        return said
    return said + ("; `%s` has that name too" if small in OTHER_NAMES else "; the nearest of these words is `%s`") % near
