"""The tokens of a formula that is written in the workbench's signs or in those of textbooks, and its text in ours."""

import re
from collections import namedtuple

from common.signs import OURS

OWN = ("<->", "->", "~", "&", "(", ")")
# those of scripts and of other texts, so that a mistake is told of by the whole sign
OTHER = (":=", "==", "!=", "<=", "<=>", "=>", "&&", "||", "/\\", "\\/", "//")
# `text` is in our signs, `at` counts letters from 0; the kind is sign, word, number, other or end
Token = namedtuple("Token", "text at kind")


def any_of(signs):
    return "|".join(re.escape(sign) for sign in sorted(signs, key=len, reverse=True))


# a sign that is another's beginning stands behind it: `<->` is no `<`, `&&` no `&`
PATTERN = re.compile(
    r"(?P<blank>[ \t\r\n]+)|(?P<two>%s)|(?P<sign>%s)|(?P<word>[A-Za-z][A-Za-z0-9_]*)|(?P<number>[0-9]+)|(?P<other>.)"
    % (any_of(OTHER), any_of([*OURS, *OWN])),
    re.DOTALL,
)


def tokens(text):
    """The tokens of a text, whatever is in it, and one of the kind end."""
    found = []
    for match in PATTERN.finditer(text):
        kind = "other" if match.lastgroup == "two" else match.lastgroup
        if kind != "blank":
            found.append(Token(OURS.get(match.group(), match.group()), match.start(), kind))
    return found + [Token("", len(text), "end")]


def joined(found):
    """The tokens' text in our signs, with a space between each two, and for each token the offset of its first byte."""
    offsets, length = [], 0
    for token in found:
        offsets.append(length)
        length += len(token.text.encode("utf-8", "replace")) + 1
    return " ".join(token.text for token in found).encode("utf-8", "replace"), offsets
