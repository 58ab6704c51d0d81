"""Guesses at what was meant where a script's text has a fault, each with the mend that it stands for.

A guess is told only where the mended text has its first fault further on, or none: see `guess`.
"""

import difflib
import re
from codecs import BOM_UTF8
from collections import namedtuple

from common.signs import OURS
from explaining.grammar import first_fault
from explaining.tokens import FUNCTIONS, RESERVED, STATEMENTS, UNUSED, end_of

# what is said, the offset of the caret, and the mend: data[start:end] becomes `spelling`
Guess = namedtuple("Guess", "said at start end spelling")

# what is written in another way: a sign, what the workbench writes in its place, and what is said; the longer ones first
WRITTEN = (
    *((sign, " %s " % word, "`%s` is written `%s`" % (sign, word)) for sign, word in OURS.items() if sign != "[]"),
    ("⇒", "->", "`⇒` is written `->`"),
    ("⇔", "<->", "`⇔` is written `<->`"),
    ("≠", "!=", "`≠` is written `!=`"),
    ("≤", "<=", "`≤` is written `<=`"),
    ("/\\", "&", "`/\\` is written `&`"),
    ("\\/", " v ", "`\\/` is written `v`"),
    ("//", "#", "a comment begins with `#`, and not with `//`"),
    ("||", " v ", "`||` is written `v`"),
    ("|", " v ", "`|` is written `v`"),
    ("!", "~", "`!` is written `~`"),
    ("=>", "->", "`=>` is written `->`"),
    ("=", ":=", "a script variable is given a value by `:=`"),
    ("=", "==", "two values are compared by `==`"),
)
# signs that begin as ours do, so that the fault is inside them
LONGER = (
    ("&&", "&", "`&&` is written `&`"),
    ("<=>", "<->", "`<=>` is written `<->`"),
    ("==>", "->", "`==>` is written `->`"),
    ("-->", "->", "`-->` is written `->`"),
    ("<>", "!=", "that two values aren't equal is written `!=`"),
)
# other marks around a text
QUOTES = [(opening.encode(), closing.encode()) for opening, closing in ("''", "“”", "„“", "‘’", "«»")]
# the words that may stand where the grammar wants one of these
WORDS = {
    "statement": STATEMENTS,
    "end": STATEMENTS + ("else", "end"),
    "then": ("then",),
    "do": ("do",),
    "to": ("to",),
}


def sign_guesses(data, fault):
    at = fault.token.at
    for sign, spelling, said in WRITTEN:
        if data.startswith(sign.encode(), at):
            yield Guess(said, at, at, at + len(sign.encode()), spelling)


def mark_guesses(data, _):
    if data.startswith(BOM_UTF8):
        yield Guess("a byte order mark begins the file: save it without one", 0, 0, 3, "")


def longer_guesses(data, fault):
    at = fault.token.at
    for sign, spelling, said in LONGER:
        start = data.find(sign.encode(), max(0, at - len(sign) + 1), at + len(sign) - 1)
        if 0 <= start < at:
            yield Guess(said, start, start, start + len(sign), spelling)


def box_guesses(data, fault):
    """`[]` is a list to the grammar, so the fault is behind it."""
    at, before = fault.token.at, fault.before
    if before and before.text == "]" and data[:at].rstrip().endswith(b"[]"):
        start = data.rindex(b"[]", 0, at)
        yield Guess("`[]` is written `box`", start, start, start + 2, "box ")


def greater_guesses(data, fault):
    """`A > B` and `A >= B` of two tokens: the sides are turned round."""
    at, before = fault.token.at, fault.before
    match = re.match(rb"(>=?)\s*(\w+)", data[at:])
    if match and before and before.kind in ("number", "word"):
        sign, right = match.group(1).decode(), match.group(2).decode()
        text = "%s %s %s" % (right, sign.replace(">", "<"), before.text)
        said = "there is no `%s`: turn the sides round, `%s`" % (sign, text)
        yield Guess(said, at, before.at, at + match.end(), text)


def missing_guesses(data, fault):
    """A word or a sign that is missing; it is told behind the token before."""
    if fault.before is None:
        return
    end = end_of(fault.before)
    if fault.wanted == ")" and fault.token.text == ",":
        return
    if fault.wanted in ("then", "do", "end", ")", "]"):
        opened = " for the `%s` that isn't closed" % fault.opened[-1].text if fault.opened else ""
        spelling = fault.wanted if fault.wanted in ")]" else " %s " % fault.wanted
        yield Guess("`%s` is missing here%s" % (fault.wanted, opened), end, end, end, spelling)
    if fault.wanted in (";", ","):
        yield Guess("`%s` is missing here" % fault.wanted, end, end, end, fault.wanted)


def near(word, words):
    """The word that this one is probably a misspelling of, in a list of one or none."""
    return difflib.get_close_matches(word.lower(), words, 1, 0.6)


def name_guesses(data, fault):
    """Names that are misspelt, reserved, or in the wrong case."""
    token, before = fault.token, fault.before
    if token.text == "(" and before and before.kind == "word" and before.text not in RESERVED:
        for word in near(before.text, FUNCTIONS):
            said = "there is no function `%s`: did you mean `%s`?" % (before.text, word)
            yield Guess(said, before.at, before.at, end_of(before), word)
    if token.kind != "word" or token.text in UNUSED:
        return
    if token.text == "not" and fault.wanted == "operand":
        yield Guess("before a formula `not` is written `~`", token.at, token.at, end_of(token), "~")
    if token.text in RESERVED and fault.wanted == "operand":
        said = "`%s` is a reserved word and can't be a name" % token.text
        yield Guess(said, token.at, token.at, end_of(token), token.text + "_")
    if fault.wanted == "script variable" or (fault.wanted == "statement" and given_value(data, token)):
        upper = token.text[0].upper() + token.text[1:]
        said = "a script variable begins with an upper-case letter: `%s`" % upper
        yield Guess(said, token.at, token.at, end_of(token), upper)


def given_value(data, token):
    """Whether `:=` or `=` stands behind a token."""
    return re.match(rb"\s*:?=", data[end_of(token) :]) is not None


def word_guesses(_, fault):
    """Words of statements that are misspelt."""
    token = fault.token
    if token.kind == "word" and token.text not in RESERVED:
        for word in near(token.text, WORDS.get(fault.wanted, ())):
            yield Guess("did you mean `%s`?" % word, token.at, token.at, end_of(token), word)


def statement_guesses(_, fault):
    token, before = fault.token, fault.before
    if fault.wanted == "statement" and token.text == ";":
        is_behind_end = before and before.text == "end"
        said = "no `;` comes here: `end` ends its statement alone" if is_behind_end else "this `;` ends no statement"
        yield Guess(said, token.at, token.at, token.at + 1, "")
    if fault.wanted == "statement" and token.text == "end":
        yield Guess("this `end` closes nothing", token.at, token.at, token.at + 3, "")
    begin = before if fault.wanted == ":=" and before.text[0].isupper() else token
    if begin is before or (fault.wanted in ("statement", "end") and token.text != "end"):
        yield Guess("this is no statement: `print` writes a value", begin.at, begin.at, begin.at, "print ")


def letter_guesses(data, fault):
    """A text that holds a byte outside printable ASCII."""
    at = fault.token.at
    match = re.match(rb'"([^"\n]*)"', data[at:])
    odd = match and re.search(rb"[^ -~]", match.group(1))
    if odd:
        meant = re.sub(rb"[^ -~]", b"?", match.group(1)).decode()
        said = "a text holds printable ASCII alone, and this letter isn't"
        yield Guess(said, at + 1 + odd.start(), at + 1, at + match.end() - 1, meant)


def quote_guesses(data, fault):
    """Other quotes than `"`."""
    at = fault.token.at
    line = data[at:].split(b"\n")[0]
    for opening, closing in QUOTES:
        end = line.find(closing, len(opening))
        if line.startswith(opening) and end >= 0:
            inside = line[len(opening) : end].decode("latin-1")
            yield Guess("a text stands between `\"` and `\"`", at, at, at + end + len(closing), '"%s"' % inside)


def open_text_guesses(data, fault):
    """A text that isn't closed in its line."""
    at = fault.token.at
    line = data[at:].split(b"\n")[0]
    if fault.token.text == '"':
        end = at + len(line.rstrip().rstrip(b";"))
        yield Guess("a text is closed by `\"` in its line", at, end, end, '"')


MAKERS = (
    mark_guesses,
    sign_guesses,
    longer_guesses,
    box_guesses,
    greater_guesses,
    letter_guesses,
    quote_guesses,
    open_text_guesses,
    name_guesses,
    word_guesses,
    statement_guesses,
    missing_guesses,
)


def mended(data, guess_made):
    return data[: guess_made.start] + guess_made.spelling.encode() + data[guess_made.end :]


def helps(data, fault, made):
    """Whether the mended text has no fault, or its first one behind what was mended."""
    other = first_fault(mended(data, made))
    behind = max(fault.token.at, made.end) - made.end
    return other is None or other.token.at > made.start + len(made.spelling.encode()) + behind


def guess(data, fault):
    """The first Guess at a SyntaxFault whose mend helps, or None."""
    for make in MAKERS:
        for made in make(data, fault):
            if helps(data, fault, made):
                return made
    return None
