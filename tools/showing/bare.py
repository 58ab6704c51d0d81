"""A model without a certificate: the lines `worlds N` and `world I sees .. true ..` of a certificate's model. The lines
`model`, `refuted W` and `end`, which a certificate has too, may stand in their places."""

from certificates.texts import Fault, Text, number, row_of

ROW = "world %d sees, the worlds' numbers in ascending order, true, and the names in the order of their bytes"


class NoModel(Exception):
    """The text is no model's: the line, from 1, and what should stand there."""


def is_next(text, word):
    return text.at < len(text.lines) and text.lines[text.at].startswith(word)


def pass_over(text, line):
    """Goes behind this line, where it is the next one."""
    text.at += text.lines[text.at : text.at + 1] == [line]


def wanted(text, what):
    return NoModel("line %d: here should stand %s" % (text.at + 1, what))


def value_after(text, word, least, below, what):
    """The number behind the word, from `least` on and below the other bound where there is one."""
    value = number(text.lines[text.at][len(word) :]) if is_next(text, word) else None
    if value is None or value < least or (below is not None and value >= below):
        raise wanted(text, what)
    text.at += 1
    return value


def rows_of(text, worlds):
    rows = []
    while len(rows) < worlds:
        try:
            rows.append(row_of(text, len(rows), worlds))
        except Fault:
            raise wanted(text, ROW % len(rows)) from None
        text.at += 1
    return rows


def read(data):
    """The model: what each world sees, what is true there, and the world of `refuted`, or None; raises NoModel."""
    text = Text(data.replace(b"\r\n", b"\n").rstrip(b"\n") + b"\n")
    pass_over(text, b"model")
    worlds = value_after(text, b"worlds ", 1, None, "worlds N, with a number from 1 on")
    refuted = None
    if is_next(text, b"refuted "):
        refuted = value_after(text, b"refuted ", 0, worlds, "refuted W, with a world's number, from 0 to %d" % (worlds - 1))
    rows = rows_of(text, worlds)
    pass_over(text, b"end")
    if text.at < len(text.lines):
        raise wanted(text, "nothing, since the model has its %d worlds" % worlds)
    return [seen for seen, _ in rows], [names for _, names in rows], refuted
