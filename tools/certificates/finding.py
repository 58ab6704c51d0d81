"""Certificates in a text that has other lines too, such as the output of a script that prints several."""

import re

BEGINS = re.compile(rb"certificate [0-9]+\r?")


def certificates_in(data):
    """Each certificate's first line, from 1, and its bytes: from a line `certificate N` to the next line `end`, or to where
    another begins or the text ends. Whether it is one, the judge says.
    """
    lines = data.split(b"\n")
    at = 0
    while at < len(lines):
        if BEGINS.fullmatch(lines[at]) is None:
            at += 1
            continue
        behind = end_of(lines, at)
        yield at + 1, whole_lines(lines, at, behind)
        at = behind


def end_of(lines, begin):
    """The index behind the last line of the certificate that begins there."""
    for at in range(begin + 1, len(lines)):
        if lines[at] in (b"end", b"end\r"):
            return at + 1
        if BEGINS.fullmatch(lines[at]) is not None:
            return at
    return len(lines)


def whole_lines(lines, begin, behind):
    """These lines of the text, each with its line feed; the last of the text has none."""
    text = b"\n".join(lines[begin:behind])
    return text + b"\n" if behind < len(lines) else text
