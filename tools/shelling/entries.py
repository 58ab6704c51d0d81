"""What is entered, cut into statements."""

from collections import namedtuple

from explaining.grammar import read
from explaining.tokens import tokens

# the texts of the statements that are whole, the text of one that may go on, and the SyntaxFault behind them, or None
Entry = namedtuple("Entry", "whole rest fault")


def cut(text):
    """The Entry of a text's bytes. Comments between statements belong to none of them. Where there is a fault the rest
    begins with the statement that has it.
    """
    found, fault = read(text)
    whole = [text[statement.token.at : statement.end] for statement in found]
    rest = stripped(text[found[-1].end :] if found else text)
    is_open = fault is not None and fault.token.kind == "end"
    return Entry(whole, rest, None if is_open else fault)


def stripped(text):
    """A text from its first token on, without white space at its end."""
    return text[tokens(text)[0].at :].rstrip()
