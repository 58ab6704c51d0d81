"""The forms that are turned, each with its source and what reads it, and those that are left out."""

from exchange import dfg


class Form:
    """A form: where it is told of, what a file in it asks, and what reads one."""

    def __init__(self, source, asks, read):
        self.source, self.asks, self.read = source, asks, read


FORMS = {
    "dfg": Form(
        source="the parser of SPASS 3.9, in Debian's source package spass 3.9-1.1: spass-3.9/dfgparser.c, dfglexer.c and tokens.inc",
        asks="whether a modal formula is valid (prop_formula, in a list of conjectures in eml)",
        read=dfg.read,
    )
}

LEFT_OUT = ("the LWB's form", "InToHyLo", "TPTP's non-classical form")
