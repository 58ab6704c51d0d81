"""What a text has to show: the certificates in it, each with its verdict, or a model alone."""

from certificates.finding import certificates_in
from certificates.judge import verdict
from certificates.texts import read
from showing import bare


class Case:
    """A certificate with its own lines, what the second checker says of it, and its status; or a model alone, without these.

    `body` is a list of steps, a model, or None where the text is no certificate's. `place` is what its first line begins
    with where it isn't all of the text."""

    def __init__(self, place, data):
        self.place, self.data = place, data
        self.line, self.status = verdict(data)
        self.logic, self.goal, self.body = (None, None, None) if self.line.startswith("fault") else read(data)

    def is_proof(self):
        return isinstance(self.body, list)

    def is_model(self):
        return isinstance(self.body, tuple)


class Alone(Case):
    """A model without a certificate: nothing is claimed of it, so there is nothing to judge. Raises bare.NoModel."""

    def __init__(self, data):
        self.place, self.data, self.line, self.status = "", data, None, 0
        self.logic, self.goal, self.body = None, None, bare.read(data)


def cases_in(name, data):
    """A case for each certificate in the text of this name; one of the whole text where there is none in it."""
    found = list(certificates_in(data))
    if not found or found == [(1, data)]:
        return [Case("", data)]
    return [Case("%s:%d: " % (name, line), part) for line, part in found]
