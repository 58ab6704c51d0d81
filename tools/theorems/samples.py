"""Certificates that the program makes, over all logics, and damaged forms of them; always the same for a seed."""

import glob
import os

from certificates.finding import certificates_in
from certificates.formulas import printed
from certificates.texts import LOGICS, Fault, read
from checks.choices import Choices
from checks.provers import made
from checks.report import TOP
from checks.running import loaded

# a damaged form should be a certificate yet: the damages that are tried for one, and how long a formula of the examples may be
TRIALS, LONGEST = 30, 160


def certificate_of(data):
    """The certificate in these bytes, or None."""
    try:
        return read(data)
    except Fault:
        return None


def formulas_of_examples():
    found = set()
    for path in glob.glob(os.path.join(TOP, "examples", "check", "*.txt")):
        with open(path, "rb") as file:
            certificate = certificate_of(file.read())
        if certificate is not None:
            found.add(printed(certificate[1]))
    return sorted(text for text in found if len(text) <= LONGEST)


def script(choices, count):
    """The text of a script that prints so many certificates: of the examples' formulas first, then of formulas by chance,
    each in all logics."""
    formulas = formulas_of_examples()
    while len(formulas) * len(LOGICS) < count:
        formulas.append(printed(made(choices, 3 + len(formulas) % 7)))
    asked = ["print certificate(%s, %s);\n" % (logic, formula) for formula in formulas for logic in LOGICS]
    return "".join(asked[:count])


def damaged(data, choices):
    """A damaged form, which is a certificate yet if one of the damages that are tried is."""
    damage = loaded("tools/damage").damaged
    for _ in range(TRIALS):
        other = damage(data, choices)
        if other != data and certificate_of(other) is not None:
            break
    return other


def samples(written, choices):
    """Each certificate that the script wrote, and behind it its damaged form."""
    for _, data in certificates_in(written):
        yield data
        yield damaged(data, choices)
