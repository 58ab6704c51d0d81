"""Whether the certificates of the prover of examples/provers are accepted, and those that docs/PROVERS.md shows."""

import re

from certificates.formulas import printed, spelled
from certificates.judge import verdict
from certificates.texts import LOGICS
from checks.choices import Choices
from checks.report import text_of
from checks.running import loaded

DOCUMENT = "docs/PROVERS.md"
COUNT = 300
PROVER_OF_K = loaded("examples/provers/k")
def answer_of(formula):
    """`proof` or `model`, where the certificate is accepted; else what is said of it."""
    lines = PROVER_OF_K.certificate(spelled(formula.encode()))
    line, status = verdict(("\n".join(lines) + "\n").encode())
    return lines[3] if line == "accepted" else line


LEAVES = [("letter", "p"), ("letter", "q"), ("letter", "p"), ("letter", "q"), ("letter", "p"), ("true",), ("false",)]


def made(choices, size):
    """A formula of about so many connectives."""
    if size == 0:
        return LEAVES[choices.below(len(LEAVES))]
    kind = ["~", "box", "dia", "&", "v", "->", "<->", "box"][choices.below(8)]
    if kind in ("~", "box", "dia"):
        return (kind, made(choices, size - 1))
    left = choices.below(size)
    return (kind, made(choices, left), made(choices, size - 1 - left))


def check_made(report):
    """Formulas that are made by chance, always the same: yes or no, the certificate is accepted. Both answers come."""
    choices, answers = Choices(1963), []
    for count in range(COUNT):
        formula = printed(made(choices, 2 + count % 7))
        answer = answer_of(formula)
        answers.append(answer)
        report.check("prover of K, %s" % formula, answer in ("proof", "model"), answer)
    report.check("prover of K, both answers", answers.count("proof") > 20 and answers.count("model") > 20)


def check_document(report):
    """Each certificate that the document shows in full is accepted, and each logic has one of either kind."""
    blocks = re.findall(r"^    certificate 1\n(?:    .*\n)*?    end\n", text_of(DOCUMENT), re.MULTILINE)
    kinds = set()
    for block in blocks:
        lines = [line[4:] for line in block.splitlines()]
        line, status = verdict(("\n".join(lines) + "\n").encode())
        report.compare("%s, %s" % (DOCUMENT, lines[2]), "accepted", line)
        kinds.add((lines[1], lines[3]))
    wanted = {("logic " + logic, kind) for logic in LOGICS for kind in ("proof", "model")}
    report.compare("%s, a proof and a model of each logic" % DOCUMENT, wanted, kinds)


def check_all(report):
    check_made(report)
    check_document(report)
