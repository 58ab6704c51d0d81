"""The text of a certificate, from the second section of docs/CERTIFICATES.md: what it says, or its fault."""

import re

from certificates.formulas import NoFormula, formula, is_name

DEPTH_LIMIT = 4096
NUMBER_LIMIT = 2**64
# what the texts of docs/CERTIFICATES.md name
LOGICS = ("k", "kt", "s4", "s5", "gl", "grz", "k4", "kd")
ARITY = {"close": 0, "absurd": 0, "one": 1, "two": 2, "refl": 1, "step": 1, "serial": 1, "cut": 2}


class Fault(Exception):
    """The text is no certificate's; the line, from 1."""

    def __init__(self, line, kind):
        super().__init__()
        self.line, self.kind = line, kind


def number(word):
    if re.fullmatch(b"0|[1-9][0-9]*", word) is None or int(word) >= NUMBER_LIMIT:
        return None
    return int(word)


class Text:
    """The lines of a text, taken one by one."""

    def __init__(self, data):
        *self.lines, self.rest = data.split(b"\n")
        self.at = 0

    def fault(self, kind="proof"):
        return Fault(self.at + 1, kind)

    def take(self, kind="proof"):
        if self.at == len(self.lines):
            raise self.fault(kind)
        return self.lines[self.at]

    def want(self, line, kind="proof"):
        if self.take(kind) != line:
            raise self.fault(kind)
        self.at += 1

    def after(self, word, kind="proof"):
        line = self.take(kind)
        if not line.startswith(word):
            raise self.fault(kind)
        return line[len(word) :]

    def formula(self, text):
        try:
            return formula(text)
        except NoFormula:
            raise self.fault() from None


def read(data):
    """The certificate: its logic, its formula, and a list of steps or a model with its world."""
    text = Text(data)
    text.want(b"certificate 1")
    logic = text.after(b"logic ").decode("latin-1")
    if logic not in LOGICS:
        raise text.fault()
    text.at += 1
    goal = text.formula(text.after(b"formula "))
    text.at += 1
    if text.take() == b"model":
        text.at += 1
        body = model_of(text)
    else:
        text.want(b"proof")
        body = steps_of(text)
    if text.at < len(text.lines) or text.rest:
        raise text.fault()
    return logic, goal, body


def steps_of(text):
    steps, depths = [], [1]
    while depths:
        depth = depths.pop()
        match = re.fullmatch(rb"([a-z]+) ([TF]) (.*)", text.take(), re.DOTALL)
        if match is None or match.group(1).decode() not in ARITY or depth > DEPTH_LIMIT:
            raise text.fault()
        rule = match.group(1).decode()
        steps.append((rule, (match.group(2).decode(), text.formula(match.group(3)))))
        depths += [depth + 1] * ARITY[rule]
        text.at += 1
    text.want(b"end")
    return steps


def model_of(text):
    worlds = number(text.after(b"worlds ", "model"))
    if worlds is None or worlds < 1:
        raise text.fault("model")
    text.at += 1
    refuted = number(text.after(b"refuted ", "model"))
    if refuted is None or refuted >= worlds:
        raise text.fault("model")
    text.at += 1
    sees, facts = [], []
    while len(sees) < worlds:
        seen, names = row_of(text, len(sees), worlds)
        sees.append(seen)
        facts.append(names)
        text.at += 1
    text.want(b"end", "model")
    return sees, facts, refuted


def row_of(text, world, worlds):
    words = text.after(b"world %d sees" % world, "model").split(b" ")
    if words[0] or b"true" not in words:
        raise text.fault("model")
    cut = words.index(b"true")
    seen = [number(word) for word in words[1:cut]]
    names = [word.decode("latin-1") for word in words[cut + 1 :]]
    least = 0
    for other in seen:
        if other is None or other < least or other >= worlds:
            raise text.fault("model")
        least = other + 1
    if not all(is_name(name) for name in names) or any(p >= q for p, q in zip(names, names[1:])):
        raise text.fault("model")
    return seen, set(names)
