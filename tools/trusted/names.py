"""The names that a piece of a definition mentions, apart from those that it binds itself."""

import re

NAME = r"[^\W\d][\w']*"
MENTION = re.compile(r"(?<![\w.'])(%s)((?:\.[\w']+)*)" % NAME)
BINDER = re.compile(r"[({]\s*((?:%s\s+)*%s)\s*:(?!:)" % (NAME, NAME))
LAMBDA = re.compile(r"λ\s*([^.]*)\.(?=\s)")
ENTRY = re.compile(r"[{;]\s*%s\s+=(?=\s)" % NAME)
EQUATION = re.compile(r"(\s*%s[^:=]*) =(?=\s)(.*)" % NAME, re.DOTALL)
STRING = re.compile(r'"(?:\\.|[^"\\])*"')
COMMENT = re.compile(r"--.*|//.*")


def plain(text):
    """The text without comments, strings and the names of a record's entries."""
    text = STRING.sub('""', "\n".join(COMMENT.sub("", line) for line in text.split("\n")))
    return ENTRY.sub("{", text)


def bound_in(text):
    """The names that λ and typed brackets bind."""
    groups = BINDER.findall(text) + LAMBDA.findall(text)
    return {name for group in groups for name in re.findall(NAME, group)}


def mentions_in(text):
    """Each name that is mentioned, with what stands behind its first point, or None."""
    found = set()
    for match in MENTION.finditer(text.replace("λ", " ")):
        path = match.group(2).split(".")[1:]
        found.add((match.group(1), path[0] if path else None))
    return found


class Piece:
    """A signature, an equation, a constructor or a clause: what it mentions, and on its left side what may be bound."""

    def __init__(self, text, bound=frozenset()):
        text = plain(text)
        left, right = EQUATION.match(text).groups() if EQUATION.match(text) else ("", text)
        self.patterns = {name for name, _ in mentions_in(left)}
        outer = set(bound) | bound_in(text)
        self.mentions = {(name, member) for name, member in mentions_in(right) if name not in outer}
        self.symbols = set(re.findall(r"[^\s\w(){};,.\"']+|if|then|else", text))
