"""Definitions in the crates' sources that specs speak of: types and how they are seen, constants, traits and contracts."""

import re

from trusted.names import Piece
from trusted.specs import Definition, Imports

DECLARED = re.compile(r"(?:pub )?(?:enum|struct|trait|const) (\w+)")
VARIANT = re.compile(r"^    \w+", re.MULTILINE)
SEEN = re.compile(r"\s*ghost (Value|view|invariant)\b")


class Source:
    """A file of sources: what its use lines say, and the definitions that are found in it when they are asked for."""

    def __init__(self, path, text):
        self.path, self.lines = path, text.split("\n")
        self.imports, self.found, self.types = Imports(), {}, {}
        for line in self.lines:
            if line.strip().startswith("ghost use "):
                self.imports.read(line.strip()[len("ghost ") :].rstrip(";"))
        for statement in re.findall(r"^(?:pub )?use ([\w:]+)::(\{[^}]*\}|\w+);", text, re.MULTILINE):
            for name in re.findall(r"\w+", statement[1]):
                self.types[name] = statement[0].split("::")[0]

    def definition(self, name):
        if name not in self.found:
            self.found[name] = self.make(name)
        return self.found[name]

    def make(self, name):
        for at, line in enumerate(self.lines):
            match = DECLARED.match(line)
            if match and match.group(1) == name:
                return self.declared(name, at)
        return None

    def declared(self, name, at):
        """The type, trait or constant in line `at`, from 0, with the lines that say how a type is seen."""
        item = Definition(self.path, at + 1)
        item.names = [name]
        item.comments = self.comments_above(at)
        one_line = self.lines[at].rstrip().endswith(";")
        rows = [at] if one_line else range(at, self.end_of_block(at) + 1)
        self.add(item, rows, " enum " in " " + self.lines[at])
        self.add(item, self.seen_rows(name))
        return item

    def comments_above(self, at):
        rows = []
        while at > 0 and self.lines[at - 1].startswith(("///", "#[")):
            at -= 1
            if self.lines[at].startswith("///"):
                rows.insert(0, (at + 1, self.lines[at]))
        return rows

    def end_of_block(self, at):
        return next(i for i in range(at, len(self.lines)) if self.lines[i].startswith("}"))

    def seen_rows(self, name):
        """The lines that say as what a value of the type is seen."""
        for at, line in enumerate(self.lines):
            if re.match(r"impl(<.*>)? Model for %s\b" % name, line):
                return self.ghost_rows(at, self.end_of_block(at))
        return []

    def ghost_rows(self, first, last):
        rows, inside = [], False
        for at in range(first, last):
            inside = inside or SEEN.match(self.lines[at]) is not None
            if inside:
                rows.append(at)
            inside = inside and not self.lines[at].rstrip().endswith("};")
        return rows

    def add(self, item, rows, has_variants=False):
        for at in rows:
            line = self.lines[at]
            if line.strip() and not line.strip().startswith(("//", "#[", "ghost use")):
                item.add(at + 1, line)
        text = "\n".join(self.lines[at] for at in rows)
        item.pieces.append(Piece(VARIANT.sub("", text) if has_variants else text))

    def contract(self, name):
        """The function's signature with its clauses."""
        item = Definition(self.path, 0)
        item.names = [name]
        first = next(i for i, line in enumerate(self.lines) if re.match(r"pub fn %s\b" % name, line))
        last = next(i for i in range(first, len(self.lines)) if self.lines[i].startswith("{"))
        item.first = first + 1
        self.add(item, range(first, last))
        return item
