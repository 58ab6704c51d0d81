"""The definitions of a file of specs: where each stands, what it names, and what its pieces mention."""

import re

from trusted.names import NAME, Piece, bound_in

USE = re.compile(r"use (Rattle[\w.]*?)(?:\.\{(.*)\}| as (%s))\s*;?$" % NAME)
HEADER = re.compile(r"(?:abbrev |unfoldable )?(?:pub )?(data |record |syntax )?(%s)" % NAME)
BLOCK = re.compile(r"(?:abbrev |unfoldable )?(?:pub )?mutual$")


class Definition:
    """One definition, or several that stand in each other: its lines without comments, and its comments."""

    def __init__(self, path, first):
        self.path, self.first, self.last = path, first, first
        self.names, self.constructors, self.fields = [], set(), set()
        self.lines, self.pieces, self.needs, self.comments = [], [], [], []

    def add(self, number, line):
        self.lines.append((number, line))
        self.last = max(self.last, number)


class Imports:
    """What the `use` lines of a file say: names with the module that has them, and other names of modules."""

    def __init__(self):
        self.names, self.modules = {}, {}

    def read(self, line):
        match = USE.match(line)
        if match is None:
            raise ValueError("no use line that is understood: %s" % line)
        module, names, alias = match.groups()
        if alias:
            self.modules[alias] = module
            return
        for word in names.split(","):
            own, _, other = word.strip().partition(" as ")
            self.names[other or own] = (module, own)


def indent_of(line):
    return len(line) - len(line.lstrip(" "))


class Reader:
    """Reads the lines of a file into definitions; a nested block adds its own names to what its definitions bind."""

    def __init__(self, path, text):
        self.path, self.lines, self.at = path, text.split("\n"), 0
        self.imports, self.definitions = Imports(), []

    def line(self):
        return self.lines[self.at] if self.at < len(self.lines) else None

    def read(self, indent=0, bound=frozenset(), needs=()):
        comments, current = [], None
        while self.line() is not None and (not self.line().strip() or indent_of(self.line()) >= indent):
            line = self.line().strip()
            if not line:
                comments = []
                self.at += 1
            elif line.startswith("--"):
                comments.append((self.at + 1, self.line()))
                self.at += 1
            elif indent == 0 and (line.startswith("use ") or line.startswith("pub mod ") or line.startswith("mod ")):
                if line.startswith("use "):
                    self.imports.read(line)
                comments = []
                self.at += 1
            elif line.startswith("module "):
                self.read_module(indent, bound, needs)
                comments, current = [], None
            else:
                current = self.read_item(indent, bound, needs, comments, current)
                comments = []
        return self

    def read_module(self, indent, bound, needs):
        """A block whose definitions have parameters in common: its first line is needed by each."""
        head = Definition(self.path, self.at + 1)
        head.add(self.at + 1, self.line())
        head.pieces.append(Piece(self.line().replace("module", "", 1).replace("where", ""), bound))
        head.needs = list(needs)
        self.definitions.append(head)
        inner = bound | bound_in(self.line())
        self.at += 1
        self.read(indent + 2, inner, list(needs) + [head])

    def chunk(self, indent):
        """The line at hand, the deeper ones behind it, and a bracket that closes them."""
        rows = [(self.at + 1, self.line())]
        self.at += 1
        while self.line() is not None and (indent_of(self.line()) > indent or self.line().lstrip().startswith("}")):
            rows.append((self.at + 1, self.line()))
            self.at += 1
        return rows

    def read_item(self, indent, bound, needs, comments, current):
        if BLOCK.match(self.line().strip()):
            return self.read_mutual(indent, bound, needs, comments)
        rows = self.chunk(indent)
        match = HEADER.match(rows[0][1].strip())
        if match is None:
            raise ValueError("%s, line %d: no definition that is understood" % (self.path, rows[0][0]))
        kind, name = match.groups()
        if current and name in current.names and kind is None:
            add_rows(current, rows, None, indent, bound)
            return current
        item = Definition(self.path, rows[0][0])
        item.needs, item.comments = list(needs), comments
        self.definitions.append(item)
        item.names.append(name)
        add_rows(item, rows, kind, indent, bound)
        return item

    def read_mutual(self, indent, bound, needs, comments):
        """Definitions that speak of one another: one item."""
        item = Definition(self.path, self.at + 1)
        item.needs, item.comments = list(needs), comments
        self.definitions.append(item)
        item.add(self.at + 1, self.line())
        self.at += 1
        while self.line() is not None and (not self.line().strip() or indent_of(self.line()) > indent):
            if not self.line().strip() or self.line().strip().startswith("--"):
                self.at += 1
                continue
            rows = self.chunk(indent + 2)
            kind, name = HEADER.match(rows[0][1].strip()).groups()
            if name not in item.names:
                item.names.append(name)
            add_rows(item, rows, kind, indent + 2, bound)
        return item


def add_rows(item, rows, kind, indent, bound):
    """Adds lines to a definition: of data and records, each constructor or field is a piece of its own."""
    rows = [(number, line) for number, line in rows if not line.strip().startswith("--")]
    for number, line in rows:
        item.add(number, line)
    if kind is None:
        item.pieces.append(Piece("\n".join(line for _, line in rows), bound))
        return
    head, rest = head_of(rows)
    own = frozenset(bound) | bound_in(head)
    item.pieces.append(Piece(head.split("where")[0].replace(kind.strip(), "", 1).replace("pub", "", 1), own | set(item.names)))
    for part in parts_of(rest, indent + 2):
        names, _, _ = re.sub(r"^\s*pub ", "", part).partition(":")
        words = set(re.findall(NAME, names))
        (item.constructors if kind == "data " else item.fields).update(words)
        item.pieces.append(Piece(part.partition(":")[2], own))


def head_of(rows):
    """The head of data or of a record, up to its `where`, as one line, and the rows behind it."""
    ends = next((at for at, (_, line) in enumerate(rows) if re.search(r"\bwhere$", line.rstrip())), 0)
    return " ".join(line.strip() for _, line in rows[: ends + 1]), rows[ends + 1 :]


def parts_of(rows, indent):
    """The lines in groups, each beginning at this depth."""
    groups = []
    for _, line in rows:
        if indent_of(line) == indent or not groups:
            groups.append(line)
        else:
            groups[-1] += "\n" + line
    return groups
