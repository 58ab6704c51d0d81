"""The blocks of a document: the part of Markdown that README.md and docs/ are written in."""

import re

HEADING = re.compile(r"(#{1,3}) (.*)")
IMAGE = re.compile(r"!\[(.*)\]\(.*\)")
RULE = re.compile(r"\|(-+\|)+")
FENCE = "```"
MARKS = {
    "heading": HEADING.fullmatch,
    "image": IMAGE.fullmatch,
    "fence": lambda line: line.startswith(FENCE),
    "code": lambda line: line.startswith("    "),
    "row": lambda line: line.startswith("|"),
    "item": lambda line: line.startswith("- "),
    "empty": lambda line: not line,
}


class Unknown(Exception):
    """A document that is written in more than is read here: why, in one line."""


def kind_of(line):
    return next((kind for kind, holds in MARKS.items() if holds(line)), "text")


def cells_of(row):
    """The cells of a table's row; a bar within code doesn't end a cell."""
    bare = re.sub(r"`[^`]*`", lambda code: code.group().replace("|", "\0"), row.strip())
    return [cell.strip().replace("\0", "|") for cell in bare.strip("|").split("|")]


def fenced(lines):
    """The lines up to the end of the fence, which is taken too; raises Unknown."""
    taken = []
    while lines and not lines[0].startswith(FENCE):
        taken.append(lines.pop(0))
    if not lines:
        raise Unknown("a fence without its end")
    lines.pop(0)
    return taken


def take(lines, kind):
    """The first lines that are of the kind, taken away."""
    taken = []
    while lines and kind_of(lines[0]) == kind:
        taken.append(lines.pop(0))
    return taken


def code_of(lines):
    """Indented code, in which an empty line goes on where code stands behind it."""
    taken = take(lines, "code")
    while len(lines) > 1 and not lines[0] and kind_of(lines[1]) == "code":
        taken += [lines.pop(0)] + take(lines, "code")
    return [line[4:] for line in taken]


def table_of(lines):
    """The rows of a table, the first of them its head; raises Unknown."""
    rows = take(lines, "row")
    if len(rows) < 2 or not RULE.fullmatch(rows[1]):
        raise Unknown("a table without the line below its head: %s" % rows[0])
    return [cells_of(row) for row in rows[:1] + rows[2:]]


def block(kind, lines):
    """What the block that begins here has, its lines taken away; raises Unknown."""
    if kind == "heading":
        level, text = HEADING.fullmatch(lines.pop(0)).groups()
        return len(level), text
    if kind == "image":
        return IMAGE.fullmatch(lines.pop(0)).group(1)
    if kind == "fence":
        lines.pop(0)
        return fenced(lines)
    if kind == "code":
        return code_of(lines)
    if kind == "row":
        return table_of(lines)
    if kind == "item":
        return [item[2:] for item in take(lines, "item")]
    return " ".join(take(lines, kind))


def blocks(text):
    """The blocks in order, each as its kind and what it has; raises Unknown where one is of no kind.

    heading: its level and text; image: its caption; fence and code: the lines; row: a table's rows, the first its head, each
    a list of cells; item: a list's items; text: a paragraph.
    """
    lines = text.split("\n")
    found = []
    while lines:
        kind = kind_of(lines[0])
        content = block(kind, lines)
        if kind != "empty":
            found.append((kind, content))
    return found
