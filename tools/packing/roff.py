"""Blocks of a document as a manual page, in the macros that man(7) tells of; tables are for tbl."""

import re

WIDTH = 70
GAP = 2
SIGNS = {"\\": "\\e", "-": "\\-", "~": "\\(ti", "^": "\\(ha", "'": "\\(aq", "`": "\\(ga", '"': "\\(dq"}
MARKUP = re.compile(r"`([^`]*)`|\*\*(.+?)\*\*|\*([^*]+)\*|\[([^\]]*)\]\(([^)]*)\)")


def plain(text):
    """The text as roff writes it, whatever its bytes mean there."""
    return "".join(SIGNS.get(sign) or (sign if sign.isascii() else "\\[u%04X]" % ord(sign)) for sign in text)


def linked(label, target):
    """A link as words; its target is told too where the label doesn't."""
    return inline(label) if target.endswith(label) else "%s (%s)" % (inline(label), plain(target))


def marked(match):
    code, bold, italic, label, target = match.groups()
    if code is not None:
        return "\\fB%s\\fR" % plain(code)
    if bold is not None:
        return "\\fB%s\\fR" % inline(bold)
    if italic is not None:
        return "\\fI%s\\fR" % inline(italic)
    return linked(label, target)


def inline(text):
    """Words with code, bold and italic letters and links, as roff writes them."""
    at, written = 0, []
    for match in MARKUP.finditer(text):
        written += [plain(text[at : match.start()]), marked(match)]
        at = match.end()
    return "".join(written) + plain(text[at:])


def line(written):
    """A line of text, which is no request whatever it begins with."""
    return "\\&" + written if written.startswith((".", "'")) else written


def shown(cell):
    """The signs that are shown of a cell."""
    return MARKUP.sub(lambda match: next(word for word in match.groups() if word is not None), cell)


def widths(rows):
    """The width of each column in letters: that of its longest cell, or less where the page is too narrow for all, but never
    less than its longest word.
    """
    columns = [[shown(cell) for cell in column] for column in zip(*rows)]
    least = [max(len(word) for cell in column for word in cell.split() or [""]) for column in columns]
    shares = [max(map(len, column)) for column in columns]
    while sum(shares) + GAP * (len(shares) - 1) > WIDTH and shares != least:
        widest = max((share, at) for at, share in enumerate(shares) if share > least[at])[1]
        shares[widest] -= 1
    return shares


def table(rows):
    """A table, its head in bold letters, each cell a text that is broken within its column."""
    head, body = ((" %d " % GAP).join("%s(%dn)" % (key, width) for width in widths(rows)) for key in ("lbw", "lw"))
    cells = ["\t".join("T{\n%s\nT}" % line(inline(cell) or "\\&") for cell in row) for row in rows]
    # nokeep: a page on a screen has no end that a row could run over
    return [".TS", "nokeep tab(\t);", head, body + ".", *cells, ".TE"]


def heading(content):
    """A document's title is its page's name, which stands above already."""
    level, text = content
    return {1: [], 2: [".SH " + plain(text.upper())], 3: [".SS " + plain(text)]}[level]


def code(lines):
    return [".PP", ".RS 4", ".EX", *[line(plain(row)) for row in lines], ".EE", ".RE"]


def items(texts):
    return [row for text in texts for row in (".IP \\(bu 2", line(inline(text)))]


def paragraph(text):
    return [".PP", line(inline(text))]


WRITERS = {
    "heading": heading,
    "image": lambda caption: paragraph("(A picture: %s.)" % caption.rstrip(".")),
    "fence": code,
    "code": code,
    "row": lambda rows: [".PP", *table(rows)],
    "item": items,
    "text": paragraph,
}


def lines(blocks):
    """The page's lines for the blocks that markdown.blocks gives."""
    return [row for kind, content in blocks for row in WRITERS[kind](content)]
