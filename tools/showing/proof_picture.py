"""A proof as a tree in SVG, as on a blackboard: a box for each step, a frame about each world, and no two branches overlap."""

from xml.sax.saxutils import escape

from certificates.formulas import printed
from showing import brief, contours
from showing.proof_nodes import faults, is_folded, nodes, rule_line, told_size
from showing.signs import in_unicode
from showing.strokes import head, number, toward
from showing.words import LOGIC_NAMES, listed, signed

# the width of a letter of a common type of even width, in units, and the height of a line
LETTER, ROW = 8, 16
MARGIN, PAD, LEAST_WIDTH = 16, 8, 64
# lines are broken behind so many letters; of one formula so many lines are shown, and its box's title has it whole
LONGEST, MOST_LINES = 56, 6
STYLE = (
    ".tree text { font-family: 'DejaVu Sans Mono', Menlo, Consolas, monospace; font-size: 13px; fill: black; text-anchor: middle; } "
    ".tree .rule { fill: #444; } .tree .heading { font-weight: bold; text-anchor: start; } .tree .fault { fill: #a00; } "
    ".tree .box { fill: white; stroke: black; } .tree .cited { stroke-dasharray: 4 3; } .tree .broken { stroke: #a00; stroke-width: 2; } "
    ".tree .world { fill: none; stroke: #777; stroke-width: 1.5; } .tree path { fill: none; stroke: black; } .tree .head { fill: black; stroke: none; }"
)


def pieces(word):
    return [word[i : i + LONGEST] for i in range(0, len(word), LONGEST)]


def wrapped(text):
    """The text in lines of at most LONGEST letters; where there are more than MOST_LINES, dots stand for the rest."""
    lines = []
    for word in (piece for word in text.split(" ") for piece in pieces(word)):
        if lines and len(lines[-1]) + 1 + len(word) <= LONGEST:
            lines[-1] += " " + word
        else:
            lines.append(word)
    return lines if len(lines) <= MOST_LINES else lines[: MOST_LINES - 1] + ["…"]


def heading(place):
    return "world %d" % place.world


class Shown:
    """A node with its lines, each with its kind, and its box."""

    def __init__(self, logic, goal, node):
        place = node.visit.place
        self.node, self.faults = node, faults(logic, goal, node, in_unicode)
        new = [signed(s, in_unicode) for s in place.new] or ["nothing new"]
        told = [("new", text) for text in new] + [("rule", rule_line(node, in_unicode))] + [("fault", text) for text in self.faults]
        self.lines = [(kind, line) for kind, text in told for line in wrapped(text)]
        width = max(LEAST_WIDTH, 2 * PAD + LETTER * max(len(line) for _, line in self.lines))
        is_world = place.is_world()
        self.box = contours.Box(len(self.lines) + 1, width, is_world, 2 * PAD + LETTER * len(heading(place)) if is_world else 0)

    def title(self):
        """What the box has, in words."""
        place = self.node.visit.place
        what = ("%s begins with %s" % (heading(place), listed(place.new))) if place.is_world() else "new: %s" % listed(place.new)
        return "; ".join([what, rule_line(self.node, printed)] + self.faults)


def top(row):
    return MARGIN + ROW * row


def box_kind(shown):
    if shown.faults:
        return "box broken"
    return "box cited" if shown.node.cited is not None else "box"


def rectangle(kind, corner, size, radius):
    told = (kind,) + tuple(number(value) for value in corner + size) + (radius,)
    return '<rect class="%s" x="%s" y="%s" width="%s" height="%s" rx="%d"/>' % told


def box_lines(shown):
    """The box with its text."""
    box = shown.box
    x, y = MARGIN + box.x, top(box.row)
    yield '<g class="node"><title>%s</title>' % escape(shown.title())
    yield rectangle(box_kind(shown), (x - box.width / 2, y), (box.width, ROW * box.rows), 4)
    for i, (kind, line) in enumerate(shown.lines):
        yield '<text class="%s" x="%s" y="%s">%s</text>' % (kind, number(x), number(y + ROW * (i + 1) + 4), escape(line))
    yield "</g>"


def frame_lines(shown):
    """The frame of the world that begins with the box."""
    box = shown.box
    left, right, rows = box.frame
    x, y = MARGIN + box.x + left, top(box.row - 1)
    yield rectangle("world", (x, y), (right - left, ROW * rows), 8)
    yield '<text class="heading" x="%s" y="%s">%s</text>' % (number(x + PAD), number(y + ROW - 4), heading(shown.node.visit.place))


def edge_lines(upper, lower):
    """The line from a box to one below it; into another world with a head."""
    start = (MARGIN + upper.x, top(upper.row + upper.rows))
    end = (MARGIN + lower.x, top(lower.row - (1 if lower.is_framed else 0)))
    last = toward(end, start, 8) if lower.is_framed else end
    yield '<path d="M %s %s L %s %s"/>' % tuple(number(value) for value in start + last)
    if lower.is_framed:
        yield head(end, start)


def laid_out(logic, goal, found):
    """What is shown of each node, its box in its place; the whole width, and the number of rows."""
    shown = [Shown(logic, goal, node) for node in found]
    boxes = {node.visit.number: one.box for node, one in zip(found, shown)}
    for node, one in zip(found, shown):
        one.box.below = [boxes[other.visit.number] for other in node.below]
    return (shown,) + contours.place([one.box for one in shown])


def description(logic, goal, steps, found):
    """The tree in words: the brief form, or of a proof that is folded what is drawn."""
    told = told_size(found, steps)
    if is_folded(steps):
        return told + "."
    return "\n".join([told + "."] + list(brief.lines(logic, goal, steps))[len(brief.LEGEND) :])


def opening(size, name, title, description):
    yield '<svg xmlns="http://www.w3.org/2000/svg" class="tree" role="img" aria-labelledby="%s-title %s-desc" ' % (name, name) + (
        'width="%d" height="%d" viewBox="0 0 %d %d">' % (size + size)
    )
    yield '<title id="%s-title">%s</title>' % (name, escape(title))
    yield '<desc id="%s-desc">%s</desc>' % (name, escape(description))
    yield "<style>%s</style>" % STYLE
    yield '<rect class="paper" width="100%" height="100%" fill="white"/>'


def lines(logic, goal, steps, is_proof, name="tree"):
    """The picture. `name` is what the ids in it begin with."""
    found = nodes(logic, goal, steps)
    shown, width, rows = laid_out(logic, goal, found)
    title = "%s of %s in %s, as a tree" % ("A proof" if is_proof else "No proof", printed(goal), LOGIC_NAMES[logic])
    size = (width + 2 * MARGIN, ROW * rows + 2 * MARGIN)
    yield from opening(size, name, title, description(logic, goal, steps, found))
    yield from (line for one in shown if one.box.is_framed for line in frame_lines(one))
    yield from (line for one in shown for below in one.box.below for line in edge_lines(one.box, below))
    yield from (line for one in shown for line in box_lines(one))
    yield "</svg>"
