"""A model as a picture in SVG: worlds with what is true there, the refuting one's outline doubled, frames and arrows."""

import math
import re
from xml.sax.saxutils import escape, unescape

from showing import told
from showing.drawn import drawn_of
from showing.labels import LINE, width_of, wrapped
from showing.nodes import RING, arrows_between, groups_of
from showing.strokes import outline, stroke, text_line

MOST_ARROWS = 600
SIZE = re.compile('width="([0-9]+)" height="([0-9]+)"')
MARGIN, LEAST_WIDTH = 24, 460
STYLE = (
    "text { font-family: 'DejaVu Sans', Verdana, Helvetica, Arial, sans-serif; font-size: 13px; fill: black; } "
    ".middle { text-anchor: middle; } .number { font-weight: bold; } .world { fill: white; stroke: black; stroke-width: 1.3; } "
    ".frame { fill: #f0f0f0; stroke: black; } path { fill: none; stroke: black; stroke-width: 1.3; } .head { fill: black; stroke: none; }"
)


class TooManyArrows(Exception):
    """There are more arrows than a picture can show."""


def opening(size, title, description):
    """The first lines of a picture: its view, and what it is and what it shows in words."""
    yield '<svg xmlns="http://www.w3.org/2000/svg" width="%d" height="%d" viewBox="0 0 %d %d" role="img">' % (size + size)
    yield "<title>%s</title>" % escape(title)
    yield "<desc>%s</desc>" % escape(description)


def titled(title, lines):
    yield "<g><title>%s</title>" % escape(title)
    yield from lines
    yield "</g>"


def world_lines(drawn, w):
    """The outline of a world, doubled where it refutes, with its number and its variables."""
    shape, label = drawn.worlds[w], drawn.labels[w]
    yield outline(shape, "world")
    if w == drawn.refuted:
        yield outline(shape.wider(-RING), "world")
    x, y = shape.middle
    for i, line in enumerate(label):
        baseline = y + LINE * (i - (len(label) - 1) / 2) + 4.5
        yield text_line(x, baseline, "number middle" if i == 0 else "middle", line)


def cut_words(text, width):
    """The words of the text, those that are too wide in pieces."""
    most = max(1, int(width / width_of("□")))
    for word in text.split(" "):
        pieces = [word] if width_of(word) <= width else [word[i : i + most] for i in range(0, len(word), most)]
        yield from pieces


def caption_lines(caption, width):
    return [line for text in caption for line in wrapped(list(cut_words(text, width)), width)]


def contents(drawn, model):
    """Frames below arrows, and arrows below worlds."""
    for node, shape in zip(drawn.nodes, drawn.shapes):
        if node.is_frame:
            yield from titled(told.cluster(node.worlds), [outline(shape, "frame")])
    for (v, w), (points, two_headed) in sorted(drawn.arrows.items()):
        yield from titled(told.arrow(drawn.nodes[v].worlds, drawn.nodes[w].worlds, two_headed), stroke(points, two_headed))
    for w in sorted(drawn.worlds):
        yield from titled(told.world(model, w), world_lines(drawn, w))


def refuse_too_many(model, arrows):
    """Raises TooManyArrows where there are more than can be shown."""
    others, looped = arrows_between(groups_of(model[0]), arrows)
    if len(others) + len(looped) > MOST_ARROWS:
        raise TooManyArrows


def lines(model, arrows, caption):
    """The picture, with the lines of its caption below. Raises TooManyArrows."""
    refuse_too_many(model, arrows)
    drawn = drawn_of(model, arrows)
    left, top, right, low = drawn.bounds()
    width = max(LEAST_WIDTH, math.ceil(right - left) + 2 * MARGIN)
    below = math.ceil(low - top) + 2 * MARGIN
    captions = caption_lines(caption + told.legend(drawn.nodes), width - 2 * MARGIN)
    size = (width, below + LINE * len(captions) + MARGIN // 2)
    yield from opening(size, caption[0] if caption else "A Kripke model", told.description(model, drawn))
    yield "<style>%s</style>" % STYLE
    yield '<rect width="100%" height="100%" fill="white"/>'
    drawn.move((width - left - right) / 2, MARGIN - top)
    yield from contents(drawn, model)
    for i, text in enumerate(captions):
        yield text_line(MARGIN, below + LINE * (i + 0.5), "caption", text)
    yield "</svg>"


def description_of(picture):
    """What the lines of a picture say of it."""
    return unescape(next(line for line in picture if line.startswith("<desc>"))[len("<desc>") : -len("</desc>")])


def beside(pictures):
    """One picture of several, from left to right; one alone stays as it is."""
    pictures = [list(picture) for picture in pictures]
    if len(pictures) == 1:
        yield from pictures[0]
        return
    sizes = [tuple(int(length) for length in SIZE.search(picture[0]).groups()) for picture in pictures]
    size = (sum(width for width, _ in sizes), max(height for _, height in sizes))
    yield from opening(size, "A Kripke model, and its bisimulation quotient", " Beside it: ".join(description_of(picture) for picture in pictures))
    yield '<rect width="100%" height="100%" fill="white"/>'
    left = 0
    for picture, (width, _) in zip(pictures, sizes):
        yield picture[0].replace("<svg ", '<svg x="%d" ' % left)
        yield from picture[1:]
        left += width
    yield "</svg>"
