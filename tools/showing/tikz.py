"""A picture in SVG, as those of models are, in TikZ: each of its strokes and letters at its place."""

import re
import xml.etree.ElementTree as tree

from showing.signs import UNICODE, LATEX, latex_name

# the length of a unit of the picture, in points
SCALE = 0.8
SPACE = "{http://www.w3.org/2000/svg}"
LETTERS = {UNICODE[sign]: "$%s$" % LATEX[sign].strip() for sign in UNICODE}
LETTERS.update({"_": r"\_", "&": r"\&", "%": r"\%", "#": r"\#", "$": r"\$", "{": r"\{", "}": r"\}", "~": r"\~{}", "^": r"\^{}"})
LETTERS.update({"\\": r"\textbackslash{}", "<": "$<$", ">": "$>$", "…": r"\dots{}"})
LETTERS.update({"α": r"$\alpha$", "β": r"$\beta$", "ν": r"$\nu$", "π": r"$\pi$"})
OUTLINES = {"world": "fill=white", "frame": "fill=black!6"}


def text(words):
    """The words outside of mathematics, in which a sign has some of its own."""
    return "".join(LETTERS.get(letter, letter) for letter in words)


def pair(x, y):
    return "(%.1f,%.1f)" % (x, y)


def attribute(element, name):
    return float(element.get(name, "0"))


def circle(element, dx, dy):
    middle = pair(attribute(element, "cx") + dx, attribute(element, "cy") + dy)
    return [r"\draw[%s] %s circle[radius=%s];" % (OUTLINES[element.get("class")], middle, element.get("r"))]


def rect(element, dx, dy):
    if element.get("width") == "100%":
        return []
    x, y = attribute(element, "x") + dx, attribute(element, "y") + dy
    corners = pair(x, y), pair(x + attribute(element, "width"), y + attribute(element, "height"))
    round_corners = "rounded corners=%.1fpt" % (SCALE * attribute(element, "rx"))
    return [r"\draw[%s,%s] %s rectangle %s;" % ((OUTLINES[element.get("class")], round_corners) + corners)]


def path(element, dx, dy):
    """A head is filled; the points of a line are joined, and those of a curve are ends of its pieces and their controls."""
    numbers = [float(number) for number in re.findall("-?[0-9.]+", element.get("d"))]
    points = [pair(x + dx, y + dy) for x, y in zip(numbers[::2], numbers[1::2])]
    if element.get("class") == "head":
        return [r"\fill %s -- cycle;" % " -- ".join(points)]
    if "C" not in element.get("d"):
        return [r"\draw %s;" % " -- ".join(points)]
    pieces = [".. controls %s and %s .. %s" % tuple(points[i : i + 3]) for i in range(1, len(points), 3)]
    return [r"\draw %s %s;" % (points[0], " ".join(pieces))]


def letters(element, dx, dy):
    """The number of a world, or variables; a caption is no part of the drawing."""
    kinds = element.get("class").split()
    if "caption" in kinds:
        return []
    told = r"\textbf{%s}" % element.text if "number" in kinds else " ".join("$%s$" % latex_name(name) for name in element.text.split())
    return [r"\node[anchor=base] at %s {%s};" % (pair(attribute(element, "x") + dx, attribute(element, "y") + dy), told)]


def nothing(element, dx, dy):
    return []


def group(element, dx, dy):
    """What the element contains, moved as it says."""
    moved = [float(number) for number in re.findall("-?[0-9.]+", element.get("transform", "translate(0 0)"))]
    dx, dy = dx + moved[0] + attribute(element, "x"), dy + moved[1]
    return [line for part in element for line in DRAWN[part.tag[len(SPACE) :]](part, dx, dy)]


DRAWN = {"svg": group, "g": group, "circle": circle, "rect": rect, "path": path, "text": letters, "title": nothing, "desc": nothing, "style": nothing}


def size_of(lines):
    """The width and the height of the picture, in points."""
    svg = tree.fromstring("\n".join(lines))
    return tuple(SCALE * float(svg.get(name)) for name in ("width", "height"))


def caption_of(lines):
    """The words below the picture."""
    svg = tree.fromstring("\n".join(lines))
    return " ".join(part.text for part in svg.iter(SPACE + "text") if "caption" in part.get("class"))


def drawing(lines):
    """The picture without its caption. Raises KeyError where it has an element or an outline of another kind."""
    svg = tree.fromstring("\n".join(lines))
    yield r"\begin{tikzpicture}[x=%.1fpt,y=-%.1fpt,font=\small]" % (SCALE, SCALE)
    yield from group(svg, 0.0, 0.0)
    yield r"\end{tikzpicture}"
