"""Whether proofs are drawn as trees of which no two branches overlap, and whether each box says what it should."""

import os
import tempfile
import xml.etree.ElementTree as tree

from checks.choices import Choices
from checks.report import text_of
from checks.running import run
from checks.pictures import SVG
from checks.shown_proofs import PIGEONS, doubled, proofs
from showing import contours, proof_picture
from showing.proof_nodes import FOLDED_FROM

# what a box says of Löb's proof, and how many boxes and worlds there are
LOEB_TITLE = "world 1 begins with F p, T box p, T box(box p -> p), T box p -> p; 3. two β T box p -> p"


class Rectangle:
    """A box or a frame of a picture."""

    def __init__(self, element):
        x, y, width, height = (float(element.get(key)) for key in ("x", "y", "width", "height"))
        self.left, self.top, self.right, self.low = x, y, x + width, y + height

    def meets(self, other):
        return self.left < other.right and other.left < self.right and self.top < other.low and other.top < self.low

    def has(self, other):
        return self.left < other.left and other.right < self.right and self.top < other.top and other.low < self.low

    def has_point(self, x, y):
        return self.left < x < self.right and self.top < y < self.low


def rectangles(svg, kind):
    return [Rectangle(element) for element in svg.iter(SVG + "rect") if element.get("class").split()[0] == kind]


def edges(svg):
    """The ends of each line."""
    for path in svg.iter(SVG + "path"):
        if path.get("class") is None:
            words = path.get("d").split()
            yield tuple(float(word) for word in words if word not in "ML")


def crosses(edge, boxes):
    """Whether a point inside the line lies in a box."""
    x, y, u, v = edge
    near = [box for box in boxes if box.top < max(y, v) and min(y, v) < box.low and box.left < max(x, u) and min(x, u) < box.right]
    return any(box.has_point(x + (u - x) * i / 20, y + (v - y) * i / 20) for box in near for i in range(1, 20))


def is_written_inside(group):
    """Whether the letters lie in the box."""
    box = Rectangle(group.find(SVG + "rect"))
    places = [(float(text.get("x")), float(text.get("y")), proof_picture.LETTER * len(text.text) / 2) for text in group.findall(SVG + "text")]
    return all(box.left <= x - half and x + half <= box.right and box.top + 10 <= y <= box.low - 4 for x, y, half in places)


def check_tree(report, what, lines, count):
    svg = tree.fromstring("\n".join(lines))
    boxes, frames = rectangles(svg, "box"), rectangles(svg, "world")
    paper = Rectangle(tree.Element("rect", dict(svg.attrib, x="0", y="0")))
    report.compare("tree of %s: boxes" % what, count, len(boxes))
    report.check("tree of %s: boxes apart" % what, not any(a.meets(b) for i, a in enumerate(boxes) for b in boxes[:i]))
    inside = all(a.has(b) or b.has(a) or not a.meets(b) for i, a in enumerate(frames) for b in frames[:i])
    report.check("tree of %s: frames" % what, inside and all(frame.has(box) or not frame.meets(box) for frame in frames for box in boxes))
    report.check("tree of %s: in view" % what, all(paper.has(other) for other in boxes + frames))
    report.check("tree of %s: lines" % what, not any(crosses(edge, boxes) for edge in edges(svg)))
    report.check("tree of %s: texts" % what, all(is_written_inside(group) for group in svg.iter(SVG + "g")))
    told = [element.text for element in list(svg)[:2]]
    report.check("tree of %s: words" % what, told[0].startswith("A proof of ") and " steps" in told[1], str(told))


def check_trees(report):
    for name, logic, goal, steps in proofs():
        # no set of the longer proof is closed twice either
        if len(steps) < FOLDED_FROM or name == PIGEONS:
            check_tree(report, name, proof_picture.lines(logic, goal, steps, True), len(steps))
    # 383 steps close 9 sets, and each of 7 doublings has a second half, which is closed as the first one
    for times, count, told in ((6, 191, "191 steps."), (7, 16, "383 steps, of which 9 are drawn; in 7 further boxes ")):
        drawn = list(proof_picture.lines("k", *doubled(times), True))
        check_tree(report, "%d doublings" % times, drawn, count)
        report.check("%d doublings in words" % times, told in "\n".join(drawn[:6]))
    drawn = run("tools/show", "examples/check/loeb-in-gl.txt", "--tree")[0].replace("&gt;", ">")
    report.check("tree of loeb-in-gl: titles", "<title>%s</title>" % LOEB_TITLE in drawn and drawn.count('class="world"') == 2, drawn)


def tree_by_chance(choices, count):
    """Boxes of all sizes, of which each but the first stands below one before it that has at most one below it so far."""
    boxes = [contours.Box(1 + choices.below(6), 2 * (20 + choices.below(200)), True, 90)]
    while len(boxes) < count:
        above = boxes[-1 - choices.below(min(len(boxes), 6))]
        if len(above.below) < 2 and not any(other.is_framed for other in above.below):
            is_framed = not above.below and choices.below(4) == 0
            boxes.append(contours.Box(1 + choices.below(6), 2 * (20 + choices.below(200)), is_framed, 90))
            above.below.append(boxes[-1])
    return boxes


def in_order(boxes):
    """The boxes of a tree, each before those below it, and a first one below before a second one."""
    found, waiting = [], [boxes[0]]
    while waiting:
        found.append(waiting.pop())
        waiting += reversed(found[-1].below)
    return found


def outline(box, left, top, right, low):
    """A rectangle in the middle of the box, in units and rows."""
    return Rectangle({"x": box.x + left, "y": top, "width": right - left, "height": low - top})


def check_chance(report):
    """No two boxes of a tree by chance overlap, and a frame has what stands below its box, and nothing else."""
    choices = Choices(7)
    for number in range(40):
        boxes = in_order(tree_by_chance(choices, 60))
        contours.place(boxes)
        shapes = [outline(box, -box.width / 2, box.row, box.width / 2, box.row + box.rows) for box in boxes]
        apart = not any(one.meets(other) for i, one in enumerate(shapes) for other in shapes[:i])
        inside = all(is_framed_well(box, boxes, shapes) for box in boxes if box.is_framed)
        report.check("tree by chance %d" % number, apart and inside, "overlaps" if inside else "frames")


def is_framed_well(box, boxes, shapes):
    left, right, rows = box.frame
    frame, own = outline(box, left, box.row - 1, right, box.row - 1 + rows), {id(other) for other in in_order([box])}
    return all(frame.has(shape) if id(other) in own else not frame.meets(shape) for other, shape in zip(boxes, shapes))


def check_files(report):
    """The tree of the documents is the one that is drawn, and several pictures of one text have numbers, in their order."""
    loeb = "examples/check/loeb-in-gl.txt"
    kept = text_of("docs/pictures/trees/loeb-in-gl.svg")
    report.check("docs/pictures/trees/loeb-in-gl.svg is drawn otherwise", kept == run("tools/show", loeb, "--tree")[0])
    with tempfile.TemporaryDirectory() as folder:
        status = run("tools/show", "examples/run/workbench.expected", "--tree", "--svg", os.path.join(folder, "out-%d.svg"))[1]
        files = sorted(os.listdir(folder))
        kinds = ['class="tree"' in text_of(os.path.join(folder, name)) for name in files]
        report.compare("trees and models with numbers", (0, ["out-1.svg", "out-2.svg"], [True, False]), (status, files, kinds))
    told, status = run("tools/show", loeb, "--svg", "-")
    report.check("show --svg of a proof", status == 1 and told.count("\n") == 1 and "--tree" in told, told)


def check_all(report):
    check_trees(report)
    check_chance(report)
    check_files(report)
