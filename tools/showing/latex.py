"""Proofs and models for papers in LaTeX: a proof as a tree of the package forest, a model as a picture in TikZ."""

from certificates.calculus import flip
from showing import contours, drawing, reasons, tikz
from showing.places import kind
from showing.proof_nodes import nodes
from showing.signs import in_latex, in_unicode
from showing.words import LOGIC_NAMES, counted

# TeX knows no longer lengths, in points, and a tree of more boxes takes it too long
LONGEST, MOST_NODES = 16000, 400
# what is reckoned with for a letter, and for a line, in points
LETTER, ROW = 6, 13
MARGIN = 30
FOREST = "for tree={draw,rounded corners=2pt,align=center,l sep=20pt,s sep=12pt,inner sep=4pt,font=\\small}"


class TooLarge(Exception):
    """What is to be drawn is too large for TeX: what it is."""


def signed(s):
    return "$%s\\;%s$" % (s[0], in_latex(s[1]))


def why(logic, goal, visit):
    """What is said of a step that breaks its rule, with its formulas in mathematics."""
    told = reasons.of_step(logic, goal, visit.have, visit.rule, visit.principal, lambda a: "\0%s\0" % in_latex(a))
    return "".join("$%s$" % part if i % 2 else tikz.text(part) for i, part in enumerate(told.split("\0")))


def closing(visit):
    return " with %s" % signed(flip(visit.principal)) if visit.rule == "close" else " can't hold"


def rule_lines(logic, goal, node):
    """The last lines of a box: its rule, and where it breaks that why."""
    visit = node.visit
    if node.cited is not None:
        return [r"\emph{%d. closed as at %d}" % (visit.number, node.cited)]
    told = r"%d. \emph{%s} %s%s" % (visit.number, visit.rule, tikz.text(kind(visit.principal)), signed(visit.principal))
    if visit.left is None:
        return [told, r"breaks its rule: %s" % why(logic, goal, visit)]
    return [told + closing(visit) if visit.left == [] else told]


def content(logic, goal, node):
    place = node.visit.place
    heading = [r"\textbf{world %d}" % place.world] if place.is_world() else []
    new = [signed(s) for s in place.new] or ["nothing new"]
    return r"\\ ".join(heading + new + rule_lines(logic, goal, node))


def options(node):
    """A world that begins has a thick outline, and an arrow leads to it; a set that is closed elsewhere has a dashed one."""
    if node.visit.place.is_world():
        return ",thick,edge={->}"
    return ",densely dashed" if node.cited is not None else ""


def forest(logic, goal, found):
    """The tree of the nodes, each on a line of its own."""
    yield r"\begin{forest}"
    yield FOREST
    waiting = [found[0]]
    while waiting:
        node = waiting.pop()
        if node is None:
            yield "]"
            continue
        yield "[{%s}%s" % (content(logic, goal, node), options(node))
        waiting += [None] + list(reversed(node.below))
    yield r"\end{forest}"


class Figure:
    """A drawing with its size in points, the package that it needs, and what is said below it."""

    def __init__(self, lines, size, package, caption):
        self.lines, self.size, self.package, self.caption = lines, size, package, caption
        if max(size) > LONGEST:
            raise TooLarge("a drawing of %d by %d points" % size)


def box_of(node):
    """About as large a box as the node's will be."""
    place, visit = node.visit.place, node.visit
    lines = [in_unicode(s[1]) for s in place.new] + [in_unicode(visit.principal[1]) * (2 if visit.left == [] else 1)]
    return contours.Box(len(lines) + 3, LETTER * (max(map(len, lines)) + 24))


def size_of(found):
    """About the width and the height of the tree."""
    boxes = {node.visit.number: box_of(node) for node in found}
    for node in found:
        boxes[node.visit.number].below = [boxes[other.visit.number] for other in node.below]
    width, rows = contours.place(list(boxes.values()))
    return width, ROW * rows


def of_proof(case):
    found = nodes(case.logic, case.goal, case.body)
    if len(found) > MOST_NODES:
        raise TooLarge("a tree of %d boxes" % len(found))
    what = "A proof" if case.line == "accepted" else "No proof"
    told = "%s of $%s$ in %s: %s." % (what, in_latex(case.goal), LOGIC_NAMES[case.logic], counted(len(case.body), "step"))
    return Figure(list(forest(case.logic, case.goal, found)), size_of(found), "forest", told)


def of_model(case, views):
    lines = list(drawing.picture_of(views))
    caption = tikz.caption_of(lines)
    if case.goal is None:
        told = tikz.text(caption)
    else:
        told = ("$%s$" % in_latex(case.goal)).join(tikz.text(part) for part in caption.split(in_unicode(case.goal)))
    return Figure(list(tikz.drawing(lines)), tikz.size_of(lines), "tikz", told + fault_of(case))


def fault_of(case):
    """Why a certificate's model doesn't refute its formula."""
    found = case.goal and reasons.of_model(case.logic, case.goal, case.body)
    return " " + tikz.text("%s: %s." % (case.line, found)) if found else ""


def figures(found, shown):
    """A figure of each proof and of each model, in their order; of what is neither the checker's line alone. Raises TooLarge."""
    for number, case in enumerate(found):
        if number in shown:
            yield of_model(case, shown[number])
        elif case.is_proof():
            yield of_proof(case)
        else:
            yield Figure([], (0, 0), None, tikz.text(case.place + case.line))


def preamble(drawn):
    width = max([400] + [figure.size[0] for figure in drawn]) + 2 * MARGIN
    height = max([200] + [figure.size[1] for figure in drawn]) + 4 * MARGIN
    yield r"\documentclass{article}"
    yield r"\usepackage{amssymb}"
    for package in sorted({figure.package for figure in drawn if figure.package}):
        yield r"\usepackage{%s}" % package
    yield r"\usepackage[paperwidth=%dpt,paperheight=%dpt,margin=%dpt]{geometry}" % (width, height, MARGIN)
    yield r"\pagestyle{empty}"
    yield r"\setlength{\parindent}{0pt}"


def document(found, shown):
    """A document with a page for each case; what stands between its rows of % can be put into a paper with the packages that
    it names. Raises TooLarge."""
    drawn = list(figures(found, shown))
    yield from preamble(drawn)
    yield r"\begin{document}"
    for number, figure in enumerate(drawn):
        if number:
            yield r"\newpage"
        yield "%" * 40
        yield from figure.lines
        yield "%" * 40
        yield ""
        yield r"\medskip " + figure.caption
        yield ""
    yield r"\end{document}"
