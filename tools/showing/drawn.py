"""A model on paper: its nodes in their places, and the way of each arrow."""

import math

from showing.layout import Layout
from showing.nodes import arrows_between, nodes_of
from showing.paper import Paper
from showing.routes import loops, ways
from showing.strokes import along

GAP, LOOP_GAP = 34, 18
# how far the nodes may be spread, and how bad an arrow may be before they are spread farther
SPREADS, CONFUSED = (1.0, 1.4, 2.0, 2.8), 3.0
# with more arrows than this a picture takes long, and is drawn but once
MANY_ARROWS = 100


def one_for_both_ways(arrows):
    """The arrows, with whether they have two heads: one for two that go there and back."""
    there = set(arrows)
    return {(v, w): (w, v) in there for v, w in arrows if (w, v) not in there or v < w}


class Drawn:
    """The nodes, the outline of each in its place, the label and the outline of each world, and the arrows: for each pair of
    nodes its points and whether it has two heads; that of a loop is of a node with itself. `worst` is how badly
    one of them can be told from the others."""

    def __init__(self, model, arrows, spread):
        sees, facts, self.refuted = model
        self.nodes, self.labels, shapes = nodes_of(sees, facts, self.refuted)
        others, looped = arrows_between([node.worlds for node in self.nodes], arrows)
        sizes = [(node.shape.width, node.shape.height) for node in self.nodes]
        layout = Layout(sizes, others, GAP + (LOOP_GAP if looped else 0), spread)
        self.shapes = [node.shape.at(layout.middles[i]) for i, node in enumerate(self.nodes)]
        self.worlds = {w: shapes[w].at(self.place(i, w)) for i, node in enumerate(self.nodes) for w in node.worlds}
        self.arrows, paper = {}, Paper(self.shapes)
        self.draw_arrows(paper, layout, one_for_both_ways(others))
        self.draw_loops(paper, layout, looped)
        self.worst = paper.worst

    def place(self, i, w):
        (x, y), (dx, dy) = self.shapes[i].middle, self.nodes[i].places[w]
        return (x + dx, y + dy)

    def draw_arrows(self, paper, layout, arrows):
        """The shorter ones first, since they have fewer ways."""
        def length(pair):
            return math.dist(self.shapes[pair[0]].middle, self.shapes[pair[1]].middle), pair

        for v, w in sorted(arrows, key=length):
            two_headed = arrows[(v, w)]
            found = ways(self.shapes[v], self.shapes[w], layout.passed.get((v, w), []))
            self.arrows[(v, w)] = paper.add_best(found, (two_headed, True), (v, w)), two_headed

    def draw_loops(self, paper, layout, looped):
        for i in looped:
            found = loops(self.shapes[i], layout.outward[i])
            self.arrows[(i, i)] = paper.add_best(found, (False, True), (i,)), False

    def bounds(self):
        """The left, top, right and lower bounds of all that is drawn."""
        points = [p for way, _ in self.arrows.values() for p in along(way)]
        for shape in self.shapes:
            (x, y), wide, high = shape.middle, shape.width / 2, shape.height / 2
            points += [(x - wide, y - high), (x + wide, y + high)]
        xs, ys = [p[0] for p in points], [p[1] for p in points]
        return min(xs), min(ys), max(xs), max(ys)

    def move(self, x, y):
        """Moves all that is drawn so far to the right and down."""
        def there(p):
            return (p[0] + x, p[1] + y)

        self.shapes = [shape.at(there(shape.middle)) for shape in self.shapes]
        self.worlds = {w: shape.at(there(shape.middle)) for w, shape in self.worlds.items()}
        self.arrows = {pair: ([there(p) for p in points], both) for pair, (points, both) in self.arrows.items()}


def drawn_of(model, arrows):
    """The model on paper, its nodes spread as far as is needed to tell the arrows apart; where that isn't reached, as well as
    may be."""
    best = None
    for spread in SPREADS if len(arrows) <= MANY_ARROWS else SPREADS[1:2]:
        drawn = Drawn(model, arrows, spread)
        if best is None or drawn.worst < best.worst:
            best = drawn
        if best.worst < CONFUSED:
            break
    return best
