"""The nodes of a picture: worlds that stand alone, and frames of worlds that all see each other.

A frame holds worlds each of which sees each of them, and which see the same worlds and are seen from the same. So an arrow
at a frame stands for one at each of its worlds. Where the relation is transitive, these are its clusters.
"""

import math

from showing.labels import label_of, size_of
from showing.shapes import Shape

LEAST_RADIUS, MOST_RADIUS = 20, 30
RING, BESIDE, PADDING, CORNER = 4, 16, 14, 12


def groups_of(sees):
    """The worlds in lists, a list for each node, by their first worlds."""
    seen_from = [set() for _ in sees]
    for w, row in enumerate(sees):
        for v in row:
            seen_from[v].add(w)
    groups = {}
    for w, row in enumerate(sees):
        groups.setdefault((frozenset(row), frozenset(seen_from[w])) if w in row else w, []).append(w)
    return list(groups.values())


def radius_for(label):
    """The least radius of a circle that has room for the label."""
    return max(LEAST_RADIUS, math.ceil(math.hypot(*size_of(label)) / 2) + 3)


def outlines(labels):
    """The outline of each label: a circle, all of them alike, where that needn't be large, and else a box."""
    radii = [radius_for(label) for label in labels]
    radius = max([r for r in radii if r <= MOST_RADIUS] or [LEAST_RADIUS])
    for label, own in zip(labels, radii):
        if own <= radius:
            yield Shape(2 * radius, 2 * radius, radius)
        else:
            width, height = size_of(label)
            yield Shape(width + 2 * CORNER, height + CORNER, CORNER)


class Node:
    """A world or a frame: its worlds, where each stands from its middle, its outline, and whether it is a frame."""

    def __init__(self, worlds, shapes):
        self.worlds, self.is_frame = worlds, len(worlds) > 1
        columns = math.ceil(math.sqrt(len(worlds)))
        rows = math.ceil(len(worlds) / columns)
        width = max(shapes[w].width for w in worlds) + BESIDE
        height = max(shapes[w].height for w in worlds) + BESIDE
        self.places = {w: self.place(i, columns, rows, width, height) for i, w in enumerate(worlds)}
        if self.is_frame:
            self.shape = Shape(width * columns + PADDING, height * rows + PADDING, CORNER)
        else:
            self.shape = shapes[worlds[0]]

    @staticmethod
    def place(i, columns, rows, width, height):
        """Where the world stands in the grid of a frame."""
        return width * (i % columns - (columns - 1) / 2), height * (i // columns - (rows - 1) / 2)


def nodes_of(sees, facts, refuted):
    """The nodes, and the label and the outline of each world; the refuting world's outline is that of its outer circle."""
    labels = [label_of(w, names) for w, names in enumerate(facts)]
    shapes = [shape.wider(RING) if w == refuted else shape for w, shape in enumerate(outlines(labels))]
    return [Node(worlds, shapes) for worlds in groups_of(sees)], labels, shapes


def arrows_between(groups, arrows):
    """The arrows from one group of worlds to another, and the worlds that have a loop and are a group alone, as indices."""
    group_of = {w: i for i, worlds in enumerate(groups) for w in worlds}
    ends = {(group_of[v], group_of[w]) for v, w in arrows}
    looped = sorted(i for i, j in ends if i == j and len(groups[i]) == 1)
    return sorted((i, j) for i, j in ends if i != j), looped
