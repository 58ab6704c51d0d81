"""Where the boxes of a tree stand, so that no two branches overlap (after Reingold and Tilford, Tidier Drawings of Trees, 1981).

Heights are counted in rows, and widths in units; a box of a world that begins has a frame about all that stands below it.
"""

GAP_ROWS, GAP, FRAME = 2, 24, 10


class Box:
    """A box with its size: so many rows, so many units, an even number; whether a frame begins with it; and the least width
    of the frame. The layout gives the middle of the box, the row of its top, and of a frame its left and right side and its
    first and last row."""

    def __init__(self, rows, width, is_framed=False, frame_width=0):
        self.rows, self.width, self.is_framed, self.frame_width = rows, width, is_framed, frame_width
        self.below, self.frame = [], None
        self.x = self.row = self.shift = 0

    def gap(self):
        """The rows between a box above and this one."""
        return GAP_ROWS + (1 if self.is_framed else 0)


class Outline:
    """How far a subtree reaches to the left and to the right of its root's middle: runs of rows, each with its sides, the
    lowest first. The sides are those of the runs and `moved`."""

    def __init__(self):
        self.runs, self.moved = [], 0

    def add(self, rows, left, right):
        """Puts rows above all others."""
        self.runs.append((rows, left - self.moved, right - self.moved))

    def take(self, most):
        """Takes away at most so many of the highest rows, of one run: how many, and their sides."""
        rows, left, right = self.runs.pop()
        if rows > most:
            self.runs.append((rows - most, left, right))
        return min(rows, most), left + self.moved, right + self.moved

    def sides(self):
        return self.moved + min(left for _, left, _ in self.runs), self.moved + max(right for _, _, right in self.runs)

    def height(self):
        return sum(rows for rows, _, _ in self.runs)


def common_runs(one, other):
    """Takes from both outlines the rows that both have, from the top: in runs, with the sides in each."""
    found = []
    while one.runs and other.runs:
        most = min(one.runs[-1][0], other.runs[-1][0])
        rows, left, right = one.take(most)
        found.append((rows, left, right) + other.take(most)[1:])
    return found


def joined(one, other):
    """The outline of two subtrees side by side, and how far the middles of their roots are from the middle between them."""
    runs = common_runs(one, other)
    half = (max(right - left for _, _, right, left, _ in runs) + GAP + 1) // 2
    rest = one if one.runs else other
    rest.moved += -half if rest is one else half
    for rows, left, _, _, right in reversed(runs):
        rest.add(rows, left - half, right + half)
    return rest, half


def outline_below(box, outlines):
    """The outline of what stands below the box, whose roots are given their shifts from its middle."""
    found = outlines[0]
    if len(outlines) == 2:
        found, half = joined(*outlines)
        box.below[0].shift, box.below[1].shift = -half, half
    reach = max([box.width // 2] + [abs(other.shift) for other in box.below])
    found.add(GAP_ROWS, -reach, reach)
    return found


def framed(box, outline):
    """The outline of the box's frame, which gets its sides from its middle and the number of its rows."""
    left, right = outline.sides()
    left, right = left - FRAME, max(right + FRAME, left - FRAME + box.frame_width)
    rows = outline.height() + 2
    box.frame = (left, right, rows)
    around = Outline()
    around.add(rows, left, right)
    return around


def outline_of(box, outlines):
    outline = outline_below(box, outlines) if outlines else Outline()
    outline.add(box.rows, -(box.width // 2), box.width // 2)
    return framed(box, outline) if box.is_framed else outline


def place(boxes):
    """Gives each box its place. The boxes are those of a tree, each before those below it, of which there are two at most;
    the answer is the whole width and the number of rows."""
    outlines = {}
    for box in reversed(boxes):
        outlines[id(box)] = outline_of(box, [outlines.pop(id(other)) for other in box.below])
    whole = outlines[id(boxes[0])]
    left, right = whole.sides()
    boxes[0].x, boxes[0].row = -left, 1 if boxes[0].is_framed else 0
    for box in boxes:
        for other in box.below:
            other.x, other.row = box.x + other.shift, box.row + box.rows + other.gap()
    return right - left, whole.height()
