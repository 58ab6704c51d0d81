"""The outlines in a picture, of worlds and of frames: boxes with round corners. A circle is one that is all corners."""

import math

STEPS = 24


class Shape:
    """A box around its middle, whose corners are rounded by this radius."""

    def __init__(self, width, height, corner, middle=(0.0, 0.0)):
        self.width, self.height, self.corner, self.middle = width, height, corner, middle

    def at(self, middle):
        """The same with another middle."""
        return Shape(self.width, self.height, self.corner, middle)

    def wider(self, more):
        """The outline that has this distance from it all around."""
        return Shape(self.width + 2 * more, self.height + 2 * more, self.corner + more, self.middle)

    def distance(self, p):
        """How far the point is outside the outline; negative within."""
        x = abs(p[0] - self.middle[0]) - self.width / 2 + self.corner
        y = abs(p[1] - self.middle[1]) - self.height / 2 + self.corner
        return math.hypot(max(x, 0.0), max(y, 0.0)) + min(max(x, y), 0.0) - self.corner

    def crossing(self, inner, outer):
        """Where the straight way from a point within to one outside meets the outline."""
        low, high = 0.0, 1.0
        for _ in range(STEPS):
            half = (low + high) / 2
            p = (inner[0] + half * (outer[0] - inner[0]), inner[1] + half * (outer[1] - inner[1]))
            low, high = (half, high) if self.distance(p) < 0 else (low, half)
        return p
