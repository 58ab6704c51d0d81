"""A cactus plot in SVG: how many formulas each solver solves, each within the time on the vertical axis, which is logarithmic."""

import math

from showing.labels import LINE
from showing.picture import STYLE
from showing.strokes import point, text_line

NAME_WIDTH = 70
WIDTH, HEIGHT, LEFT, TOP, RIGHT, BOTTOM = 660, 420, 80, 24, 110, 50
# of the curves, one a solver: the program, that with certificates, and the peers
DASHES = ("none", "7 3", "2 3", "9 3 2 3")


def times_of(rows, solver):
    return sorted(answer.seconds for row in rows if solver in row.answers for answer in row.solved(solver))


class Scale:
    """Where a number of formulas and a time stand on the paper."""

    def __init__(self, most, least_time, most_time):
        self.most = max(1, most)
        self.low = math.floor(math.log10(least_time))
        self.high = max(self.low + 1, math.ceil(math.log10(most_time)))

    def place(self, count, seconds):
        x = LEFT + (WIDTH - LEFT - RIGHT) * count / self.most
        part = (math.log10(seconds) - self.low) / (self.high - self.low)
        return x, HEIGHT - BOTTOM - (HEIGHT - TOP - BOTTOM) * part


def axis_lines(scale):
    corners = [scale.place(0, 10.0**scale.high), scale.place(0, 10.0**scale.low), scale.place(scale.most, 10.0**scale.low)]
    yield '<path d="M %s L %s L %s"/>' % tuple(point(corner) for corner in corners)
    for power in range(scale.low, scale.high + 1):
        yield text_line(8, scale.place(0, 10.0**power)[1] + 4, "tick", "%g s" % 10.0**power)
    for part in range(5):
        count = scale.most * part // 4
        yield text_line(scale.place(count, 1)[0], HEIGHT - BOTTOM + 18, "middle", "%d" % count)
    yield text_line((LEFT + WIDTH - RIGHT) / 2, HEIGHT - 12, "middle", "formulas solved, each within the time at the left")


def curve_lines(scale, times):
    """A curve for each solver that solves some, with its name at the end, below one that would stand in its place."""
    names = []
    for (solver, list_of), dashes in zip(times.items(), DASHES):
        if not list_of:
            continue
        places = [scale.place(count, seconds) for count, seconds in enumerate(list_of, 1)]
        yield '<path stroke-dasharray="%s" d="M %s"/>' % (dashes, " L ".join(point(place) for place in places))
        x, y = places[-1][0] + 6, places[-1][1] + 4
        while any(abs(x - u) < NAME_WIDTH and abs(y - v) < LINE for u, v in names):
            y += LINE
        names.append((x, y))
        yield text_line(x, y, "name", solver)


def lines(rows, solvers):
    """The picture's lines; there is at least one solved formula."""
    times = {solver: times_of(rows, solver) for solver in solvers}
    every = [seconds for list_of in times.values() for seconds in list_of]
    scale = Scale(max(len(list_of) for list_of in times.values()), min(every), max(every))
    yield '<svg xmlns="http://www.w3.org/2000/svg" width="%d" height="%d" viewBox="0 0 %d %d">' % (WIDTH, HEIGHT, WIDTH, HEIGHT)
    yield "<style>%s</style>" % STYLE
    yield '<rect width="100%" height="100%" fill="white"/>'
    yield from axis_lines(scale)
    yield from curve_lines(scale, times)
    yield "</svg>"
