"""Where the nodes of a picture stand: in rows by their layers, near those that they see (Sugiyama's method); nodes that
reach one another stand on a ring.

An arrow that passes a row takes up a slot in it, so that there is a way for it between the nodes.
"""

from showing.layers import knots_of, layer_of_each
from showing.rings import extent, places_of

ROUNDS = 12
PASSING, ROW_GAP, MORE_GAP = 22, 64, 60


class Slot:
    """A place in a row: of some nodes that reach one another, each with its offset, or of an arrow that passes."""

    def __init__(self, row, places, width, height):
        self.row, self.places, self.width, self.height = row, places, width, height
        self.above, self.below, self.x = [], [], 0.0


def node_slot(row, knot, sizes, arrows, gap):
    """A slot around the bounds of its nodes."""
    places = places_of(knot, sizes, arrows, gap)
    left, top, right, low = extent(places, sizes)
    middle = ((left + right) / 2, (top + low) / 2)
    return Slot(row, {i: (x - middle[0], y - middle[1]) for i, (x, y) in places.items()}, right - left + gap, low - top)


def passing_slots(arrows, slot_of, width):
    """For each arrow between knots its way down: the slot that it begins in, those that it passes, and that it ends in."""
    ways = {}
    for v, w in arrows:
        first, last = slot_of[v], slot_of[w]
        if first is not last:
            passed = [Slot(row, {}, width, 0.0) for row in range(first.row + 1, last.row)]
            ways[(v, w)] = [first] + passed + [last]
    return ways


def join(ways):
    for way in ways.values():
        for upper, lower in zip(way, way[1:]):
            upper.below.append(lower)
            lower.above.append(upper)


def rows_of(slots, ways):
    everything = slots + [slot for way in ways.values() for slot in way[1:-1]]
    rows = [[] for _ in range(1 + max(slot.row for slot in everything))]
    for slot in everything:
        rows[slot.row].append(slot)
    return rows


def crossings(rows):
    """How many pairs of arrows between neighbouring rows cross."""
    total = 0
    for row, following in zip(rows, rows[1:]):
        place = {id(slot): i for i, slot in enumerate(following)}
        ends = [place[id(lower)] for slot in row for lower in sorted(slot.below, key=lambda s: place[id(s)])]
        total += sum(1 for i, end in enumerate(ends) for other in ends[:i] if other > end)
    return total


def sort_row(row, neighbours, place):
    """Sorts the row by the mean place of each slot's neighbours; one without any stays about where it is."""
    means = {}
    for i, slot in enumerate(row):
        near = [place[id(other)] for other in neighbours(slot)]
        means[id(slot)] = sum(near) / len(near) if near else i
    row.sort(key=lambda slot: means[id(slot)])


def sweep(rows, downward):
    order = range(1, len(rows)) if downward else range(len(rows) - 2, -1, -1)
    for i in order:
        fixed = rows[i - 1] if downward else rows[i + 1]
        place = {id(slot): at for at, slot in enumerate(fixed)}
        sort_row(rows[i], (lambda slot: slot.above) if downward else (lambda slot: slot.below), place)


def order_rows(rows):
    """Sweeps up and down, and keeps the order with the fewest crossings."""
    best, least = [list(row) for row in rows], crossings(rows)
    for turn in range(ROUNDS):
        sweep(rows, turn % 2 == 0)
        count = crossings(rows)
        if count < least:
            best, least = [list(row) for row in rows], count
    return best


def settle(row, wishes):
    """Puts the slots of a row as near to their wishes as their order and their widths allow, by least squares: slots that
    would overlap are put together as a block at the mean of what they wish."""
    blocks, offset = [], 0.0
    for slot, wish in zip(row, wishes):
        blocks.append((wish - offset - slot.width / 2, 1))
        offset += slot.width
        while len(blocks) > 1 and blocks[-2][0] >= blocks[-1][0]:
            (one, many), (two, more) = blocks[-2:]
            blocks[-2:] = [((one * many + two * more) / (many + more), many + more)]
    lefts = [left for left, many in blocks for _ in range(many)]
    offset = 0.0
    for slot, left in zip(row, lefts):
        slot.x = left + offset + slot.width / 2
        offset += slot.width


def mean_of(slots, other):
    return sum(slot.x for slot in slots) / len(slots) if slots else other


def place_rows(rows):
    for row in rows:
        settle(row, [0.0] * len(row))
    for turn in range(ROUNDS):
        downward = turn % 2 == 0
        for row in rows if downward else reversed(rows):
            settle(row, [mean_of(slot.above if downward else slot.below, slot.x) for slot in row])


def row_heights(rows, gap):
    """The middle of each row, from the upper edge of the first, and half the height of each."""
    middles, at = [], 0.0
    for row in rows:
        half = max(slot.height for slot in row) / 2
        middles.append((at + half, half))
        at += 2 * half + gap
    return middles


class Layout:
    """The middle of each node, its offset from the middle of its ring, and for each arrow between rows the middle and half the
    height of each row that it passes. The distances between nodes are `gap` and more, times the spread."""

    def __init__(self, sizes, arrows, gap, spread):
        knots = knots_of(len(sizes), arrows)
        layer = layer_of_each(len(sizes), arrows, knots)
        slots = [node_slot(layer[knot[0]], knot, sizes, arrows, gap * spread) for knot in knots]
        ways = passing_slots(arrows, {i: slot for slot in slots for i in slot.places}, PASSING * spread)
        join(ways)
        rows = order_rows(rows_of(slots, ways))
        place_rows(rows)
        width = max(slot.x + slot.width / 2 for row in rows for slot in row) - min(slot.x - slot.width / 2 for row in rows for slot in row)
        heights = row_heights(rows, spread * (ROW_GAP + min(MORE_GAP, width // 12)))
        self.middles, self.outward = {}, {}
        for slot in slots:
            for i, (x, y) in slot.places.items():
                self.middles[i] = (slot.x + x, heights[slot.row][0] + y)
                self.outward[i] = (x, y)
        self.passed = {arrow: [(slot.x,) + heights[slot.row] for slot in way[1:-1]] for arrow, way in ways.items()}
