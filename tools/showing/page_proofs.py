"""A proof in HTML, that folds and unfolds: a list of steps, with one inside for each world and for each of two premises."""

from html import escape

from certificates.formulas import printed
from showing import brief, reasons
from showing.places import BRANCHING, NEW_WORLD
from showing.proof_nodes import is_folded, nodes, rule_line
from showing.words import counted, listed

# so many lists stand in one another; farther in the steps go on in the list that they stand in, since browsers nest no
# deeper than some hundreds of elements
MOST_INSIDE = 60
# of a proof that is folded, so many are open
OPEN_OF_FOLDED = 2


class Item:
    """A node that waits to be written: in how many lists it stands, and whether one begins with it."""

    def __init__(self, node, level, begins):
        self.node, self.level, self.begins = node, level, begins

    def has_lists(self):
        """Whether the premises of the step have lists of their own."""
        return self.node.visit.rule in NEW_WORLD + BRANCHING and self.level < MOST_INSIDE and self.node.below != []

    def below(self):
        inside = self.has_lists()
        return [Item(node, self.level + (1 if inside else 0), inside) for node in self.node.below]


def heading(item):
    """What stands where the list can be folded, or before a step that stands in no list of its own."""
    place = item.node.visit.place
    return brief.heading(place, printed) if place.is_world() else "with %s" % told_new(place)


def told_new(place):
    return listed(place.new) if place.new else "nothing new"


def list_begins(item, is_open):
    yield "<details%s><summary>%s</summary><ul>" % (" open" if is_open else "", escape(heading(item)))


def step_words(logic, goal, item):
    """The line of the step, as the brief form has it."""
    node = item.node
    if node.cited is not None:
        return rule_line(node, printed)
    told = brief.step_line(node.visit, printed)
    if node.visit.left is None:
        visit = node.visit
        why = reasons.of_step(logic, goal, visit.have, visit.rule, visit.principal)
        return "%s: breaks its rule: %s; its set has %s" % (told, why, listed(visit.place.formulas))
    return told


def item_lines(logic, goal, item):
    kind = ' class="fault"' if item.node.visit.left is None else ""
    yield "<li%s>%s%s" % (kind, escape(step_words(logic, goal, item)), "" if item.has_lists() else "</li>")


def lines(logic, goal, steps):
    """The proof, up to the step that breaks its rule."""
    found = nodes(logic, goal, steps)
    most_open = OPEN_OF_FOLDED if is_folded(steps) else MOST_INSIDE
    waiting = [Item(found[0], 1, True)]
    while waiting:
        item = waiting.pop()
        if isinstance(item, str):
            yield item
            continue
        if item.begins:
            yield from list_begins(item, item.level <= most_open)
        yield from item_lines(logic, goal, item)
        waiting += (["</ul></details>"] if item.begins else []) + (["</li>"] if item.has_lists() else []) + item.below()[::-1]
    if found[-1].visit.left is None and len(steps) > found[-1].visit.number:
        yield "<p>%s behind it not shown.</p>" % counted(len(steps) - found[-1].visit.number, "step")
