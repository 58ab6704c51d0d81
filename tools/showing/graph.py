"""A model as a graph for Graphviz: worlds, frames of worlds that all see each other, and arrows.

Arrows at a frame are drawn to its border, as they are with `compound`.
"""

from showing.drawn import one_for_both_ways
from showing.nodes import arrows_between, groups_of


def labelled(world, names):
    return "\\n".join([str(world)] + ([" ".join(sorted(names))] if names else []))


def world_line(model, w):
    _, facts, refuted = model
    shape = ", shape=doublecircle" if w == refuted else ""
    return '%d [label="%s"%s];' % (w, labelled(w, facts[w]), shape)


def edge(groups, v, w, two_headed):
    """The arrow between two groups, at the first world of each."""
    told = ["dir=both"] if two_headed else []
    told += ["ltail=cluster_%d" % groups[v][0]] if len(groups[v]) > 1 else []
    told += ["lhead=cluster_%d" % groups[w][0]] if len(groups[w]) > 1 else []
    return "%d -> %d%s;" % (groups[v][0], groups[w][0], " [%s]" % ", ".join(told) if told else "")


def group_lines(model, worlds):
    """The worlds of a group, in a frame where they are several."""
    if len(worlds) == 1:
        yield "    " + world_line(model, worlds[0])
        return
    yield "    subgraph cluster_%d {" % worlds[0]
    yield from ("        " + world_line(model, w) for w in worlds)
    yield "    }"


def lines(model, arrows):
    groups = groups_of(model[0])
    others, looped = arrows_between(groups, arrows)
    drawn = {**one_for_both_ways(others), **{(v, v): False for v in looped}}
    yield "digraph model {"
    yield "    compound=true;"
    yield "    node [shape=circle];"
    for worlds in groups:
        yield from group_lines(model, worlds)
    for (v, w), two_headed in sorted(drawn.items()):
        yield "    " + edge(groups, v, w, two_headed)
    yield "}"
