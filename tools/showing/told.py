"""What a picture of a model shows, in words."""


def joined(words):
    """The words with commas, and `and` before the last."""
    return " and ".join([", ".join(words[:-1])] * (len(words) > 1) + words[-1:])


def named(worlds):
    return "%s %s" % ("world" if len(worlds) == 1 else "worlds", joined([str(w) for w in worlds]))


def world(model, w):
    _, facts, refuted = model
    what = "refuting world" if w == refuted else "world"
    return "%s %d: %s" % (what, w, " ".join(sorted(facts[w])) or "no variable")


def cluster(worlds):
    return "%s all see each other and themselves" % named(worlds)


def arrow(one, other, two_headed):
    """What an arrow between these nodes says."""
    if one == other:
        return "%s sees itself" % named(one)
    see = "sees" if len(one) == 1 else "each see"
    back = ", and is seen from there" if len(one) == 1 else ", and are seen from there"
    return "%s %s %s%s" % (named(one), see, named(other), back if two_headed else "")


def legend(nodes):
    """What has to be said of frames, where there are some."""
    if not any(node.is_frame for node in nodes):
        return []
    meaning = "The worlds in %s frame all see each other and themselves" % ("the" if len(nodes) == 1 else "a")
    return [meaning + ("." if len(nodes) == 1 else "; an arrow at a frame stands for one at each of its worlds.")]


def description(model, drawn):
    """All that is seen in the picture, for those who don't see it."""
    nodes = drawn.nodes
    parts = [world(model, w) for w in range(len(model[0]))]
    parts += [cluster(node.worlds) for node in nodes if node.is_frame]
    parts += [arrow(nodes[v].worlds, nodes[w].worlds, both) for (v, w), (_, both) in sorted(drawn.arrows.items())]
    return "; ".join(parts) + "."
