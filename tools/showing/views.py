"""What of a model is shown in its table, in its picture and in its graph alike."""

from certificates.formulas import printed
from showing import models, quotient, reasons, reduction
from showing.signs import in_unicode
from showing.words import LOGIC_NAMES, counted


class View:
    """A model, the arrows of it that are shown, in words what is left out, the formulas whose truth is shown, the lines above
    its table, and those below its picture."""

    def __init__(self, case, model, also, is_reduced):
        self.model = model
        self.arrows, self.left_out = reduction.drawn_arrows(case.logic or reduction.logic_of(model[0]), model[0], is_reduced)
        self.asked = models.asked(case.goal, also)
        self.heading, self.caption = [], []


def relation_of(sees):
    """What is said of the accessibility relation of a model alone."""
    names = reduction.properties(sees)
    if not names:
        return "its accessibility relation has none of the usual properties"
    return "its accessibility relation is %s" % " and ".join([", ".join(names[:-1])] * (len(names) > 1) + names[-1:])


def claim(case, form):
    """The line above the table of a case."""
    sees = case.body[0]
    worlds = counted(len(sees), "world")
    if case.goal is None:
        return "a Kripke model of %s; %s" % (worlds, relation_of(sees))
    goal, logic = form(case.goal), LOGIC_NAMES[case.logic]
    why = reasons.of_model(case.logic, case.goal, case.body)
    if why:
        return "%s%s: %s; a model of %s for %s in %s" % (case.place, case.line, why, worlds, goal, logic)
    return "%s%s: a model of %s that refutes %s in %s" % (case.place, case.line, worlds, goal, logic)


def caption_of(case, view):
    """What stands below the picture."""
    if case.goal is None:
        caption = ["A Kripke model; %s." % relation_of(view.model[0])]
    else:
        relation = "refutes" if case.line == "accepted" else "doesn't refute"
        caption = ["World %d %s %s in %s." % (view.model[2], relation, in_unicode(case.goal), LOGIC_NAMES[case.logic])]
    return caption + (["Left out: %s." % view.left_out] if view.left_out else [])


def smallest(case, also, is_reduced):
    """The view of the bisimulation quotient."""
    smaller, places = quotient.smallest(case.body)
    view = View(case, smaller, also, is_reduced)
    told = "The bisimulation quotient: %s" % counted(len(smaller[0]), "world")
    view.heading = ["", "%s; the worlds above are %s there" % (told, ", ".join(str(place) for place in places))]
    view.caption = [told + "."] + caption_of(case, view)
    return view


def of_case(case, also, is_reduced, with_smallest, form=printed):
    """The view of a case's model, and that of its bisimulation quotient where that is wanted too."""
    view = View(case, case.body, also, is_reduced)
    view.heading, view.caption = [claim(case, form)], caption_of(case, view)
    return [view] + ([smallest(case, also, is_reduced)] if with_smallest else [])


def lines(views, form):
    """The text of the views of a case."""
    for view in views:
        yield from view.heading
        yield from models.lines(view, form)
