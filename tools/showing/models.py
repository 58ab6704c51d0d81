"""A model as a table of its worlds, and where formulas are true."""

from certificates.formulas import printed, subformulas
from certificates.models import true_worlds


def table(rows):
    """Rows of cells, each column as wide as its longest cell."""
    widths = [max(len(row[i]) for row in rows) for i in range(len(rows[0]))]
    for row in rows:
        yield "  ".join(cell.ljust(width) for cell, width in zip(row, widths)).rstrip()


def numbers(worlds):
    return " ".join(str(w) for w in sorted(worlds)) or "-"


def world_rows(model, drawn):
    sees, facts, refuted = model
    yield ("world", "sees", "true variables")
    for w, names in enumerate(facts):
        seen = [v for u, v in drawn if u == w]
        yield ("%d%s" % (w, " refuting" if w == refuted else ""), numbers(seen), " ".join(sorted(names)) or "-")


def asked(goal, also):
    """The subformulas of the goal, where there is one, the shorter ones first; and then those that are asked for besides."""
    inner = subformulas(goal) if goal else []
    in_order = sorted(inner, key=lambda a: (len(printed(a)), printed(a)))
    return in_order + [a for a in dict.fromkeys(also) if a not in inner]


def truth_rows(formulas, model, form):
    """The formulas, with the worlds at which they are true."""
    sees, facts, _ = model
    known = {}
    yield ("true at", "formula")
    for a in formulas:
        yield (numbers(true_worlds(sees, facts, a, known)), form(a))


def lines(view, form):
    """The table of a view of a model, and below it the table of truth where there is a formula, as `form` writes it."""
    yield from table(list(world_rows(view.model, view.arrows)))
    if view.left_out:
        yield "Left out under `sees`: %s." % view.left_out
    if view.asked:
        yield ""
        yield from table(list(truth_rows(view.asked, view.model, form)))
