"""The table of a run, in Markdown: for each family the greatest n solved, the ratios of times, and the certificates' sizes."""

from measuring.results import ratio


def cell(row, solver, most):
    if solver not in row.answers:
        return "-"
    number, over = row.greatest(solver)
    return "%d%s" % (number, " " + over if over else " all" if number == most else "")


def ratio_cell(rows, solver, other):
    value = ratio([row for row in rows if other in row.answers], solver, other)
    return "-" if value is None else "%.2f" % value


def size_cell(row, solver):
    sizes = [answer.size for answer in row.solved(solver)]
    return "%d" % sizes[-1] if sizes else "-"


def lines(rows, solvers, most):
    """A line for each family, and one for each logic and for all with the means of its ratios."""
    first, certifying, *peers = solvers
    head = ["family"] + list(solvers) + ["%s : %s" % (peer, first) for peer in peers] + ["bytes"]
    yield "| %s |" % " | ".join(head)
    yield "|%s" % ("---|" * len(head))
    for row in rows:
        ratios = [ratio_cell([row], first, peer) for peer in peers]
        cells = [row.name()] + [cell(row, solver, most) for solver in solvers] + ratios + [size_cell(row, certifying)]
        yield "| %s |" % " | ".join(cells)
    for logic in list(dict.fromkeys(row.logic for row in rows)) + ["all"]:
        chosen = [row for row in rows if logic in (row.logic, "all")]
        counts = [solved_cell(chosen, solver) for solver in solvers]
        ratios = [ratio_cell(chosen, first, peer) for peer in peers]
        yield "| %s |" % " | ".join(["**%s**, formulas solved" % logic] + counts + ratios + [""])


def solved_cell(rows, solver):
    counts = [len(row.solved(solver)) for row in rows if solver in row.answers]
    return "%d" % sum(counts) if counts else "-"
