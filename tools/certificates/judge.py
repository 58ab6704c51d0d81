"""What `check FILE` writes, from the last table of docs/CERTIFICATES.md."""

from certificates.calculus import first_break
from certificates.models import in_class, true_worlds
from certificates.texts import Fault, read

FILE_LIMIT = 1048576


def verdict(data):
    """The line that is printed, and the status."""
    if len(data) > FILE_LIMIT:
        return "fault: file limit", 1
    try:
        logic, goal, body = read(data)
    except Fault as fault:
        return "fault: line %d: %s text" % (fault.line, fault.kind), 1
    if isinstance(body, list):
        step = first_break(logic, goal, body)
        return ("accepted", 0) if step is None else ("rejected: step %d" % step, 1)
    sees, facts, refuted = body
    if in_class(logic, sees) and refuted not in true_worlds(sees, facts, goal, {}):
        return "accepted", 0
    return "rejected: model", 1
