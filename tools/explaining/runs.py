"""What is told of the fault of a run: what is wrong, and where its statement shows it, if it does."""

import difflib
import re

from explaining import misfits
from explaining.grammar import read
from explaining.kinds import all_of, inside, is_wrong
from explaining.logics import listed, told_of_word, with_interpolants
from explaining.misfits import bare, statements_at
from explaining.tokens import LOGICS, RESERVED, place

CONNECTIVES = ("~", "&", "v", "->", "<->")
# the functions that take a logic take it first
OF_LOGIC = ("provable", "certificate", "interpolate")
DECIDING = OF_LOGIC + ("trace", "letterless")
TOO_GREAT = "a number would be above 18,446,744,073,709,551,615"
TOO_HEAVY = "a list would be too heavy: its weight is at most 65,536"
# what may be out of range, by the shape and the word of an expression
RANGES = {
    ("binary", "-"): "a number would be below 0",
    ("binary", "+"): TOO_GREAT,
    ("binary", "*"): TOO_GREAT,
    ("call", "item"): "the list has no such item: `item` counts from 1 to the list's length",
    ("call", "append"): TOO_HEAVY,
    ("call", "vars"): TOO_HEAVY,
    ("list", "["): TOO_HEAVY,
}


class Line:
    """The statements that begin in a line of a script, which is the line that the fault of a run names."""

    def __init__(self, data, line):
        rows = data.split(b"\n")
        self.data, self.begin = data, sum(len(row) + 1 for row in rows[: line - 1])
        self.end = self.begin + sum(len(row) + 1 for row in rows[line - 1 : line])
        self.statements = read(data)[0]
        self.own = statements_at(self.statements, self.begin, self.end)

    def nodes(self):
        """Their expressions."""
        return [node for statement in self.own for head in statement.heads for node in inside(head)]

    def calls(self, *functions):
        return [node for node in self.nodes() if node.shape == "call" and node.token.text in functions]

    def written(self):
        """The expressions whose values script variables have, of those that one statement alone gives a value."""
        found = {}
        for statement in all_of(self.statements):
            if statement.target:
                name, is_only = statement.target.text, statement.word == ":=" and statement.target.text not in found
                found[name] = statement.heads[0] if is_only else None
        return found


def only(nodes):
    """The offset of the only one of these expressions, or None."""
    return nodes[0].begin if len(nodes) == 1 else None


def word_in(calls, number, word):
    """The offset of the first place of a word in an argument of these calls, from 0; or None."""
    for call in calls:
        for node in inside(call.parts[number]):
            if node.token.text == word:
                return node.token.at
    return None


def of_kind(line):
    said = "a value is of another kind than what takes it: `and`, `or` and `not` take answers, `&`, `v` and `~` formulas"
    return misfits.explained(line.data, line.begin, line.end) or (said, None)


def of_range(line):
    found = [node for node in line.nodes() if (node.shape, node.token.text) in RANGES]
    told = list(dict.fromkeys(RANGES[node.shape, node.token.text] for node in found))
    if len(told) == 1:
        return told[0], only(found)
    return "; or ".join(told) or "a number is out of range, an item isn't there, or a list is too heavy", None


def of_unbound(line, name):
    places = [node.begin for node in line.nodes() if node.shape == "atom" and node.token.text == name]
    at = places[0] if places else None
    if at in [bare(call.parts[0]).begin for call in line.calls(*OF_LOGIC)] or name.lower() in LOGICS:
        return told_of_word(name), at
    begins = {each.target.text: each.token.at for each in reversed(list(all_of(line.statements))) if each.target}
    said = "`%s` was given no value" % name
    if name in begins:
        which = "comes later" if begins[name] >= line.begin else "wasn't carried out"
        return said + ": what gives it one, in line %d, %s" % (place(line.data, begins[name])[0], which), at
    before = [other for other, begin in begins.items() if begin < line.begin]
    for near in difflib.get_close_matches(name, before, 1, 0.7):
        return said + ": did you mean `%s`?" % near, at
    small = name[0].lower() + name[1:]
    if at is None or small in RESERVED or not fits(line, at, small):
        return said, at
    return said + "; the variables of formulas begin with a lower-case letter: `%s`" % small, at


def fits(line, at, name):
    """Whether the variable of this name may stand where a word of the same length stands."""
    other = line.data[:at] + name.encode() + line.data[at + len(name) :]
    sites = misfits.sites_at(other, line.begin, line.end) or []
    return not any(is_wrong(site) and bare(site.operand).begin == at for site in sites)


def bare_occurrence(line, name, formula):
    """The offset of an occurrence of a variable that stands under no `box` and `dia`, for certain; or None."""
    written, waiting = line.written(), [formula]
    while waiting:
        node = bare(waiting.pop())
        word = node.token.text
        if node.shape == "atom" and word == name:
            return node.begin
        if node.shape in ("binary", "prefix") and word in CONNECTIVES:
            waiting += reversed(node.parts)
        meant = written.pop(word, None) if node.shape == "atom" else None
        waiting += [meant] if meant else []
    return None


def of_modalised(line):
    for call in line.calls("fixpoint"):
        name = bare(call.parts[0]).token.text
        at = bare_occurrence(line, name, call.parts[1])
        if at is not None:
            return "this `%s` stands under no `box` and `dia`, as each has to for `fixpoint`" % name, at
    return "each occurrence of the variable has to be under `box` or `dia`, and one isn't", None


def of_interpolants(line, logic):
    said = "there are no interpolants in `%s`: `interpolate` takes %s" % (logic, listed(with_interpolants()))
    return said, word_in(line.calls("interpolate"), 0, logic)


def of_boxes(line, count):
    said = "there are %s outermost modal subformulas with the variable, and 10 at most are taken" % count
    return said, only(line.calls("fixpoint"))


def of_size(line, count):
    said = "the formula has %s distinct subformulas, and 128 at most are decided: `simplify` may help" % count
    return said, only(line.calls(*DECIDING))


def of_goedel(line, word):
    return "an intuitionistic formula has no `%s`" % word, word_in(line.calls("goedel"), 0, word)


def of_letters(line, name):
    said = "the function takes formulas without variables, and this one has `%s`" % name
    return said, word_in(line.calls("trace", "letterless"), 0, name)


def of_text(_):
    return "the line to print would be longer than 1,048,576 bytes: print less, or ask `provable` instead", None


def of_steps(_):
    return "a run has at most 1,000,000 steps: a loop may be without an end", None


# what a fault line of a run says behind its line's number, and what is told of it
TOLD = {
    "text limit": of_text,
    r"too large (\d+)": of_size,
    r"no interpolants (\w+)": of_interpolants,
    "not modalised": of_modalised,
    r"too many boxes (\d+)": of_boxes,
    r"not intuitionistic (\S+)": of_goedel,
    r"not letterless (\S+)": of_letters,
    r"unbound (\S+)": of_unbound,
    "kind": of_kind,
    "range": of_range,
    "step limit": of_steps,
}


def told(data, fault_line):
    """What is said of a fault line of a run, with its line, and the offset of what is meant, or None; None where the line
    is no such fault's.
    """
    head = re.fullmatch(r"fault: line (\d+): (.*)", fault_line)
    for pattern, tell in TOLD.items() if head else ():
        match = re.fullmatch(pattern, head.group(2))
        if match:
            said, at = tell(Line(data, int(head.group(1))), *match.groups())
            return said, int(head.group(1)), at
    return None
