"""What is told of a value of another kind than what takes it: which one, and what was probably meant.

A guess is told only where the mended text has fewer operands that may be wrong, in the statements of the same line.
"""

from itertools import permutations

from explaining.grammar import Node, read
from explaining.guesses import Guess, mended
from explaining.kinds import COMPARED, FORMULA, LETTER, LOGIC, TRUTH, all_of, is_wrong, sites_of, variables_of
from explaining.logics import nearest, told_of_word

# a sign, the kinds of an operand with which another sign is meant, what is said then, and what is written before and
# between the operands
MEANT = {
    "and": (FORMULA, "between formulas `and` is written `&`", "", " & "),
    "or": (FORMULA, "between formulas `or` is written `v`", "", " v "),
    "not": (FORMULA, "before a formula `not` is written `~`", "~", ""),
    "&": (TRUTH, "between answers `&` is written `and`", "", " and "),
    "v": (TRUTH, "between answers `v` is written `or`", "", " or "),
    "~": (TRUTH, "before an answer `~` is written `not`", "not ", ""),
    "->": (TRUTH, "between answers `A -> B` is written `not A or B`", "not ", " or "),
    "<->": (TRUTH, "between answers `<->` is written `==`", "", " == "),
}
CONSTANTS = {
    "true": ("yes", "`true` is a formula: the answer is `yes`"),
    "false": ("no", "`false` is a formula: the answer is `no`"),
    "yes": ("true", "`yes` is an answer: the formula is `true`"),
    "no": ("false", "`no` is an answer: the formula is `false`"),
}
SAID = {
    "letter": "a formula",
    "compound": "a formula",
    "truth": "an answer",
    "number": "a number",
    "text": "a text",
    "logic": "a logic",
    "list": "a list",
    "none": "`none`",
    "certificate": "a certificate",
}


def statements_at(statements, begin, end):
    """Those whose first token stands between two offsets, in the order of the text."""
    return [statement for statement in all_of(statements) if begin <= statement.token.at < end]


def sites_at(data, begin, end):
    """The Sites of the statements that begin between two offsets of a script's bytes, or None where it is no script."""
    statements, fault = read(data)
    if fault:
        return None
    variables = variables_of(statements)
    return [site for statement in statements_at(statements, begin, end) for site in sites_of(statement, variables)]


def spelled(data, node):
    return data[node.begin : node.end].decode("latin-1")


def bare(node):
    """An expression without the brackets around it."""
    return bare(node.parts[0]) if node.shape == "brackets" else node


def meant(data, node, kinds):
    """An expression's text with other signs, where its own are those of other kinds than these."""
    inner = bare(node)
    sign = inner.token.text
    if inner.shape not in ("binary", "prefix") or sign not in MEANT or MEANT[sign][0] != kinds:
        return spelled(data, inner)
    _, _, before, between = MEANT[sign]
    return before + between.join("(%s)" % meant(data, part, kinds) for part in inner.parts)


def sign_guesses(data, site):
    """A sign between answers that stands between formulas, or the other way round."""
    taker = site.taker
    if isinstance(taker, Node) and taker.token.text in MEANT:
        kinds, said, _, _ = MEANT[taker.token.text]
        if site.kinds <= kinds:
            yield Guess(said, taker.token.at, taker.begin, taker.end, "(%s)" % meant(data, taker, kinds))


def operand_guesses(data, site):
    """An operand that is written in another way where a value of this kind is to stand."""
    node = bare(site.operand)
    word = node.token.text
    if node.shape == "atom" and word in CONSTANTS:
        spelling, said = CONSTANTS[word]
        yield Guess(said, node.begin, node.begin, node.end, spelling)
    if node.shape == "atom" and node.token.kind == "text":
        said = "%s is a text: %s stands without quotes" % (word, named(site.wanted))
        yield Guess(said, node.begin, node.begin, node.end, word[1:-1])
    if node.shape == "binary" and word == "==" and site.wanted == FORMULA:
        said = "`==` asks whether formulas are the same, and gives an answer: the formula of equivalent ones has `<->`"
        text = "((%s) <-> (%s))" % tuple(spelled(data, part) for part in node.parts)
        yield Guess(said, node.token.at, node.begin, node.end, text)


def order_guesses(data, site):
    """Arguments in another order."""
    taker = site.taker
    if not isinstance(taker, Node) or taker.shape != "call":
        return
    begin, end = taker.parts[0].begin, taker.parts[-1].end
    for order in permutations(spelled(data, part) for part in taker.parts):
        said = "the arguments stand in another order: `%s(%s)`" % (taker.token.text, ", ".join(order))
        yield Guess(said, begin, begin, end, ", ".join(order))


def logic_guesses(_, site):
    """A word that is no logic's where a logic is to stand."""
    node = bare(site.operand)
    if site.wanted == LOGIC and node.shape == "atom" and node.token.kind == "word" and site.kinds <= LETTER:
        word = node.token.text
        yield Guess(told_of_word(word), node.begin, node.begin, node.end, nearest(word) or "k")


MAKERS = (sign_guesses, operand_guesses, order_guesses, logic_guesses)


def named(kinds):
    """Kinds in words."""
    return " or ".join(sorted({SAID[kind] for kind in kinds}))


def told_of(site):
    """What is wrong where no mend is known."""
    taker = "`%s`" % site.taker.token.text
    if site.wanted == COMPARED:
        return "%s doesn't compare certificates, nor lists with certificates in them" % taker
    if site.wanted == LETTER:
        return "%s takes a formula that is a single variable here, and this is none" % taker
    if not is_wrong(site):
        return "%s takes %s here, and the value of this is another" % (taker, named(site.wanted))
    return "%s takes %s here, and this is %s" % (taker, named(site.wanted), named(site.kinds))


def guess(data, sites, begin, end):
    """The first Guess at the first of the Sites in the statements that begin between two offsets whose mend helps; or
    None.
    """
    for make in MAKERS:
        for made in make(data, sites[0]):
            other = mended(data, made)
            left = sites_at(other, begin, end + (len(other) - len(data) if made.start < end else 0))
            if left is not None and len(left) < len(sites):
                return made
    return None


def explained(data, begin, end):
    """What is wrong with the kind of a value in the statements that begin between two offsets, with the offset of the
    caret; None where the text doesn't show which value it is.
    """
    sites = sites_at(data, begin, end)
    if not sites or not (is_wrong(sites[0]) or len(sites) == 1):
        return None
    made = guess(data, sites, begin, end)
    return (made.said, made.at) if made else (told_of(sites[0]), sites[0].operand.begin)


def certain(data):
    """The same for the first statement of a script at which a run ends, if it comes there, whatever values it has; None
    where the text shows none.
    """
    statements, _ = read(data)
    variables = variables_of(statements)
    for statement in statements:
        sites = list(sites_of(statement, variables))
        if sites and is_wrong(sites[0]) and sites[0].is_met:
            return explained(data, statement.token.at, statement.token.at + 1)
    return None
