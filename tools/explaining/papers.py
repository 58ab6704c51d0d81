"""What is told of a certificate's text that is no certificate's, from the sections of docs/CERTIFICATES.md on texts.

A guess is told only where the mended text has no fault, or its first one behind the line that was mended.
"""

import re
from codecs import BOM_UTF8
from collections import namedtuple

from certificates.formulas import NoFormula, printed, spelled
from certificates.texts import ARITY, DEPTH_LIMIT, LOGICS, Fault, read
from explaining.faults import FILE_LIMIT, pointed, wrong_encoding
from explaining.guesses import near
from explaining.logics import listed

HEADS = ("certificate", "logic", "formula", "proof", "model", "worlds", "refuted", "world", "end")
# what is said, the lines as they were meant, and the line up to which these are right
Mend = namedtuple("Mend", "said lines reached")


def replaced(said, lines, line, spelling):
    return Mend(said, lines[: line - 1] + [spelling] + lines[line:], line)


def line_end_mends(lines, line):
    if lines[line - 1].endswith(b"\r"):
        said = "the line ends with a carriage return: lines end with one line feed alone"
        yield Mend(said, [each.rstrip(b"\r") for each in lines], line)
    if b"end" in lines[: line - 1]:
        yield Mend("nothing stands behind `end`", lines[: lines.index(b"end") + 1] + [b""], line)
    if line == len(lines) and lines[-1]:
        yield Mend("the last line has no line feed at its end", lines + [b""], line)


def blank_mends(lines, line):
    """Lines, spaces and zeros that mean nothing elsewhere."""
    source = lines[line - 1]
    without = lines[: line - 1] + lines[line:]
    if line < len(lines) and not source.strip():
        yield Mend("a certificate has no empty lines", without, line)
    if source.lstrip().startswith(b"#"):
        yield Mend("a certificate has no comments", without, line)
    said = "single spaces part the words, and none stand at the line's ends"
    yield replaced(said, lines, line, b" ".join(source.split()))
    yield replaced("a number has no leading zero", lines, line, re.sub(rb"(?<= )0+(?=\d)", b"", source))


def formula_mends(lines, line):
    """A formula that is spelled in another way."""
    match = re.fullmatch(rb"(formula |[a-z]+ [TF] )(.*)", lines[line - 1], re.DOTALL)
    if not match:
        return
    try:
        meant = match.group(1) + printed(spelled(match.group(2))).encode()
        said = "the formula is to be spelled with the fewest brackets and spaces: `%s`" % meant.decode()
    except NoFormula:
        meant = match.group(1) + b"p"
        said = "what stands behind `%s` is no formula's text" % match.group(1).decode().rstrip()
    yield replaced(said, lines, line, meant)


def word_mends(lines, line):
    """A line's first words, misspelt or in capitals."""
    source = lines[line - 1].decode("latin-1")
    word, _, more = source.partition(" ")
    if word == "logic" and more.lower() in LOGICS:
        said = "this line is `logic` and one of the words %s, in small letters: `logic %s`" % (listed(LOGICS), more.lower())
        yield replaced(said, lines, line, source.lower().encode("latin-1"))
    if word == "logic":
        yield replaced("this line is `logic` and one of the words %s" % listed(LOGICS), lines, line, b"logic k")
    match = re.fullmatch(r"([a-z]+) ([tf]) (.*)", source)
    if match:
        meant = "%s %s %s" % (match.group(1), match.group(2).upper(), match.group(3))
        yield replaced("a sign is `T` or `F`", lines, line, meant.encode("latin-1"))
    for meant in near(word, list(ARITY)) + near(word, HEADS):
        said = "did you mean `%s`?" % meant
        yield replaced(said, lines, line, (meant + source[len(word) :]).encode("latin-1"))


def order_mends(lines, line):
    """A world's line whose worlds or variables aren't in order."""
    match = re.fullmatch(rb"(world \d+ sees)((?: \d+)*)( true)((?: \w+)*)", lines[line - 1])
    if match:
        worlds = sorted(set(match.group(2).split()), key=int)
        names = sorted(set(match.group(4).split()))
        meant = b" ".join([match.group(1)] + worlds + [b"true"] + names)
        said = "the worlds, and the variables, stand in order and each once: `%s`" % meant.decode()
        yield replaced(said, lines, line, meant)


def number_mends(lines, line):
    """Numbers that are too great, or that of no world."""
    source = lines[line - 1]
    if source.startswith(b"worlds "):
        said = "the number of worlds is at least 1, and below 18,446,744,073,709,551,616"
        yield replaced(said, lines, line, b"worlds 1")
    if source.startswith(b"refuted "):
        yield replaced("worlds are numbered from 0, so this number is below that of the worlds", lines, line, b"refuted 0")
    match = re.fullmatch(rb"(world \d+ sees)(?: \d+)*( true.*)", source)
    if match:
        said = "worlds are numbered from 0, so those that are seen have numbers below that of the worlds"
        yield replaced(said, lines, line, match.group(1) + match.group(2))


def samples(lines, line):
    """Lines that may be missing, with what is said of each."""
    rows = sum(each.startswith(b"world ") for each in lines[: line - 1])
    worlds = sum(each.startswith(b"world ") for each in lines)
    return (
        (b"certificate 1", "the line `certificate 1`"),
        (b"logic k", "the line with the logic, as `logic k`,"),
        (b"formula p", "the line with the formula, as `formula p`,"),
        (b"proof", "`proof` or `model`"),
        (b"model", "`proof` or `model`"),
        (b"worlds %d" % max(1, worlds), "the line with the number of worlds, as `worlds 1`,"),
        (b"refuted 0", "the line with the world at which the formula is false, as `refuted 0`,"),
        (b"world %d sees true" % rows, "the line of world %d" % rows),
        (b"end", "`end`"),
        (b"close T p", "a step of the proof"),
    )


def missing_mends(lines, line):
    """A line that is missing in front of this one, which is right, or is the end of the text."""
    for sample, named in samples(lines, line):
        more = lines[: line - 1] + [sample] + lines[line - 1 :]
        yield Mend("%s is missing here" % named, more, line + (line < len(lines)))


def surplus_mends(lines, line):
    if line < len(lines):
        yield Mend("this line is one too many", lines[: line - 1] + lines[line:], line)


def other_mends(lines, line):
    """What is to stand in the place of this line, which is wrong."""
    for sample, named in samples(lines, line):
        yield Mend("%s is to stand here" % named, lines[: line - 1] + [sample] + lines[line - 1 :], line)


MAKERS = (
    line_end_mends,
    blank_mends,
    formula_mends,
    word_mends,
    order_mends,
    number_mends,
    missing_mends,
    surplus_mends,
    other_mends,
)


def fault_of(lines):
    """The line of a text's fault, or None where the lines are a certificate's."""
    try:
        read(b"\n".join(lines))
    except Fault as fault:
        return fault.line
    return None


def helps(mend):
    line = fault_of(mend.lines)
    return line is None or line > mend.reached


def said_of(lines, line):
    """What is wrong in a line, from 1."""
    if lines[0] == b"certificate 2":
        return "version 2 isn't read: the first line is `certificate 1`"
    if lines[0].startswith(BOM_UTF8):
        return "a byte order mark begins the file: save it without one"
    if line == 1 and lines != [b""] and lines[0] != b"certificate 1\r":
        return "the first line is `certificate 1`"
    for make in MAKERS:
        for mend in make(lines, line):
            if helps(mend):
                return mend.said
    if is_too_deep(lines, line):
        return "a proof is at most 4,096 steps deep, and this one is deeper here"
    return "a line is missing here: the text ends too early" if line == len(lines) else "this line can't stand here"


def is_too_deep(lines, line):
    """Whether a step of a proof stands in this line that would be deeper than the others may be."""
    depths = [1]
    for source in lines[4 : line - 1]:
        depth = depths.pop()
        depths += [depth + 1] * ARITY.get(source.split(b" ")[0].decode("latin-1"), 0)
        if not depths:
            return False
    return lines[3:4] == [b"proof"] and depths[-1] > DEPTH_LIMIT


def twice(lines):
    """The lines of version 2, from 1, of a node that stands in two of them; or None."""
    nodes = {}
    for line, source in enumerate(lines, 1):
        number, _, node = source.partition(b" ")
        if number.isdigit() and node in nodes:
            return nodes[node], line
        if number.isdigit():
            nodes[node] = line
    return None


def explain(data):
    """The lines that explain the first fault of a certificate's bytes; none where it is a certificate's text."""
    lines = data.split(b"\n")
    if len(data) > FILE_LIMIT or wrong_encoding(data):
        return [wrong_encoding(data) or "a certificate's text has at most 1,048,576 bytes"]
    line = fault_of(lines)
    if line is None:
        return []
    told = [said_of(lines, line)] + pointed(data, line)
    both = twice(lines) if lines[0] == b"certificate 2" else None
    if both:
        told += ["in version 2 too a node stands once, and this one stands in line %d" % both[0]] + pointed(data, both[1])
    return told
