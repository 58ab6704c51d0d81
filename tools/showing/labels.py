"""What stands in the outline of a world, and how much room letters take."""

import math

SIZE, LINE = 13, 16
# the width of a letter, as a part of the type's size, where it isn't the usual one: as wide as in the widest common types
USUAL, BOLDER = 0.65, 1.1
WIDTHS = {letter: width for letters, width in (("ijlIJ.,:;'|", 0.36), ("frt()[]- ", 0.46), ("mwMW@%", 1.0)) for letter in letters}
WIDTHS.update((letter, 0.8) for letter in "ABCDEFGHKLNOPQRSTUVXYZ")
WIDTHS.update((letter, 1.0) for letter in "□◇→↔∧∨¬⊤⊥")
NARROWEST = 72


def width_of(text, is_bold=False):
    """The width that is reckoned with for the text; in no common type it is wider."""
    return SIZE * (BOLDER if is_bold else 1.0) * sum(WIDTHS.get(letter, USUAL) for letter in text)


def wrapped(words, width):
    """The words in lines of at most this width, a wider word in a line of its own."""
    lines = []
    for word in words:
        if lines and width_of(lines[-1] + " " + word) <= width:
            lines[-1] += " " + word
        else:
            lines.append(word)
    return lines


def label_of(world, names):
    """The world's number, and below it the whole names of what is true there, in lines about twice as wide as all are high."""
    total = sum(width_of(name + " ") for name in names)
    return [str(world)] + wrapped(sorted(names), max(NARROWEST, math.sqrt(2 * LINE * total)))


def size_of(label):
    """The width and the height of the lines of a label, of which the first is bold."""
    return max([width_of(label[0], True)] + [width_of(line) for line in label[1:]]), LINE * len(label)
