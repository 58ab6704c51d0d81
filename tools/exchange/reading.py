"""Words of a text with their places, and what is said of a text that can't be turned."""

import re


class CannotTurn(Exception):
    """What can't be turned, with the line and the column of its first byte."""

    def __init__(self, place, what):
        super().__init__("line %d column %d: %s" % (place + (what,)))


def place_of(text, at):
    return text.count("\n", 0, at) + 1, at - (text.rfind("\n", 0, at) + 1) + 1


class Words:
    """The words of a text one by one, and an empty one at the end. `pattern` matches a word or, in no group, what parts words."""

    def __init__(self, pattern, text):
        self.words = [(match.group(1), place_of(text, match.start())) for match in re.finditer(pattern, text) if match.group(1)]
        self.words.append(("", place_of(text, len(text))))
        self.at = 0

    def next(self):
        return self.words[self.at][0]

    def take(self):
        self.at += 1
        return self.words[self.at - 1][0]

    def accept(self, word):
        """Takes the word, if it is the next one."""
        there = self.next() == word
        self.at += there
        return there

    def refuse(self, what):
        word, place = self.words[self.at]
        raise CannotTurn(place, "`%s`%s" % (word, what) if word else "the text ends too early")
