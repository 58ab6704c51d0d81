"""What a check finds: how many comparisons passed, and a line for each that failed."""

import os

TOP = os.path.dirname(os.path.dirname(os.path.dirname(os.path.abspath(__file__))))


def text_of(path):
    with open(os.path.join(TOP, path), encoding="utf-8") as file:
        return file.read()


class Report:
    """Counts comparisons, and tells of each that failed."""

    def __init__(self):
        self.passed, self.failed = 0, 0

    def check(self, what, holds, told=""):
        if holds:
            self.passed += 1
        else:
            self.failed += 1
            print("tools: %s%s" % (what, ": " + told if told else ""))

    def compare(self, what, wanted, written):
        self.check(what, wanted == written, "%r, and not %r" % (written, wanted))

    def line(self):
        return "tools: %d passed, %d failed" % (self.passed, self.failed)
