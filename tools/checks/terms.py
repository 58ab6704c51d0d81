"""Whether the documents for users, and what the tools print, use the subject's words, and no others for the same."""

import re

from checks.report import text_of

# each document with words of the subject that it has to have
DOCUMENTS = {
    "README.md": ("bisimulation quotient", "reflexive", "run-time error", "symmetric", "transitive"),
    "docs/TOUR.md": ("Kripke model", "accessibility relation", "bisimulation quotient", "cluster", "reflexive", "symmetric", "tableau", "transitive"),
    "docs/LANGUAGE.md": ("Kripke model", "bisimulation quotient", "refusal", "reflexive", "run-time error", "symmetric", "transitive"),
    "docs/CERTIFICATES.md": ("Kripke model", "accessibility"),
    "docs/PROVERS.md": ("tableau",),
}
TOOLS = ("tools/show", "tools/showing/told.py", "tools/showing/views.py")
# words that stand for something that has another name
OTHERS = ("bisimulation-quotient", "loops and arrows", "runtime error", "smallest equal model", "tableaus", "trouble", "troubles")


def prose(text):
    """The text without what is quoted from programs: lines that are set in, and what stands between backquotes."""
    lines = [line for line in text.split("\n") if not line.startswith("    ")]
    return re.sub("`[^`]*`", "", "\n".join(lines))


def found(words, text):
    return [word for word in words if re.search(r"\b%s\b" % re.escape(word), text, re.IGNORECASE)]


def check_all(report):
    for path, wanted in DOCUMENTS.items():
        text = prose(text_of(path))
        report.compare("%s: words that have another name" % path, [], found(OTHERS, text))
        report.compare("%s: words of the subject" % path, list(wanted), found(wanted, text))
    for path in TOOLS:
        report.compare("%s: words that have another name" % path, [], found(OTHERS, text_of(path)))
