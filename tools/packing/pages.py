"""The manual pages: which document, or which part of one, each of them is."""

import os
import re

from common.inputs import text_of as text_of_file
from packing import roff
from packing.markdown import Unknown, blocks

# the page, its section, the document, the heading of the part that it has where it isn't the whole, and what it is for
PAGES = (
    ("lw", 1, "README.md", "Commands", "a workbench for modal and provability logics"),
    ("lw-certificate", 5, os.path.join("docs", "CERTIFICATES.md"), None, "certificates of proofs and models"),
    ("lw-language", 7, os.path.join("docs", "LANGUAGE.md"), None, "the script language of lw"),
)
NOTE = (
    "Where a document is shown, it was written for the folder of the sources: there the launcher is `./lw`, which is `lw` where "
    "it is installed, and the tools, documents and examples that it names stand in the folder of the package."
)


def file_name(page):
    name, section = page[:2]
    return "%s.%d" % (name, section)


def part_of(found, heading):
    """The blocks up to the first heading below the title, and the part below this one; raises Unknown."""
    at = [index for index, (kind, content) in enumerate(found) if kind == "heading" and content[0] == 2] + [len(found)]
    for begin, end in zip(at, at[1:]):
        if found[begin][1][1] == heading:
            return found[: at[0]] + found[begin:end]
    raise Unknown("there is no part %s" % heading)


def seen_from_below(text, folder):
    """The document with its links as they are from the folder of the package."""
    return re.sub(r"\]\((?!https?:)", "](%s/" % folder, text) if folder else text


def text_of(page, top, day="", source=""):
    """The text of a manual page, from the document in the folder `top`; its foot tells the day and of what it is. Raises
    Unknown and Unread.
    """
    name, section, document, heading, purpose = page
    found = blocks(seen_from_below(text_of_file(os.path.join(top, document)), os.path.dirname(document)))
    words = [name.upper(), str(section), day, source, "Fidortzu"]
    lines = ["'\\\" t", ".TH " + " ".join('"%s"' % roff.plain(word) for word in words), ".nr HY 0", ".nh", ".ad l"]
    lines += [".SH NAME", "%s \\- %s" % (roff.plain(name), roff.plain(purpose)), ".SH DESCRIPTION"]
    lines += roff.lines(part_of(found, heading) if heading else found)
    lines += [".SH NOTES", *roff.paragraph(NOTE)]
    return "\n".join(lines) + "\n"
