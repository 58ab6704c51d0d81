"""Whether manual pages tell all that their documents do, and are shown without a warning."""

import collections
import os
import re
import shutil
import subprocess

from checks.report import TOP, text_of
from packing import roff
from packing.markdown import Unknown, blocks
from packing.pages import PAGES, file_name
from packing.pages import text_of as page_of

DOCUMENT = """# Title

.A *word*, `a-b`, **bold**, [Other](OTHER.md) and
a [link](https://example.org).

## Part one

- Löb's
- two

| a | b |
|---|---|
| `p | q` | 'x' |

    $ ./lw run x

    end
"""
PAGE = """.PP
\\&.A \\fIword\\fR, \\fBa\\-b\\fR, \\fBbold\\fR, Other (OTHER.md) and a link (https://example.org).
.SH PART ONE
.IP \\(bu 2
L\\[u00F6]b\\(aqs
.IP \\(bu 2
two
.PP
.TS
nokeep tab(\t);
lbw(5n) 2 lbw(3n)
lw(5n) 2 lw(3n).
T{
a
T}\tT{
b
T}
T{
\\fBp | q\\fR
T}\tT{
\\(aqx\\(aq
T}
.TE
.PP
.RS 4
.EX
$ ./lw run x

end
.EE
.RE"""


def part_of(document, heading):
    """The words of a document's beginning and of its part with this heading, or of all of it; without its title and targets."""
    text = text_of(document).split("\n", 1)[1]
    if heading:
        parts = re.split(r"^## ", text, flags=re.MULTILINE)
        text = "".join(part for at, part in enumerate(parts) if at == 0 or part.startswith(heading + "\n"))
    return words_of(re.sub(r"\]\([^)]*\)", "", text))


def words_of(text):
    return collections.Counter(re.findall(r"\w+", text.upper()))


def check_all(report):
    """A small document by hand; and of each page that man shows it without a warning, with each word of its document."""
    report.compare("a page of a small document", PAGE, "\n".join(roff.lines(blocks(DOCUMENT))))
    for text in ("```\ncode", "| a |\n| b |"):
        try:
            report.check("a document that can't be read: %r" % text, False, repr(blocks(text)))
        except Unknown:
            report.check("a document that can't be read: %r" % text, True)
    if not shutil.which("man"):
        print("tools: manual pages aren't shown, since man isn't installed")
        return
    for page in PAGES:
        command = ["man", "--warnings", "-E", "UTF-8", "-l", "-"]
        environment = dict(os.environ, MANWIDTH="80", LC_ALL="C.UTF-8")
        done = subprocess.run(command, input=page_of(page, TOP), env=environment, capture_output=True, text=True, check=False)
        report.compare("man %s: warnings and status" % file_name(page), ("", 0), (done.stderr, done.returncode))
        missing = part_of(page[2], page[3]) - words_of(done.stdout)
        report.check("man %s: the words of its document" % file_name(page), not missing, missing)
