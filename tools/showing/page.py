"""A page in HTML with a script, its output, and each certificate in it: one text that needs no other file and no program."""

import re
from html import escape

from certificates.finding import certificates_in
from certificates.formulas import printed
from showing import cases, drawing, models, page_proofs, picture, proof_picture, views
from showing.proof_nodes import FOLDED_FROM
from showing.words import LOGIC_NAMES, counted

# a certificate's text of more lines is folded at first, and a proof of more steps has no tree in the page
LONG, MOST_STEPS = 40, 1000
STYLE = """
body { font: 16px/1.5 system-ui, sans-serif; color: #111; background: white; max-width: 60rem; margin: 0 auto; padding: 1rem; }
h1, h2, h3, summary { overflow-wrap: anywhere; }
pre, code, .steps { font-family: 'DejaVu Sans Mono', Menlo, Consolas, monospace; font-size: 14px; }
pre, .steps, .picture, .table { overflow-x: auto; background: #f6f6f6; border: 1px solid #ccc; padding: 0.5rem; margin: 0.5rem 0; }
.picture { background: white; }
.steps { white-space: nowrap; }
.steps ul { list-style: none; margin: 0 0 0 0.4rem; padding-left: 0.8rem; border-left: 2px solid #ccc; }
.fault { color: #a00000; }
article { border-left: 4px solid #ccc; padding-left: 0.8rem; margin: 1rem 0; }
summary { cursor: pointer; }
:focus-visible { outline: 3px solid #0050c0; outline-offset: 2px; }
caption { text-align: left; font-weight: bold; }
th, td { text-align: left; padding: 0 1rem 0 0; vertical-align: top; }
"""
RULE = re.compile(r"([^{}]+)(\{[^{}]*\})")


def scoped(style, kind):
    """The rules of a picture's style, for pictures of this kind alone."""
    found = []
    for selectors, body in RULE.findall(style):
        found.append(", ".join(".%s %s" % (kind, selector.strip()) for selector in selectors.split(",")) + " " + body)
    return " ".join(found)


def embedded(lines, kind):
    """A picture, whose style is that of this kind of pictures alone."""
    for number, line in enumerate(lines):
        if line.startswith("<style>"):
            line = "<style>%s</style>" % scoped(line[len("<style>") : -len("</style>")], kind)
        yield line.replace("<svg ", '<svg class="%s" ' % kind) if number == 0 else line


def region(kind, label, lines):
    """Something that may be wider than the page: it is scrolled by itself, by the keyboard too."""
    yield '<div class="%s" role="region" aria-label="%s" tabindex="0">' % (kind, escape(label))
    yield from lines
    yield "</div>"


def folding(title, is_open, lines):
    yield "<details%s><summary>%s</summary>" % (" open" if is_open else "", escape(title))
    yield from lines
    yield "</details>"


def text(kind, label, data):
    """Lines as they are: an element without its last line feed has the text exactly, since the first one in it is dropped."""
    yield '<pre class="%s" role="region" aria-label="%s" tabindex="0">\n%s</pre>' % (kind, escape(label), escape(data, quote=False))


def table(caption, rows):
    """A table with its heads; the last column's formulas or names are whole."""
    head, *others = rows
    yield "<table><caption>%s</caption>" % escape(caption)
    yield "<thead><tr>%s</tr></thead><tbody>" % "".join('<th scope="col">%s</th>' % escape(cell) for cell in head)
    for row in others:
        yield "<tr>%s</tr>" % "".join("<td>%s</td>" % escape(cell) for cell in row)
    yield "</tbody></table>"


def proof_lines(case, name):
    yield from folding("The proof, step by step", True, region("steps", "Steps of " + name, page_proofs.lines(case.logic, case.goal, case.body)))
    if len(case.body) <= MOST_STEPS:
        drawn = proof_picture.lines(case.logic, case.goal, case.body, case.line == "accepted", name.replace(" ", "-"))
        yield from folding("The proof as a tree", len(case.body) < FOLDED_FROM, region("picture", "Tree of " + name, drawn))
    else:
        yield "<p>The tree of so many steps is left out; <code>tools/show --tree</code> draws it.</p>"


def model_lines(case, name):
    view = views.of_case(case, [], False, False)[0]
    try:
        drawn = list(drawing.picture_of([view]))
        yield from folding("The model", True, region("picture", "Picture of " + name, embedded(drawn, "model")))
    except picture.TooManyArrows:
        yield "<p>The model has too many arrows to be drawn.</p>"
    rows = [list(models.world_rows(view.model, view.arrows)), list(models.truth_rows(view.asked, view.model, printed))]
    tables = [line for caption, part in zip(("Worlds", "Truth"), rows) for line in table(caption, part)]
    yield from folding("Worlds and truth", True, region("table", "Tables of " + name, tables))


def verdict_of(case):
    """What the second checker found, and of what."""
    if case.is_proof():
        what = "a proof" if case.line == "accepted" else "no proof"
        return "%s: %s of %s in %s, %s" % (case.line, what, printed(case.goal), LOGIC_NAMES[case.logic], counted(len(case.body), "step"))
    return views.claim(case, printed) if case.is_model() else case.line


def certificate_lines(case, number):
    """An article with the certificate's text, and what it shows."""
    name = "certificate %d" % number
    yield '<article id="certificate-%d"><h3%s>Certificate %d, %s</h3>' % (
        number,
        "" if case.line == "accepted" else ' class="fault"',
        number,
        escape(verdict_of(case)),
    )
    data = case.data.decode("utf-8", "replace")
    yield from folding("Its text", data.count("\n") <= LONG, text("output", "Text of " + name, data))
    if case.is_proof():
        yield from proof_lines(case, name)
    elif case.is_model():
        yield from model_lines(case, name)
    yield "</article>"


class Run:
    """A script with its output, what was said besides, and the status: both texts as bytes."""

    def __init__(self, name, script, output, said, status):
        self.name, self.script, self.output, self.said, self.status = name, script, output, said, status
        self.parts = list(parts_of(output))
        self.cases = [part for part in self.parts if not isinstance(part, bytes)]

    def ended(self):
        """How the run ended, in words."""
        return "The script was carried out" if self.status == 0 else "The run ended at a fault, which its last line tells"


def parts_of(output):
    """The output in its order: lines outside of certificates as bytes, and a case for each certificate. All bytes together
    are the output."""
    at, begins = 0, [0] + [match.end() for match in re.finditer(b"\n", output)]
    for line, data in certificates_in(output):
        if begins[line - 1] > at:
            yield output[at : begins[line - 1]]
        yield cases.Case("", data)
        at = begins[line - 1] + len(data)
    if at < len(output):
        yield output[at:]


def output_lines(run):
    number = 0
    for part in run.parts:
        if isinstance(part, bytes):
            yield from text("output", "Output", part.decode("utf-8", "replace"))
        else:
            number += 1
            yield from certificate_lines(part, number)
    if not run.parts:
        yield "<p>The script wrote nothing.</p>"


def contents(run):
    """The links to the parts of the page."""
    yield '<nav aria-label="Contents"><ul>'
    yield '<li><a href="#script">Script</a></li><li><a href="#output">Output</a></li>'
    for number, case in enumerate(run.cases, 1):
        yield '<li><a href="#certificate-%d">Certificate %d</a>: %s</li>' % (number, number, escape(case.line))
    yield "</ul></nav>"


def section(kind, title, lines):
    yield '<section id="%s" aria-labelledby="%s-title"><h2 id="%s-title">%s</h2>' % (kind, kind, kind, title)
    yield from lines
    yield "</section>"


def lines(run):
    """The page."""
    title = escape(run.name)
    yield '<!DOCTYPE html>\n<html lang="en"><head><meta charset="utf-8">'
    yield '<meta name="viewport" content="width=device-width, initial-scale=1"><title>%s</title><style>%s</style></head><body>' % (title, STYLE)
    yield "<header><h1>%s</h1><p%s>%s; its output has %s.</p>" % (
        title,
        "" if run.status == 0 else ' class="fault"',
        run.ended(),
        counted(len(run.cases), "certificate"),
    )
    yield from contents(run)
    yield "</header><main>"
    yield from section("script", "Script", text("script", "Script", run.script.decode("utf-8", "replace")))
    yield from section("output", "Output", output_lines(run))
    if run.said:
        yield from section("said", "What was said besides", text("said", "What was said besides", run.said.decode("utf-8", "replace")))
    yield "</main></body></html>"
