"""Whether tools/page writes one file that has the script and its output, and is whole, foldable and readable without seeing."""

import os
import tempfile
from html.parser import HTMLParser

from certificates.formulas import spelled
from checks import browser, closed_pipes
from checks.bench import PROGRAM
from checks.report import text_of
from checks.running import loaded, run
from checks.shown_proofs import doubled
from showing import page_proofs

EXAMPLES = ("workbench", "proof", "smallest", "mckinsey-in-s4", "pigeonholes-proof", "fault-kind", "empty", "operators")
VOID = {"meta", "circle", "rect", "path"}
# what would have a browser load something, or run something
LOADING = ("<script", "<link", "<img", "<iframe", "<object", "<embed", " src=", "url(", "@import", " onclick", " onload", "javascript:")
REGIONS = {"output", "script", "said", "steps", "picture", "table"}


class Read(HTMLParser):
    """What is read in a page: the text of each element that has one, by its kind, and what can't be read or is left open."""

    def __init__(self, text):
        super().__init__()
        self.open, self.texts, self.ids, self.wanted, self.faults, self.items = [], {}, [], [], [], []
        self.headings, self.pictures, self.deepest = [], [], 0
        self.feed(text)
        self.close()
        self.faults += ["<%s> is left open" % tag for tag, _ in self.open]
        self.faults += ["no element has the id %s" % name for name in self.wanted if name not in self.ids]
        self.faults += ["two elements have the id %s" % name for name in set(self.ids) if self.ids.count(name) > 1]

    def handle_starttag(self, tag, attrs):
        told = dict(attrs)
        kind = told.get("class", "")
        self.ids += [told["id"]] if "id" in told else []
        self.wanted += told.get("aria-labelledby", "").split() + ([told["href"][1:]] if "href" in told else [])
        if "href" in told and not told["href"].startswith("#"):
            self.faults.append("a link leads out of the page: %s" % told["href"])
        if kind in REGIONS and not (told.get("tabindex") == "0" and told.get("aria-label") and told.get("role") == "region"):
            self.faults.append("no keyboard gets to %s" % told)
        if tag in ("h1", "h2", "h3"):
            self.headings.append(int(tag[1]))
        if tag == "svg":
            self.pictures.append([told.get("role")])
        elif self.open and self.open[-1][0] == "svg" and len(self.pictures[-1]) < 3:
            self.pictures[-1].append(tag)
        if tag not in VOID:
            self.open.append((tag, kind))
            self.deepest = max(self.deepest, len(self.open))
        if tag == "li":
            self.items.append("")

    def handle_startendtag(self, tag, attrs):
        self.handle_starttag(tag, attrs)

    def handle_endtag(self, tag):
        if not self.open or self.open.pop()[0] != tag:
            self.faults.append("</%s> closes nothing" % tag)

    def handle_data(self, data):
        if not self.open:
            return
        tag, kind = self.open[-1]
        if tag == "pre":
            self.texts[kind] = self.texts.get(kind, "") + (data[1:] if data.startswith("\n") else data)
        elif tag == "li":
            self.items[-1] += data


def page_of(folder, script, output):
    """The page of a script with its output, and the status."""
    out = os.path.join(folder, "out.html")
    told, status = run("tools/page", script, "--output", output, "-o", out)
    return (text_of(out) if os.path.exists(out) else told), status


def check_whole(report, what, text, script, output):
    """The page has the script and the output exactly, and needs nothing else."""
    read = Read(text)
    report.compare("%s: script" % what, script, read.texts.get("script", ""))
    report.compare("%s: output" % what, output, read.texts.get("output", ""))
    report.compare("%s: elements" % what, [], read.faults)
    report.compare("%s: what would be loaded" % what, [], [word for word in LOADING if word in text])
    steps = [later - before for before, later in zip(read.headings, read.headings[1:])]
    report.check("%s: headings" % what, read.headings[0] == 1 and max(steps) <= 1)
    report.check("%s: pictures" % what, all(part == ["img", "title", "desc"] for part in read.pictures), str(read.pictures))


def check_examples(report, folder):
    for name in EXAMPLES:
        script, output = "examples/run/%s.txt" % name, "examples/run/%s.expected" % name
        text, status = page_of(folder, script, output)
        check_whole(report, "page of %s" % name, text, text_of(script), text_of(output))
        report.compare("page of %s: status" % name, 1 if name.startswith("fault") else 0, status)


def check_rejected(report, folder):
    """A rejected proof has its step with the reason, a rejected model its pair, and the status is 1."""
    for name, told in (("loeb-in-k", "4. close ν T box p: breaks its rule: T box p isn&#x27;t in the set"), ("dead-end-in-kt", "world 0 doesn&#x27;t see itself")):
        text, status = page_of(folder, "examples/run/proof.txt", "examples/check/%s.txt" % name)
        report.check("page with %s" % name, status == 1 and told in text, text)


def check_left(report, folder):
    """Where there is no run there is no page, and one that is there stays."""
    out = os.path.join(folder, "left.html")
    with open(out, "w", encoding="utf-8") as file:
        file.write("left")
    for words in (("examples/run/nosuch.txt",), ("examples/run/proof.txt", "--output", "examples/run/nosuch.txt")):
        closed_pipes.expect(report, "page of %s" % " ".join(words), 3, closed_pipes.run(("page",) + words + ("-o", out)))
        report.compare("page that was there before %s" % " ".join(words), "left", text_of(out))
    report.compare("nothing is left beside the page", ["left.html", "out.html"], sorted(os.listdir(folder)))


def check_runs(report, folder):
    """A launcher that ends with each status: the page has what it wrote and said, and there is none where the run had no end."""
    tool, out = loaded("tools/page"), os.path.join(folder, "run.html")
    before, tool.LAUNCHER = tool.LAUNCHER, os.path.join(folder, "launcher")
    for status, has_page in ((0, True), (1, True), (3, False), (4, False), (5, False), (70, False), (124, False)):
        with open(tool.LAUNCHER, "w", encoding="utf-8") as file:
            file.write('#!/bin/sh\necho "$1 <b> &amp;"; echo "said <i>" >&2; exit %d\n' % status)
        os.chmod(tool.LAUNCHER, 0o755)
        told, ended = run("tools/page", "examples/run/loops.txt", "-o", out)
        texts = Read(text_of(out)).texts if os.path.exists(out) else {}
        wanted = ("run <b> &amp;\n", "said <i>\n") if has_page else (None, None)
        report.compare("page of a run with status %d" % status, (status,) + wanted, (ended, texts.get("output"), texts.get("said")))
        if has_page:
            os.remove(out)
    os.remove(tool.LAUNCHER)
    tool.LAUNCHER = before


def check_program(report, folder):
    """The page of the built program's run has what the example is to write."""
    if not os.path.exists(PROGRAM):
        print("tools: tools/page is given no script to run: the program isn't built")
        return
    out = os.path.join(folder, "run.html")
    for name, wanted in (("loops", 0), ("fault-kind", 1)):
        status = run("tools/page", "examples/run/%s.txt" % name, "-o", out)[1]
        shown = Read(text_of(out)).texts.get("output")
        report.compare("page of a run of %s" % name, (wanted, text_of("examples/run/%s.expected" % name)), (status, shown))
    os.remove(out)


def check_folding(report):
    """Each drawn step of a proof is in the list once, and lists don't stand in one another without end."""
    boxes = "box " * 300
    deep = [("step", ("F", spelled(("box " * n + "(p -> p)").encode()))) for n in range(300, 0, -1)]
    deep += [("one", ("F", spelled(b"p -> p"))), ("close", ("T", spelled(b"p")))]
    for what, goal, steps, count in (("deep", spelled((boxes + "(p -> p)").encode()), deep, 302),) + tuple(
        ("%d doublings" % times,) + doubled(times) + (count,) for times, count in ((6, 191), (7, 16))
    ):
        read = Read("\n".join(page_proofs.lines("k", goal, steps)))
        numbers = [int(item.split(".")[0]) for item in read.items]
        report.check("list of a proof: %s" % what, len(numbers) == count and numbers == sorted(set(numbers)) and not read.faults, str(numbers))
        report.check("lists in one another: %s" % what, read.deepest < 250, str(read.deepest))


def check_all(report):
    check_folding(report)
    with tempfile.TemporaryDirectory() as folder:
        check_examples(report, folder)
        check_rejected(report, folder)
        check_left(report, folder)
        check_runs(report, folder)
        check_program(report, folder)
        text, _ = page_of(folder, "examples/run/workbench.txt", "examples/run/workbench.expected")
        browser.check(report, folder, text, text_of("examples/run/workbench.expected"))
