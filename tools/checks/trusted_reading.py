"""Whether README.md and docs/DEFINITIONS.md have the numbers of lines to be believed, and the page the order of the files."""

import os
import re

from checks.report import TOP, text_of
from checks.running import run
from trusted.order import crate_of
from trusted.workbench import MEANINGS, reached

# some that the contract speaks of, and some that other contracts alone do
REACHED = ["workbench", "Answers", "RunOutcome", "IsFinding", "IsTrueAt", "Class", "Sees", "first_break", "in_logic", "Store", "Sink", "FileName"]
NOT_REACHED = ["IsSubformula", "true_at", "Keeps", "IsRanked", "HasOneTree", "Nnf", "count_one"]


def files_of(text):
    """The crates that the page's headings name, each once, and the files of specs, in order."""
    crates, paths = [], []
    for heading in re.findall(r"^## .*$", text, re.MULTILINE):
        for crate, name in re.findall(r"crates/(\w+)|(\w+\.antt)", heading):
            if crate and crate not in crates:
                crates.append(crate)
            if name:
                paths.append(os.path.join("crates", crates[-1], "specs", name))
    return crates, paths


def check_names(report, reach):
    names = {name for item in reach.reached for name in item.names}
    for name in REACHED:
        report.check("%s is reached" % name, name in names)
    for name in NOT_REACHED:
        report.check("%s isn't reached" % name, name not in names)
    paths = {item.path for item in reach.reached}
    report.check("no private word is reached", not any("Private" in path for path in paths))


def check_page(report, order):
    """The page's headings name each crate of the list, and files, in the list's order."""
    crates = list(dict.fromkeys(crate_of(path) for path in order.paths))
    named, paths = files_of(text_of("docs/DEFINITIONS.md"))
    report.compare("docs/DEFINITIONS.md, the crates in order", crates, [crate for crate in named if crate in crates])
    places = [order.paths.index(path) for path in paths if path in order.paths]
    report.compare("docs/DEFINITIONS.md, the files in order", sorted(places), places)


def total_of(report, *words):
    """The number of lines and of files that the tool prints."""
    written, status = run("tools/trusted-reading", "--total", *words)
    report.compare("tools/trusted-reading %s, its status" % " ".join(words), 0, status)
    return written.strip()[len("In all: ") :]


def check_numbers(report):
    """README.md says how much there is to be believed, of all commands and of each; docs/DEFINITIONS.md of each."""
    readme, page = text_of("README.md"), text_of("docs/DEFINITIONS.md")
    total = total_of(report)
    report.check("README.md, %s" % total, total in readme)
    for command in sorted(MEANINGS):
        said = "`%s` %s" % (command, total_of(report, "--command", command).split(" lines")[0])
        report.check("README.md, %s" % said, said in readme)
        report.check("docs/DEFINITIONS.md, %s" % said, said in page)


def check_all(report):
    reach, order = reached(TOP)
    check_names(report, reach)
    check_page(report, order)
    check_numbers(report)
