"""Whether the commands of tools that README.md and docs/ show write what stands below them."""

import glob
import os
import re
import shlex

from checks.report import TOP, text_of
from checks.running import run

SHOWN = ("tools/", "examples/provers/")


def commands_of(text):
    """Each command of a tool that is shown, with the lines below it. An empty line belongs to it where it goes on behind."""
    for match in re.finditer(r"^    \$ (.*)\n((?:(?!    \$ )    .*\n|\n(?=    (?!\$ )))*)", text, re.MULTILINE):
        if match.group(1).startswith(SHOWN):
            yield match.group(1), re.sub(r"^    ", "", match.group(2), flags=re.MULTILINE)


def check_all(report):
    for path in ["README.md"] + sorted(glob.glob(os.path.join(TOP, "docs", "*.md"))):
        for command, wanted in commands_of(text_of(path)):
            report.compare("%s: %s" % (os.path.basename(path), command), wanted.rstrip("\n"), run(*shlex.split(command))[0].rstrip("\n"))
