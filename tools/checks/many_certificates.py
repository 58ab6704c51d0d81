"""Whether many certificates are judged, each once and in order, and whether the statuses tell what is wrong.

The verdicts are those that examples/check states; the texts below join its files.
"""

import glob
import json
import os
import shutil
import stat
import subprocess
import tempfile

from checks.report import TOP, text_of

TOOL = os.path.join(TOP, "tools", "check-certificate")
GOOD, WRONG, BROKEN = ("examples/check/%s.txt" % name for name in ("loeb-in-gl", "loeb-in-k", "leading-zero"))
STUB = '#!/bin/sh\n[ "$1" = check ] || exit 2\ngrep -q "^logic k$" "$2" && { echo "rejected: step 4"; exit 1; }\necho accepted\n'


def run(*words, **more):
    done = subprocess.run([TOOL] + list(words), cwd=TOP, stdout=subprocess.PIPE, stderr=subprocess.PIPE, text=True, **more)
    return done.stdout, done.stderr, done.returncode


def check_examples(report):
    """Each file of the examples has the verdict that stands beside it; text behind `end` is no matter here."""
    names = [name for name in sorted(glob.glob(os.path.join(TOP, "examples", "check", "*.txt"))) if "behind-the-end" not in name]
    for jobs in ("1", "4"):
        written, told, status = run("--all", "--jobs", jobs, *names)
        wanted = ["%s:1: %s" % (name, text_of(name[:-3] + "expected").rstrip("\n")) for name in names]
        report.compare("check-certificate --all on the examples: told", "", told)
        report.compare("check-certificate --all on the examples: status", 6, status)
        for one, other in zip(wanted, written.splitlines()):
            report.compare("check-certificate --all, %s jobs" % jobs, one, other)
        report.compare("check-certificate --all: lines", len(wanted), len(written.splitlines()))


def check_statuses(report):
    cases = (
        ((GOOD, GOOD), 0),
        ((GOOD, WRONG), 1),
        ((GOOD, BROKEN, WRONG), 6),
        ((GOOD, "README.md"), 6),
        ((GOOD, "nosuch", BROKEN), 3),
        ((GOOD, "tools"), 3),
        (("--all", GOOD), 0),
        (("--jobs", "0", GOOD), 2),
        ((GOOD,), 0),
        ((WRONG,), 1),
        ((BROKEN,), 1),
        (("nosuch",), 3),
        (("tools",), 3),
        ((), 2),
    )
    for words, wanted in cases:
        report.compare("check-certificate %s: status" % " ".join(words), wanted, run(*words)[2])


def check_output(report):
    """Certificates between the answers of a script, the last one cut."""
    parts = ["yes\n", text_of(GOOD), "no no\n", text_of(WRONG), "[p]\n", "certificate 1\nlogic k\n", text_of(GOOD), "certificate 1\nlogic"]
    lines = [sum(part.count("\n") for part in parts[:at]) + 1 for at in (1, 3, 5, 6, 7)]
    verdicts = ["accepted", "rejected: step 4", "fault: line 3: proof text", "accepted", "fault: line 2: proof text"]
    written, told, status = run("--all", "-", input="".join(parts))
    wanted = "".join("-:%d: %s\n" % pair for pair in zip(lines, verdicts))
    report.compare("check-certificate --all -: an output", (wanted, "", 6), (written, told, status))
    written, told, status = run("--json", "-", input="".join(parts))
    found = [json.loads(line) for line in written.splitlines()]
    report.compare("check-certificate --json: places", lines, [one["line"] for one in found])
    report.compare("check-certificate --json: verdicts", verdicts, [one["verdict"] for one in found])
    report.compare("check-certificate --json: logics", ["gl", "k", "k", "gl", None], [one["logic"] for one in found])
    report.compare("check-certificate --json: statuses", [0, 1, 6, 0, 6], [one["status"] for one in found])


def check_program(report):
    """The program's own verdicts are told, and one that gives none isn't taken for a rejection."""
    with tempfile.TemporaryDirectory() as room:
        program = os.path.join(room, "stub")
        for text, wanted in ((STUB, ("accepted", "rejected: step 4", 1)), ("#!/bin/sh\nexit 5\n", ("no verdict: the program ended with 5",) * 2 + (70,))):
            with open(program, "w", encoding="utf-8") as file:
                file.write(text)
            os.chmod(program, os.stat(program).st_mode | stat.S_IXUSR)
            written, _, status = run("--program", program, GOOD, WRONG)
            report.compare("check-certificate --program", ("%s:1: %s\n%s:1: %s\n" % (GOOD, wanted[0], WRONG, wanted[1]), wanted[2]), (written, status))


def check_parallel(report):
    """The local form of what docs/PROVERS.md shows for several machines."""
    if shutil.which("parallel") is None:
        print("tools: GNU parallel isn't installed: the example with it was skipped")
        return
    done = subprocess.run(
        ["parallel", "-k", "tools/check-certificate", "--json", "{}", ":::", GOOD, WRONG],
        cwd=TOP, stdout=subprocess.PIPE, text=True, check=False
    )
    found = [json.loads(line)["verdict"] for line in done.stdout.splitlines()]
    report.compare("GNU parallel: verdicts", ["accepted", "rejected: step 4"], found)
    report.compare("GNU parallel: how many aren't accepted", 1, done.returncode)


def check_all(report):
    check_examples(report)
    check_statuses(report)
    check_output(report)
    check_program(report)
    check_parallel(report)
