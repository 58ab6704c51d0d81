"""Whether bench/run refuses bad words in one line and, where the program is built, finds no wrong answer in S4 for n = 1 to 3,
without peers."""

import os
import subprocess
import tempfile

from checks.report import TOP

RUN = os.path.join(TOP, "bench", "run")
PROGRAM = os.path.join(TOP, "crates", "lw", "out", "lw")
BAD = (["--seconds", "soon"], ["--seconds", "0"], ["--seconds", "nan"], ["--logic", "s6"], ["--peers", "nobody"], ["--most", "1.5"])
FAMILIES_OF_S4 = ("45", "branch", "grz", "ipc", "md", "path", "ph", "s5", "t4p")


def run(*words):
    """What bench/run writes, on both channels, and its status."""
    done = subprocess.run([RUN, *words], stdout=subprocess.PIPE, stderr=subprocess.STDOUT, stdin=subprocess.DEVNULL)
    return done.stdout.decode(), done.returncode


def check_bad_words(report):
    for words in BAD:
        written, status = run(*words)
        report.compare("bench/run %s" % " ".join(words), (1, 2), (written.count("\n"), status))


def check_s4(report):
    """No answer is wrong, each family has its two lines, and the first formula of each is solved."""
    if not os.path.exists(PROGRAM):
        print("tools: bench/run is skipped: the program isn't built")
        return
    written, status = run("--seconds", "1", "--logic", "s4", "--most", "3")
    report.compare("bench/run in S4, status", 0, status)
    rows = {line.split(" | ")[0].strip("| "): line.split(" | ") for line in written.splitlines() if line.startswith("| s4_")}
    report.compare("bench/run in S4, rows", {"s4_%s_%s" % (name, kind) for name in FAMILIES_OF_S4 for kind in "pn"}, set(rows))
    for name, cells in rows.items():
        report.check("bench/run in S4, %s" % name, int(cells[1].split()[0]) >= 1, cells[1])


def check_wrong_peer(report):
    """A peer that calls each formula valid contradicts the first family of K: the run names it, and ends with status 1."""
    if not os.path.exists(PROGRAM):
        return
    with tempfile.TemporaryDirectory() as folder:
        path = os.path.join(folder, "SPASS")
        with open(path, "w", encoding="utf-8") as file:
            file.write("#!/bin/sh\necho Proof found\n")
        os.chmod(path, 0o755)
        found = dict(os.environ, PATH=folder + os.pathsep + os.environ["PATH"])
        words = [RUN, "--logic", "k", "--most", "1", "--peers", "spass"]
        done = subprocess.run(words, stdout=subprocess.PIPE, stderr=subprocess.STDOUT, stdin=subprocess.DEVNULL, env=found)
    wanted = (1, "bench/run: wrong: spass says of k_branch_n for n = 1: valid\n")
    report.compare("bench/run with a wrong peer", wanted, (done.returncode, done.stdout.decode()))


def check_all(report):
    check_bad_words(report)
    check_wrong_peer(report)
    check_s4(report)
