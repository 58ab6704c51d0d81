"""Whether each tool ends as its help says where it can't read or write: with 3 or 4, and one line on standard error."""

import os
import subprocess

from checks.report import TOP

CERTIFICATE = "examples/check/loeb-in-gl.txt"
MODEL = "examples/check/one-dead-end.txt"
FORMULA = "examples/from-other/dfg/box-and-dia.dfg"
SCRIPT = "examples/run/proof"
READERS = (("check-certificate",), ("show",), ("from-other", "dfg"), ("explain", "--check"), ("to-coq",))
WRITERS = (
    ("check-certificate", CERTIFICATE),
    ("check-certificate", "--all", CERTIFICATE, CERTIFICATE),
    ("check-certificate", "--json", CERTIFICATE),
    ("show", CERTIFICATE),
    ("show", MODEL, "--svg", "-"),
    ("show", MODEL, "--dot", "-"),
    ("show", CERTIFICATE, "--tree"),
    ("show", CERTIFICATE, "--shared"),
    ("show", CERTIFICATE, "--latex"),
    ("page", SCRIPT + ".txt", "--output", SCRIPT + ".expected", "-o", "-"),
    ("to-coq", CERTIFICATE),
    ("from-other", "dfg", FORMULA),
    ("trusted-reading", "--total"),
    ("ask", "k", "p"),
    ("show", "--version"),
)


def tools():
    """All tools in python3, whose help is an output too."""
    folder = os.path.join(TOP, "tools")
    for name in sorted(os.listdir(folder)):
        path = os.path.join(folder, name)
        if os.path.isfile(path) and os.access(path, os.X_OK):
            with open(path, encoding="utf-8") as file:
                if "python3" in file.readline():
                    yield name


def run(words, **more):
    command = [os.path.join(TOP, "tools", words[0])] + list(words[1:])
    return subprocess.run(command, cwd=TOP, stderr=subprocess.PIPE, text=True, check=False, **more)


def expect(report, what, status, done):
    told = done.stderr
    report.check(what, done.returncode == status and told.count("\n") == 1 and "Traceback" not in told, "%d, %r" % (done.returncode, told))


def check_unread(report):
    for words in READERS:
        for name in ("nosuch", "tools", "examples/check"):
            expect(report, "%s %s" % (" ".join(words), name), 3, run(words + (name,), stdout=subprocess.DEVNULL))


def check_unwritten(report, words):
    what = " ".join(words)
    expect(report, what + " >&-", 4, run(words, preexec_fn=lambda: os.close(1)))
    reading, writing = os.pipe()
    os.close(reading)
    expect(report, what + " into a closed pipe", 4, run(words, stdout=writing))
    os.close(writing)
    if os.path.exists("/dev/full"):
        with open("/dev/full", "wb") as full:
            expect(report, what + " >/dev/full", 4, run(words, stdout=full))


def check_standard_input(report):
    """The name - is standard input."""
    for words, name in zip(READERS, (CERTIFICATE, CERTIFICATE, FORMULA, CERTIFICATE, CERTIFICATE)):
        with open(os.path.join(TOP, name), "rb") as file:
            given = run(words + ("-",), stdin=file, stdout=subprocess.PIPE)
        report.compare("%s -" % words[0], run(words + (name,), stdout=subprocess.PIPE).stdout, given.stdout)
        report.compare("%s -: status" % words[0], 0, given.returncode)


def check_all(report):
    check_unread(report)
    check_standard_input(report)
    for words in WRITERS + tuple((name, "--help") for name in tools()):
        check_unwritten(report, words)
