"""Whether each tool tells what it is for, and what the program was built with."""

import os
import subprocess

from checks.report import TOP

TOOLS = os.path.join(TOP, "tools")


def said(path, word):
    done = subprocess.run([path, word], stdout=subprocess.PIPE, stderr=subprocess.STDOUT, check=False)
    return done.stdout, done.returncode


def check_all(report):
    version = said(os.path.join(TOP, "lw"), "--version")
    report.check("lw --version", version[1] == 0 and version[0].count(b"\n") == 2, str(version))
    for name in sorted(os.listdir(TOOLS)):
        path = os.path.join(TOOLS, name)
        if os.path.isfile(path) and os.access(path, os.X_OK):
            for word in ("--help", "-h"):
                told, status = said(path, word)
                report.check("%s %s" % (name, word), status == 0 and len(told) > 100)
            report.compare("%s --version" % name, version, said(path, "--version"))
