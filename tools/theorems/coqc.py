"""Runs coqc in a folder that has the development of tools/coq."""

import collections
import os
import shutil
import subprocess

DEVELOPMENT = os.path.join(os.path.dirname(os.path.dirname(os.path.abspath(__file__))), "coq")
# in the order in which they build on one another; the last has examples alone
FILES = ["Modal.v", "Tables.v", "Calculus.v", "Sound.v", "Models.v", "Numbered.v", "Examples.v"]
SECONDS = 120

# the status of coqc, or None where it took too long; what it wrote, and what it said on standard error
Run = collections.namedtuple("Run", "status written told")


def is_there():
    return shutil.which("coqc") is not None


def compiled(folder, name, seconds=SECONDS):
    """The run of coqc on a file of the folder, which is ended after so many seconds."""
    try:
        run = subprocess.run(["coqc", name], cwd=folder, capture_output=True, text=True, timeout=seconds)
    except subprocess.TimeoutExpired:
        return Run(None, "", "ended after %d seconds" % seconds)
    return Run(run.returncode, run.stdout, run.stderr.strip())


def develop(folder):
    """Copies the development into the folder and compiles it there: each file's name and run, up to one that fails."""
    for name in FILES:
        shutil.copy(os.path.join(DEVELOPMENT, name), folder)
        run = compiled(folder, name)
        yield name, run
        if run.status != 0:
            return


def write(folder, name, lines):
    with open(os.path.join(folder, name), "w", encoding="utf-8", newline="\n") as file:
        file.writelines(line + "\n" for line in lines)
