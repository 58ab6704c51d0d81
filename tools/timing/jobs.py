"""A run of a program that is measured: its time, its instructions, or its most memory."""

import os
import re
import shutil
import subprocess
import tempfile
import time

TOP = os.path.dirname(os.path.dirname(os.path.dirname(os.path.abspath(__file__))))
PROGRAM = os.path.join(TOP, "crates", "lw", "out", "lw")
CASES = os.path.join(TOP, "crates", "lw_cases", "out", "lw_cases")
RUNS = 5
# a case is read so often in a run, since a row may be a difference of two short times
TIMES = 10


class Job:
    """Words for the program and the text of the file behind them, or cases for the program of cases on its standard input; from
    what they take, what `less` takes is taken off."""

    def __init__(self, words=(), text=None, cases=None, less=None):
        self.words, self.text, self.cases, self.less = list(words), text, cases, less

    def run(self, before=()):
        """Runs it once, behind these words of another program, and gives what came of it."""
        if self.cases is not None:
            return subprocess.run([*before, CASES], input=self.cases * TIMES, capture_output=True, text=True)
        if self.text is None:
            return subprocess.run([*before, PROGRAM, *self.words], input="", capture_output=True, text=True)
        with tempfile.NamedTemporaryFile("w", suffix=".txt", delete=False) as file:
            file.write(self.text)
        try:
            return subprocess.run([*before, PROGRAM, *self.words, file.name], input="", capture_output=True, text=True)
        finally:
            os.unlink(file.name)


def less_other(measure):
    """The measure of a job without that of the other one that is taken off, and by how often a case is read in a run."""

    def measured(job):
        value, line = measure(job)
        if job.cases is not None:
            value /= TIMES
        return (value if job.less is None else value - measured(job.less)[0]), line

    return measured


@less_other
def milliseconds(job):
    """The least time of five runs, and the first line that is written."""
    best, line = None, ""
    for _ in range(RUNS):
        begin = time.perf_counter()
        run = job.run()
        took = 1000 * (time.perf_counter() - begin)
        best, line = (took if best is None else min(best, took)), run.stdout.partition("\n")[0]
    return best, line


@less_other
def instructions(job):
    """The thousands of instructions of a run, as valgrind's cachegrind counts them, and the first line that is written."""
    run = job.run(["valgrind", "--tool=cachegrind", "--cache-sim=no", "--cachegrind-out-file=/dev/null"])
    found = re.search(r"I\s+refs:\s+([0-9,]+)", run.stderr)
    if found is None:
        raise RuntimeError("valgrind told no number of instructions: %s" % run.stderr[-200:])
    return int(found.group(1).replace(",", "")) / 1000, run.stdout.partition("\n")[0]


def kibibytes(job):
    """The most memory that the run has had, as the system's `time` tells, and the first line that is written."""
    run = job.run(["/usr/bin/time", "-f", "%M"])
    return int(run.stderr.split()[-1]), run.stdout.partition("\n")[0]


def is_there(words):
    return shutil.which(words) is not None
