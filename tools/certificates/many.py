"""Judges many certificates, on several processors: a finding for each, in their order."""

import concurrent.futures
import functools
import os
import re
import subprocess
import tempfile

from certificates.finding import certificates_in
from certificates.judge import verdict
from common.inputs import Unread, bytes_of

ACCEPTED, REJECTED, UNREAD, NO_TEXT, NO_VERDICT = 0, 1, 3, 6, 70


class Finding:
    """What is found of one certificate: its file, its first line there (None where a file has none), its own lines, the
    line that tells the verdict, and the status.
    """

    def __init__(self, file, line, data, told, status):
        self.file, self.line, self.told, self.status = file, line, told, status
        self.logic = word_of(rb"logic (.*)", data, 1)
        self.formula = word_of(rb"formula (.*)", data, 2)
        self.kind = word_of(rb"(proof|model)", data, 3)

    def text(self):
        place = self.file if self.line is None else "%s:%d" % (self.file, self.line)
        return "%s: %s" % (place, self.told)

    def fields(self):
        """The same, for JSON; what the text doesn't tell is null."""
        return {
            "file": self.file,
            "line": self.line,
            "logic": self.logic,
            "formula": self.formula,
            "kind": self.kind,
            "verdict": self.told,
            "status": self.status,
        }


def word_of(pattern, data, at):
    lines = data.split(b"\n", at + 1)
    match = re.fullmatch(pattern, lines[at]) if at < len(lines) else None
    return None if match is None else match.group(1).decode("utf-8", "replace")


def cases_of(names):
    """For each certificate its file, line and bytes; for a file that can't be read, or has none, a finding."""
    for name in names:
        try:
            found = list(certificates_in(bytes_of(name)))
        except Unread as error:
            yield Finding(name, None, b"", error.reason, UNREAD)
            continue
        if not found:
            yield Finding(name, None, b"", "no certificate in it", NO_TEXT)
        for line, data in found:
            yield name, line, data


def judged(program, case):
    """The finding of a case, by the program's `check`, or by the second checker where there is no program."""
    if isinstance(case, Finding):
        return case
    name, line, data = case
    told, status = by_program(program, data) if program else verdict(data)
    if told.startswith("fault: "):
        status = NO_TEXT
    return Finding(name, line, data, told, status)


def by_program(program, data):
    """What `check` of the program says of a certificate, and its status."""
    with tempfile.NamedTemporaryFile() as file:
        file.write(data)
        file.flush()
        done = subprocess.run([program, "check", file.name], stdin=subprocess.DEVNULL, capture_output=True, check=False)
    told = done.stdout.decode("utf-8", "replace").rstrip("\n")
    if done.returncode in (ACCEPTED, REJECTED) and told:
        return told, done.returncode
    return "no verdict: the program ended with %d" % done.returncode, NO_VERDICT


def findings(names, program=None, jobs=None):
    """A finding for each certificate of these files, in order, on so many processors at once."""
    cases = list(cases_of(names))
    jobs = min(jobs or len(os.sched_getaffinity(0)), len(cases))
    judge = functools.partial(judged, program)
    if jobs < 2:
        yield from map(judge, cases)
        return
    with concurrent.futures.ProcessPoolExecutor(jobs) as pool:
        yield from pool.map(judge, cases, chunksize=max(1, min(16, len(cases) // (4 * jobs))))


def status_of(statuses):
    """The status of all: of what isn't accepted the worst news, in this order: no verdict, a file that can't be read, a text
    that is no certificate's, a rejection.
    """
    for status in (NO_VERDICT, UNREAD, NO_TEXT, REJECTED):
        if status in statuses:
            return status
    return ACCEPTED
