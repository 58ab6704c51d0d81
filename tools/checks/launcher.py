"""Whether the launcher runs the built program exactly where it belongs to the sources, tells of time, and ends a run.

It is tried in a folder of its own, with a shell script in place of the built program, and without the kit.
"""

import os
import pty
import re
import shutil
import subprocess
import tempfile

from checks.report import TOP

PROGRAM = os.path.join("crates", "lw", "out", "lw")
SOURCE = os.path.join("crates", "lw", "src", "lib.rt")
ECHO = '#!/bin/sh\necho "ran $*"\ncat "$2" 2>/dev/null\nexit 1\n'
SLOW = "#!/bin/sh\necho first\nexec sleep 4\n"
COMMANDS = ("awk", "cat", "cksum", "cut", "date", "dirname", "basename", "find", "grep", "head", "mkfifo", "mktemp")
COMMANDS += ("readlink", "rm", "sh", "sleep", "sort", "tail", "tr", "wc")


def write(path, text):
    os.makedirs(os.path.dirname(path), exist_ok=True)
    with open(path, "w", encoding="utf-8") as file:
        file.write(text)


class Folder:
    """A copy of the launcher with one source, and with a path that has no kit."""

    def __init__(self, room, more=("sha256sum",)):
        self.top = room
        self.environment = dict(os.environ, PATH=os.path.join(room, "bin"))
        os.makedirs(os.path.join(room, "bin"))
        for name in COMMANDS + more:
            if shutil.which(name):
                os.symlink(shutil.which(name), os.path.join(room, "bin", name))
        shutil.copy(os.path.join(TOP, "lw"), os.path.join(room, "lw"))
        write(os.path.join(room, "crates.txt"), "lw:\n")
        write(os.path.join(room, SOURCE), "one\n")
        self.put_program(ECHO)

    def put_program(self, text):
        write(os.path.join(self.top, PROGRAM), text)
        os.chmod(os.path.join(self.top, PROGRAM), 0o755)

    def run(self, *words, **more):
        command = ["/bin/sh", os.path.join(self.top, "lw")] + list(words)
        done = subprocess.run(command, env=self.environment, stdout=subprocess.PIPE, stderr=subprocess.PIPE, text=True, **more)
        return done.stdout, done.stderr, done.returncode

    def on_terminal(self, *words):
        """What a terminal shows of a run, with both outputs on it."""
        shown = []

        def read(channel):
            shown.append(os.read(channel, 1024))
            return shown[-1]

        quiet = os.open(os.devnull, os.O_WRONLY)
        kept = os.dup(1)
        os.dup2(quiet, 1)
        try:
            command = ["/usr/bin/env", "PATH=" + self.environment["PATH"], "/bin/sh", os.path.join(self.top, "lw")]
            status = pty.spawn(command + list(words), read, lambda channel: b"")
        finally:
            os.dup2(kept, 1)
            os.close(kept)
            os.close(quiet)
        return b"".join(shown).decode(), os.waitstatus_to_exitcode(status)


def check_contents(report, folder, kind):
    """The program runs where it was vouched for, by the contents of it and of the sources."""
    ran = ("ran check nosuch\n", "", 1)

    def refused(what):
        written, told, status = folder.run("check", "nosuch")
        report.check("lw: %s (%s)" % (what, kind), (written, status) == ("", 70) and "isn't built" in told, told)

    refused("a program without a note of its sources isn't run")
    folder.run("vouch")
    report.compare("lw: a program that was vouched for runs (%s)" % kind, ran, folder.run("check", "nosuch"))
    os.utime(os.path.join(folder.top, SOURCE), (2**31, 2**31))
    report.compare("lw: a newer time of a source is no matter (%s)" % kind, ran, folder.run("check", "nosuch"))
    write(os.path.join(folder.top, SOURCE), "two\n")
    os.utime(os.path.join(folder.top, SOURCE), (0, 0))
    refused("other contents with an older time aren't these sources")
    write(os.path.join(folder.top, SOURCE), "one\n")
    report.compare("lw: the sources are back (%s)" % kind, ran, folder.run("check", "nosuch"))
    os.rename(os.path.join(folder.top, SOURCE), os.path.join(folder.top, SOURCE + ".antt"))
    refused("a source of another name isn't the same")
    os.rename(os.path.join(folder.top, SOURCE + ".antt"), os.path.join(folder.top, SOURCE))
    folder.put_program(SLOW)
    refused("another program beside the note isn't run")
    folder.put_program(ECHO)


def check_seconds(report, folder):
    folder.put_program(SLOW)
    folder.run("vouch")
    written, told, status = folder.run("--seconds", "1", "run", "nosuch")
    report.compare("lw --seconds 1: written and status", ("first\n", 124), (written, status))
    report.compare("lw --seconds 1: told", "lw: stopped after 1 seconds, as --seconds wants; what was written is a first part\n", told)
    for word in ("0", "1x", "-1", ""):
        written, told, status = folder.run("--seconds", word, "run", "nosuch")
        report.check("lw --seconds %r" % word, (written, status) == ("", 2) and told.count("\n") == 1, told)


def check_time(report, folder):
    """The line of the time is on a terminal alone, and is taken away again."""
    report.compare("lw without a terminal tells no time", ("first\n", "", 0), folder.run("run", "nosuch"))
    shown, status = folder.on_terminal("run", "nosuch")
    report.check("lw on a terminal tells the time", re.search(r"lw: at work for [234] seconds", shown) is not None, repr(shown))
    report.check("lw on a terminal takes the time away", status == 0 and shown.endswith("\r\x1b[K"), repr(shown))
    report.check("lw on a terminal loses no line", "first\r\n" in shown, repr(shown))
    folder.put_program(ECHO)
    folder.run("vouch")
    shown, status = folder.on_terminal("check", "nosuch")
    report.check("lw on a terminal, short", "ran check nosuch" in shown and "at work" not in shown and status == 1, repr(shown))


def check_all(report):
    with tempfile.TemporaryDirectory() as room:
        folder = Folder(os.path.join(room, "whole"))
        check_contents(report, folder, "sha256")
        check_seconds(report, folder)
        check_time(report, folder)
        check_contents(report, Folder(os.path.join(room, "plain"), ()), "cksum")
