"""Whether tools/shell carries out what is entered, goes on after faults, and stops a run and not itself.

It is tried with a shell script in place of the built program, through a pipe and at a terminal, and then with the built
program where that stands.
"""

import importlib.util
import os
import pty
import select
import signal
import subprocess
import sys
import tempfile
import time

from checks.launcher import Folder, write
from checks.report import TOP

PROGRAM = os.path.join(TOP, "crates", "lw", "out", "lw")
# writes what `print "..";` writes, knows no `K`, and is at work for long in a `while`
STUB = r"""#!/bin/sh
awk '/^print K;/ { print "fault: line " NR ": unbound K"; exit 1 }
/^while/ { print "at work"; fflush(); system("sleep 30") }
/^print[ \t]*"/ { gsub(/^print[ \t]*"|";/, ""); print }' "$2"
"""
# what is entered, what is written, what is told, and the status; a fault's column is that in its statement
TALKS = [
    ("", "", "", 0),
    ("# nothing\n\n", "", "", 0),
    ('print "a";\nprint "b";\n', "a\nb\n", "", 0),
    ('print "a"; print "b";', "a\nb\n", "", 0),
    (
        'print "a";\nprint K;\nprint "b";\n',
        "a\nfault: line 2: unbound K\nb\n",
        "logics are written small: did you mean `k`?\n    2 | print K;\n              ^\n",
        1,
    ),
    (
        'print "a";\nprint []p;\n:show\n',
        'a\nfault: line 2 column 9: unexpected\n    1 | print "a";\n',
        "`[]` is written `box`\n    2 | print []p;\n              ^\n",
        1,
    ),
    (
        'print "a"; print []p; print "b";\n:show\n',
        'a\nfault: line 2 column 9: unexpected\n    1 | print "a";\n',
        "`[]` is written `box`\n    2 | print []p; print \"b\";\n              ^\n",
        1,
    ),
    ("A := p # a part\n;\nif yes then\n:show\nprint A;\nend print\n:quit\nprint p;", "    1 | A := p # a part\n    2 | ;\n", "", 0),
    ("A\n:= p;\n:show", "    1 | A\n    2 | := p;\n", "", 0),
    (
        "print p\n",
        "fault: line 2 column 1: unexpected\n",
        "`;` is missing here\n    1 | print p\n               ^\n",
        1,
    ),
    (
        "print 1; \udcff\n:show",
        "fault: line 2 column 1: unexpected\n    1 | print 1;\n",
        "the byte 255 can't stand here; what can: a statement\n    2 | \ufffd\n        ^\n",
        1,
    ),
    (":seconds\n:seconds 3\n:seconds\n:time", "10 seconds\n3 seconds\nnothing was run yet\n", "", 0),
    (":seconds 0", "", "shell: :seconds takes a whole number of seconds from 1 on: `:seconds 60`\n", 1),
    (":seconds 1000000000", "", "shell: :seconds takes a whole number of seconds from 1 on: `:seconds 60`\n", 1),
    (":seconds 999999999\nprint p;", "", "", 0),
    (":shw", "", "shell: :shw is no command; the commands are :show, :time, :seconds, :save, :help, :quit\n", 1),
    (":save", "", "shell: :save takes the name of a file: `:save lesson.lw`\n", 1),
    (":save /nosuch/file", "", "shell: /nosuch/file can't be written: No such file or directory\n", 1),
    (
        ":seconds 1\nwhile yes do end\n:show\n",
        "at work\n",
        "shell: stopped after 1 seconds, as :seconds has it; the statement is left out\n",
        1,
    ),
]
# what a launcher tells of an unproved run
TELLING = "#!/bin/sh\necho 'lw: UNPROVED: more' >&2\necho 'lw: other' >&2\nexit %d\n"
# with the built program: what is entered and what is written
REAL = [
    ("A := box p -> p;\nprint A;\nprint provable(k, A), provable(kt, A);\n", "box p -> p\nno yes\n"),
    ("print p + 1;\nfor L in [k, kt] do\nprint L;\nend\nprint 0 - 1;\nprint L;", "fault: line 1: kind\nk\nkt\nfault: line 4: range\nkt\n"),
    ("A := p\n; B := A & A; print B;", "p & p\n"),
]
PATIENCE = 20


def talk(program, text, *words, **more):
    """What the shell writes and tells of a text that it reads, and its status."""
    command = [os.path.join(TOP, "tools", "shell"), "--program", program] + list(words)
    data = text.encode("utf-8", "surrogateescape")
    done = subprocess.run(command, input=data, stdout=subprocess.PIPE, stderr=subprocess.PIPE, timeout=60, **more)
    return done.stdout.decode(), done.stderr.decode(), done.returncode


def check_talks(report, program):
    for text, written, told, status in TALKS:
        report.compare("the shell on %r" % text, (written, told, status), talk(program, text))


def check_unproved(report, room):
    """What the launcher tells of unproved runs is told once, and what it tells of a run that came to no end, each time."""
    program = os.path.join(room, "telling")
    write(program, TELLING % 0)
    os.chmod(program, 0o755)
    report.compare("the shell unproved", ("", "lw: UNPROVED: more\n", 0), talk(program, "print p; print p;"))
    report.compare("the shell unproved, as was told", ("", "", 0), talk(program, "print p; print p;", "--unproved"))
    write(program, TELLING % 70)
    told = "lw: other\nshell: the run ended with status 70; the statement is left out\n"
    report.compare("a run that came to no end", ("", told, 1), talk(program, "print p;", "--unproved"))
    write(program, "#!/bin/sh\nkill -9 $$\n")
    told = "shell: the run ended by signal 9; the statement is left out\n"
    report.compare("a run that is killed", ("", told, 1), talk(program, "print p;"))


def is_gone(process):
    """Whether there is no process of this number before long."""
    until = time.monotonic() + PATIENCE
    while time.monotonic() < until:
        try:
            os.kill(process, 0)
        except ProcessLookupError:
            return True
        time.sleep(0.05)
    return False


def check_signals(report, room):
    """Where the shell is ended, so is what it runs."""
    program = os.path.join(room, "waiting")
    write(program, "#!/bin/sh\necho $$\nexec sleep 60\n")
    os.chmod(program, 0o755)
    for number in (signal.SIGTERM, signal.SIGHUP):
        command = [os.path.join(TOP, "tools", "shell"), "--program", program]
        with subprocess.Popen(command, stdin=subprocess.PIPE, stdout=subprocess.PIPE) as shell:
            shell.stdin.write(b"print p;\n")
            shell.stdin.flush()
            running = int(shell.stdout.readline())
            shell.send_signal(number)
            report.compare("the shell after signal %d" % number, 128 + number, shell.wait(PATIENCE))
        report.check("its run after signal %d" % number, is_gone(running))


def check_saved(report, program, room):
    """A file that is there stays, but for one that the same shell wrote."""
    path = os.path.join(room, "saved.lw")
    text = 'print "a";\n:save %s\nprint K;\nprint "b";\n:save %s\n' % (path, path)
    talk(program, text)
    with open(path, encoding="utf-8") as file:
        report.compare("what the shell saves", 'print "a";\nprint "b";\n', file.read())
    narrow = talk(program, "print p # \u25a1\n;\n:show\n", env=dict(os.environ, PYTHONIOENCODING="ascii"))
    report.compare("a letter that can't be shown", ("    1 | print p # ?\n    2 | ;\n", "", 0), narrow)
    told = talk(program, ":save %s\n" % path)[1]
    report.compare("saving over another's file", "shell: %s can't be written: File exists\n" % path, told)


def check_ends(report, program):
    """No input, no program, and no number."""
    for word in ("0", "01", "x", "1000000000"):
        report.compare("the shell with --seconds %s" % word, ("", 2), talk(program, ":seconds\n", "--seconds", word)[::2])
    command = [os.path.join(TOP, "tools", "shell"), "--program", program]
    closed = subprocess.run(command, stderr=subprocess.PIPE, text=True, preexec_fn=lambda: os.close(0))
    wanted = ("shell: standard input can't be read: it is closed\n", 3)
    report.compare("the shell without input", wanted, (closed.stderr, closed.returncode))
    written, told, status = talk(os.path.join(TOP, "nosuch"), 'print "a";\n:show\n')
    report.check("the shell without a program", (written, status) == ("", 2) and "nosuch is no program" in told, told)


class Terminal:
    """The shell at a terminal of its own."""

    def __init__(self, program):
        self.shown = b""
        self.process, self.channel = pty.fork()
        if self.process == 0:
            os.environ["TERM"] = "dumb"
            os.execv(sys.executable, [sys.executable, os.path.join(TOP, "tools", "shell"), "--program", program])

    def send(self, text):
        """Types this, and forgets what was shown before."""
        self.shown = b""
        os.write(self.channel, text.encode())

    def interrupt(self, text):
        """Types Ctrl-C until this is shown: the interpreter loses one that comes just before it waits for a key."""
        for _ in range(PATIENCE):
            self.send("\x03")
            if self.shows(text, 1):
                return True
        return False

    def shows(self, text, patience=PATIENCE):
        """Whether this is shown before long."""
        until = time.monotonic() + patience
        while text.encode() not in self.shown and time.monotonic() < until:
            if select.select([self.channel], [], [], 1)[0] and not self.read():
                break
        return text.encode() in self.shown

    def read(self):
        try:
            piece = os.read(self.channel, 1024)
        except OSError:
            return b""
        self.shown += piece
        return piece

    def status(self):
        """The status with which it ends before long, or None."""
        until = time.monotonic() + PATIENCE
        while time.monotonic() < until:
            done, status = os.waitpid(self.process, os.WNOHANG)
            if done:
                return os.waitstatus_to_exitcode(status)
            time.sleep(0.05)
        os.kill(self.process, signal.SIGKILL)
        os.waitpid(self.process, 0)
        return None


# what is typed at the terminal, and what is shown then
TYPED = [
    ('print "a";\n', "\na\r\n"),
    ("", "lw> "),
    ("print\n", "..> "),
    ("\x03", "lw> "),
    ("while yes do end\n", "at work\r\n"),
    ("\x03", "shell: stopped; the statement is left out"),
    ("", "lw> "),
    ('print "b";\n', "\nb\r\n"),
    ("", "lw> "),
    ("print K;\n", "did you mean `k`?"),
    ("", "lw> "),
    (":show\n", '    1 | print "a";\r\n    2 | print "b";\r\nlw> '),
]


def check_terminal(report, program):
    terminal = Terminal(program)
    report.check("the shell at a terminal: a prompt", terminal.shows("lw> "), repr(terminal.shown))
    for typed, shown in TYPED:
        if typed not in ("", "\x03"):
            terminal.send(typed)
        seen = terminal.interrupt(shown) if typed == "\x03" else terminal.shows(shown)
        report.check("the shell at a terminal: %r after %r" % (shown, typed), seen, repr(terminal.shown))
    if importlib.util.find_spec("readline"):
        terminal.send('rint\t"c";\x01p\n')
        report.check("the shell at a terminal: a line is edited", terminal.shows("\nc\r\nlw> "), repr(terminal.shown))
    terminal.send("\x04")
    report.compare("the shell at a terminal: its end", 0, terminal.status())
    os.close(terminal.channel)


def check_launcher(report, room):
    """The launcher begins the shell, with the built program where that is current."""
    bare = Folder(os.path.join(room, "bare"))
    written, told, status = bare.run("shell")
    report.check("lw shell without python3", (written, status) == ("", 70) and told.count("\n") == 1, told)
    folder = Folder(os.path.join(room, "whole"))
    os.symlink(sys.executable, os.path.join(folder.top, "bin", "python3"))
    os.symlink(os.path.join(TOP, "tools"), os.path.join(folder.top, "tools"))
    folder.put_program(STUB)
    written, told, status = folder.run("shell", input='print "a";\n')
    report.check("lw shell without program and kit", (written, status) == ("", 70) and told.count("\n") == 1, told)
    folder.run("vouch")
    report.compare("lw shell", ("a\n10 seconds\n", "", 0), folder.run("shell", input='print "a";\n:seconds\n'))
    report.compare("lw --seconds 7 shell", ("7 seconds\n", "", 0), folder.run("--seconds", "7", "shell", input=":seconds\n"))


def check_program(report):
    if not os.access(PROGRAM, os.X_OK):
        print("tools: the shell isn't tried with the program, since it isn't built")
        return
    for text, written in REAL:
        report.compare("the shell with the program on %r" % text, written, talk(PROGRAM, text)[0])


def check_all(report):
    with tempfile.TemporaryDirectory() as room:
        program = os.path.join(room, "stub")
        with open(program, "w", encoding="utf-8") as file:
            file.write(STUB)
        os.chmod(program, 0o755)
        check_talks(report, program)
        check_unproved(report, room)
        check_signals(report, room)
        check_saved(report, program, room)
        check_ends(report, program)
        check_terminal(report, program)
        check_launcher(report, room)
    check_program(report)
