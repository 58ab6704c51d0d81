"""What was entered at a prompt: the statements that were carried out, and the commands that begin with a colon."""

import os
import re
import sys

from explaining import faults
from explaining.grammar import fault_line
from shelling.entries import cut
from shelling.runs import run

HELP = """\
A statement is carried out when it is whole: at its `;`, or at the `end` of `if`, `for` and `while`. The whole script is
run again with it; what it writes is shown, and one with a fault is left out. Lines are counted from the first statement.
  :show       what was entered and carried out, with the numbers of its lines
  :time       how long the last run took
  :seconds N  how long a run may take; without N, how long that is now
  :save FILE  writes what was entered and carried out into a new file
  :help       this text
  :quit       ends the shell, as Ctrl-D does
Ctrl-C stops a run, or drops a statement that isn't whole."""
# the limit on time has as many digits at most
DIGITS = 9
# how the launcher's line on an unproved run begins
UNPROVED = "lw: UNPROVED"


def seconds_of(word):
    """The number of seconds that a word names, from 1 on and without leading zeros; raises ValueError."""
    if re.fullmatch("[1-9][0-9]{0,%d}" % (DIGITS - 1), word) is None:
        raise ValueError
    return int(word)


def show(line):
    print(line, flush=True)


def tell(line):
    sys.stdout.flush()
    print(line, file=sys.stderr, flush=True)


class Output:
    """Passes on what a run writes behind its first bytes, which the run before has shown."""

    def __init__(self, known):
        self.known, self.count, self.last = known, 0, b""

    def take(self, piece):
        new = piece[max(0, self.known - self.count) :]
        self.count += len(piece)
        sys.stdout.buffer.write(new)
        sys.stdout.buffer.flush()
        # what may be a fault's line: those have less than 200 bytes
        self.last = (self.last + new)[-200:]

    def end_line(self):
        if self.last and not self.last.endswith(b"\n"):
            self.take(b"\n")

    def last_line(self):
        return (self.last.decode("latin-1").splitlines() or [""])[-1]


class Session:
    """The state of a shell. `command` is what runs a file, as a list of words; `limit` is in seconds.

    `kept` holds the bytes of the statements that were carried out, each with a line feed behind it, and `written` counts
    the bytes that their run writes: a run of the same script writes the same. `rest` is the beginning of a statement.
    `had_fault` tells whether anything that was entered was left out, `is_over` whether the shell is to end, `told_unproved`
    whether the user knows where runs are unproved.
    """

    def __init__(self, command, limit, told_unproved=False):
        self.command, self.limit = command, limit
        self.kept, self.written, self.rest = b"", 0, b""
        self.last_seconds, self.saved = None, set()
        self.had_fault, self.is_over, self.told_unproved = False, False, told_unproved

    def enter(self, line):
        """Takes a line of input, as bytes: a command, or a part of the script."""
        word, _, more = line.decode("utf-8", "surrogateescape").strip().partition(" ")
        if word.startswith(":") and not word.startswith(":="):
            self.obey(word, more.strip())
            return
        entry = cut(self.rest + line + b"\n")
        for statement in entry.whole:
            self.carry_out(statement)
        self.rest = entry.rest
        if entry.fault:
            self.refuse()
        elif self.rest:
            self.rest += b"\n"

    def finish(self):
        """Takes the end of the input."""
        self.is_over = True
        if self.rest:
            self.refuse()

    def refuse(self):
        """Tells of the fault in the rest, and drops that."""
        data, self.rest = self.kept + self.rest, b""
        self.had_fault = True
        show(fault_line(faults.first_fault(data)))
        self.explain(data, None)

    def explain(self, data, line):
        for told in faults.explain(data, line):
            tell(told)

    def carry_out(self, statement):
        script = self.kept + statement + b"\n"
        output = Output(self.written)
        end = run(self.command, script, self.limit, output.take)
        self.last_seconds = end.seconds
        self.tell_unproved(end)
        if end.status == 0:
            self.kept, self.written = script, output.count
            return
        self.had_fault = True
        output.end_line()
        if end.status == 1:
            self.explain(script, output.last_line())
        else:
            self.tell_end(end)

    def tell_unproved(self, end):
        """Passes on once what the launcher tells of each unproved run."""
        lines = [line for line in end.told if line.startswith(UNPROVED)]
        if lines and not self.told_unproved:
            tell(lines[0])
            self.told_unproved = True

    def tell_end(self, end):
        """Tells how a run ended that came to no end of its own."""
        if end.stopped == "late":
            tell("shell: stopped after %d seconds, as :seconds has it; the statement is left out" % self.limit)
        elif end.stopped:
            tell("shell: stopped; the statement is left out")
        else:
            for line in end.told:
                if not line.startswith(UNPROVED):
                    tell(line)
            how = "with status %d" % end.status if end.status >= 0 else "by signal %d" % -end.status
            tell("shell: the run ended %s; the statement is left out" % how)

    def obey(self, word, more):
        commands = {
            ":show": self.show_kept,
            ":time": self.show_time,
            ":seconds": self.set_limit,
            ":save": self.save,
            ":help": lambda _: show(HELP),
            ":quit": self.quit,
        }
        if word in commands:
            commands[word](more)
        else:
            self.complain("%s is no command; the commands are %s" % (word, ", ".join(commands)))

    def complain(self, line):
        self.had_fault = True
        tell("shell: " + line)

    def show_kept(self, _):
        for number, line in enumerate(self.kept.split(b"\n")[:-1], 1):
            show("%5d | %s" % (number, line.decode("utf-8", "replace")))

    def show_time(self, _):
        show("nothing was run yet" if self.last_seconds is None else "%.3f seconds" % self.last_seconds)

    def set_limit(self, more):
        if not more:
            show("%d seconds" % self.limit)
            return
        try:
            self.limit = seconds_of(more)
        except ValueError:
            self.complain(":seconds takes a whole number of seconds from 1 on: `:seconds 60`")

    def save(self, more):
        if not more:
            self.complain(":save takes the name of a file: `:save lesson.lw`")
            return
        path = os.path.expanduser(more)
        try:
            # what another wrote stays as it is
            with open(path, "wb" if path in self.saved else "xb") as file:
                file.write(self.kept)
        except OSError as error:
            self.complain("%s can't be written: %s" % (more, error.strerror))
            return
        self.saved.add(path)

    def quit(self, _):
        self.is_over = True
        self.rest = b""
