"""How a tool ends, whatever becomes of its files and of its output."""

import os
import sys

from common.inputs import Unread

UNREAD, UNWRITTEN, STOPPED = 3, 4, 130
STATUSES = (
    "The status is %d where a file can't be read, and %d where the output can't be written whole; one line on standard "
    "error says which." % (UNREAD, UNWRITTEN)
)


def end(name, line, status):
    if sys.stderr is not None:
        print("%s: %s" % (name, line), file=sys.stderr)
    sys.exit(status)


def drop_output():
    """What is still kept for standard output goes nowhere, so that the interpreter doesn't try once more to write it."""
    nowhere = os.open(os.devnull, os.O_WRONLY)
    os.dup2(nowhere, 1)
    os.close(nowhere)


def carry_out(name, main):
    """Runs a tool's main function, and ends the process as STATUSES says. Errors of the operating system that main lets
    through are those of an output: what is read, is read by common.inputs.
    """
    if sys.stdout is None:
        end(name, "the output could not be written: standard output is closed", UNWRITTEN)
    try:
        try:
            main()
        finally:
            sys.stdout.flush()
    except Unread as error:
        end(name, error, UNREAD)
    except OSError as error:
        drop_output()
        told = "the output could not be written whole" if error.filename is None else error.filename
        end(name, "%s: %s" % (told, error.strerror), UNWRITTEN)
    except KeyboardInterrupt:
        end(name, "stopped", STOPPED)
