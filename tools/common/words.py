"""The words of a tool, its help and its version."""

import argparse
import os
import subprocess
import sys

from common.endings import STATUSES

LAUNCHER = os.path.join(os.path.dirname(os.path.dirname(os.path.dirname(os.path.abspath(__file__)))), "lw")


class Version(argparse.Action):
    """Prints what the launcher says of the version, and ends."""

    def __init__(self, option_strings, dest):
        super().__init__(option_strings, dest, nargs=0, help="print the kit that the program was built with, and the commit")

    def __call__(self, parser, *_):
        done = subprocess.run([LAUNCHER, "--version"], stdout=subprocess.PIPE, text=True, check=False)
        sys.stdout.write(done.stdout)
        parser.exit(done.returncode)


class Parser(argparse.ArgumentParser):
    """Reads a tool's words. The help has the tool's own text, and what its statuses say of files and of output; where it
    can't be written, that is an error as with any other output.
    """

    def __init__(self, text, **more):
        description = "%s\n\n%s" % (text.rstrip(), STATUSES)
        super().__init__(description=description, formatter_class=argparse.RawDescriptionHelpFormatter, **more)
        self.add_argument("--version", action=Version)

    def print_help(self, file=None):
        (sys.stdout if file is None else file).write(self.format_help())


class BriefParser(Parser):
    """Says what is wrong with the words in one line."""

    def error(self, message):
        self.exit(2, "%s: %s; tools/%s --help tells the words\n" % (self.prog, message, self.prog))
