"""Files that are given by name, where - is standard input."""

import sys


class Unread(Exception):
    """A file that can't be read: its name and why, in one line."""

    def __init__(self, name, reason):
        self.reason = "can't be read: %s" % reason
        super().__init__("%s can't be read: %s" % ("standard input" if name == "-" else name, reason))


def bytes_of(name, most=-1):
    """The file's bytes, of which at most so many are read where a number is given; raises Unread."""
    try:
        if name != "-":
            with open(name, "rb") as file:
                return file.read(most)
        if sys.stdin is None:
            raise Unread(name, "it is closed")
        return sys.stdin.buffer.read(most)
    except OSError as error:
        raise Unread(name, error.strerror) from None
    except ValueError as error:
        raise Unread(name, error) from None


def text_of(name):
    """The file's text, in UTF-8, with line feeds alone; raises Unread, also where it is none."""
    try:
        return bytes_of(name).decode("utf-8").replace("\r\n", "\n")
    except UnicodeDecodeError as error:
        raise Unread(name, "byte %d is no UTF-8" % (error.start + 1)) from None
