"""Files that are written whole or not at all."""

import os
import shutil
import sys


def write(name, lines):
    """Writes the lines, each with a line feed, in UTF-8: to standard output where the name is -, and else into the file of
    this name. A file is written beside its place and then renamed, so that it never stands there half written; what is no
    file of its own, such as a pipe, is written as it stands. Raises OSError with the name where that can't be done.
    """
    text = "".join(line + "\n" for line in lines)
    if name == "-":
        if hasattr(sys.stdout, "reconfigure"):
            sys.stdout.reconfigure(encoding="utf-8", newline="\n")
        sys.stdout.write(text)
        return
    try:
        place = os.path.realpath(name)
        if os.path.exists(place) and not os.path.isfile(place):
            put(place, text)
        else:
            put_beside(place, text)
    except OSError as error:
        raise OSError(error.errno, error.strerror, name) from None


def put(place, text):
    with open(place, "w", encoding="utf-8", newline="\n") as file:
        file.write(text)


def put_beside(place, text):
    """Writes another file in the same folder, and gives it the name."""
    beside = "%s.%d.part" % (place, os.getpid())
    try:
        put(beside, text)
        if os.path.exists(place):
            shutil.copymode(place, beside)
        os.replace(beside, place)
    except BaseException:
        if os.path.exists(beside):
            os.remove(beside)
        raise
