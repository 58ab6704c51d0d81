"""Where a package comes from: the program that it has, and the commit of all else in it."""

import datetime
import os
import re
import struct
import subprocess

from common.inputs import bytes_of

PROGRAM = os.path.join("crates", "lw", "out", "lw")
# with this the launcher's version begins where there is no program that could be packed
NOT_BUILT = "the program isn't built, or belongs to other sources"
# what a program says of its processor in the nineteenth byte and the one behind it, and Debian's word for that
PROCESSORS = {62: "amd64", 183: "arm64"}


class Refused(Exception):
    """No package can be made: why, in one line."""


def written(top, *words):
    """What a command writes in the folder `top`; raises Refused where it fails or isn't there."""
    try:
        return subprocess.run(words, cwd=top, capture_output=True, check=True).stdout.decode("utf-8")
    except (OSError, subprocess.CalledProcessError):
        raise Refused("a package tells its commit, and no word of it is to be had by %s %s" % words[:2]) from None


class Origin:
    """The folder of the repository, and what is told of it in the package.

    lines: what `lw --version` says; date: the commit's, in seconds; maintainer: who made it; version: the package's, which
    grows with the date; processor: Debian's word for the program's; library: the least version of the C library.
    """

    def __init__(self, top):
        """Raises Refused where the program isn't built or belongs to other sources, or where there is no commit."""
        self.top = top
        self.lines = written(top, os.path.join(top, "lw"), "--version")
        if self.lines.startswith(NOT_BUILT):
            raise Refused(NOT_BUILT + "; ./lw build builds it")
        told = written(top, "git", "show", "-s", "--abbrev=12", "--format=%h %ct %cn <%ce>", "HEAD")
        commit, date, self.maintainer = told.strip().split(" ", 2)
        self.date = int(date)
        changed = ".changed" if written(top, "git", "status", "--porcelain", "--untracked-files=no") else ""
        self.version = "0.%s+%s%s" % (self.moment("%Y%m%d.%H%M%S"), commit, changed)
        self.processor, self.library = told_of(os.path.join(top, PROGRAM))

    def moment(self, form):
        """The commit's date, in the form that strftime takes."""
        return datetime.datetime.fromtimestamp(self.date, datetime.timezone.utc).strftime(form)

    def files(self):
        """The files that the repository keeps, as they stand, in the order of their names."""
        return sorted(name for name in written(self.top, "git", "ls-files", "-z").split("\0") if name)


def told_of(path):
    """A program's processor, and the least version of the C library with which it runs; raises Refused and Unread."""
    data = bytes_of(path)
    machine = struct.unpack_from("<H", data, 18)[0] if data.startswith(b"\x7fELF\x02\x01") else None
    if machine not in PROCESSORS:
        raise Refused("the program is for no processor that a package is made for")
    versions = [tuple(map(int, version.split(b"."))) for version in re.findall(rb"GLIBC_(\d+(?:\.\d+)+)\0", data)]
    return PROCESSORS[machine], ".".join(map(str, max(versions, default=(2,))))
