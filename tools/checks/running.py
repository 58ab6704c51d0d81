"""Runs a program of python3 within the checks: so each starts once, and they take seconds."""

import contextlib
import functools
import importlib.machinery
import importlib.util
import io
import os
import sys

from checks.report import TOP


@functools.lru_cache(maxsize=None)
def loaded(path):
    """A program, whose name has no ending, as a module; the path begins at the top of the repository."""
    loader = importlib.machinery.SourceFileLoader(path.replace("/", "_").replace("-", "_"), os.path.join(TOP, path))
    module = importlib.util.module_from_spec(importlib.util.spec_from_loader(loader.name, loader))
    loader.exec_module(module)
    return module


def run(path, *words):
    """What the program writes with these words, on both channels, and its status."""
    written, before, folder = io.StringIO(), sys.argv, os.getcwd()
    sys.argv = [path] + list(words)
    os.chdir(TOP)
    try:
        with contextlib.redirect_stdout(written), contextlib.redirect_stderr(written):
            status = status_of(loaded(path).main)
    finally:
        sys.argv = before
        os.chdir(folder)
    return written.getvalue(), status


def status_of(main):
    """The status with which the program ends; as at the command line, words in its place are written, and it is 1."""
    try:
        main()
    except SystemExit as end:
        if isinstance(end.code, str):
            print(end.code, file=sys.stderr)
            return 1
        return end.code or 0
    return 0
