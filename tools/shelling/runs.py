"""Runs of a script by a program, with a limit on time."""

import os
import select
import shutil
import signal
import subprocess
import tempfile
import time
from collections import namedtuple

PATIENCE = 5
# `status` is the program's, or None where the run was stopped; `stopped` is "", "late" or "interrupted"; `told` holds the
# lines that it wrote on standard error; `seconds` is how long it took
End = namedtuple("End", "status stopped told seconds")


def run(command, script, seconds, take):
    """Carries out `command FILE`, where the file holds the script's bytes, and gives the End. Each piece of bytes that it
    writes goes to `take` at once. The run is stopped after so many seconds, or where the user interrupts it.
    """
    room = tempfile.mkdtemp()
    try:
        path = os.path.join(room, "script.lw")
        with open(path, "wb") as file:
            file.write(script)
        with open(os.path.join(room, "told"), "w+b") as told:
            return watched(begun(command + [path], room, told), seconds, take, told)
    finally:
        shutil.rmtree(room, ignore_errors=True)


def begun(words, room, told):
    """The process, in a session of its own: an interrupt at the terminal comes to the shell alone, which stops all that
    the run started. What that leaves among temporary files stands in the room.
    """
    environment = dict(os.environ, TMPDIR=room)
    channels = {"stdin": subprocess.DEVNULL, "stdout": subprocess.PIPE, "stderr": told}
    return subprocess.Popen(words, env=environment, start_new_session=True, **channels)


def watched(process, seconds, take, told):
    begin, stopped = time.monotonic(), ""
    try:
        if not passed_on(process, begin + seconds, take):
            stopped = "late"
    except KeyboardInterrupt:
        stopped = "interrupted"
    finally:
        stop(process)
    spent = time.monotonic() - begin
    told.seek(0)
    lines = told.read().decode("utf-8", "replace").splitlines()
    return End(None if stopped else process.returncode, stopped, lines, spent)


def passed_on(process, deadline, take):
    """Passes on what the process writes, and tells whether it ended before the deadline."""
    channel = process.stdout.fileno()
    while select.select([channel], [], [], max(0, deadline - time.monotonic()))[0] and time.monotonic() < deadline:
        piece = os.read(channel, 65536)
        if not piece:
            return ended(process, deadline)
        take(piece)
    return False


def ended(process, deadline):
    try:
        process.wait(max(0, deadline - time.monotonic()))
    except subprocess.TimeoutExpired:
        return False
    return True


def stop(process):
    """Ends the process, if it is still there, with all that it started."""
    for sign in (signal.SIGTERM, signal.SIGKILL):
        if process.poll() is None:
            os.killpg(process.pid, sign)
            ended(process, time.monotonic() + PATIENCE)
    process.stdout.close()
