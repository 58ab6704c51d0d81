"""Whether the launcher tells of itself, takes - for standard input, and knows what its program was built with."""

import os
import shutil
import subprocess
import tempfile

from checks.launcher import Folder, write
from checks.report import TOP

SHOWN = '#!/bin/sh\ncat "$2"\n'
FAULT = '#!/bin/sh\necho "fault: line 1 column 9: unexpected"\nexit 1\n'
JUDGE = "#!/bin/sh\necho accepted\n"
TEXT = "certificate 1\nend\n"
KIT = "#!/bin/sh\necho kit-1 logic 2\n"
NAMES = ("run", "check", "gen", "build")
NOT_BUILT = "the program isn't built, or belongs to other sources\n"


def put(folder, program):
    folder.put_program(program)
    folder.run("vouch")


def one_line(done, status):
    """Whether a run wrote one line on standard error alone, and ended with this status."""
    return done[0] == "" and done[1].count("\n") == 1 and done[2] == status


def check_help(report, folder):
    told = folder.run("--help")
    first = "lw run FILE    runs a script\n"
    report.check("lw --help", told[0].startswith(first) and "lw ask LOGIC FORMULA" in told[0] and told[1:] == ("", 0), str(told))
    for words in (["-h"], ["--seconds", "9", "-h"]) + tuple([name, word] for name in NAMES for word in ("-h", "--help")):
        report.compare("lw %s" % " ".join(words), told, folder.run(*words))
    written, told, status = folder.run()
    report.check("lw without words", (written, status) == ("", 2) and told.startswith(first), told)
    for words in (["--version", "more"], ["--halp"], ["run"], ["run", "one", "two"], [""]):
        report.check("lw %s" % words, folder.run(*words)[2] != 0)
    version = folder.run("--version")
    report.compare("lw run --version", version, folder.run("run", "--version"))


def check_unwritten(report, folder):
    for word in ("--help", "--version"):
        report.check("lw %s >&-" % word, one_line(folder.run(word, preexec_fn=lambda: os.close(1)), 4))


def check_input(report, folder):
    """The program reads what came on standard input, and no more than shows that a file is too long."""
    put(folder, SHOWN)
    for command in ("run", "check"):
        report.compare("lw %s -" % command, ("one\ntwo", "", 0), folder.run(command, "-", input="one\ntwo"))
    put(folder, JUDGE)
    told = folder.run("check-all", "-", input="a line\n" + 2 * TEXT)
    report.compare("lw check-all -", ("-:2: accepted\n-:4: accepted\n", "", 0), told)
    put(folder, SHOWN)
    report.compare("lw run - of too much", 1048577, len(folder.run("run", "-", input="x" * 2000000)[0]))
    report.check("lw run - <&-", one_line(folder.run("run", "-", preexec_fn=lambda: os.close(0)), 3))
    write(os.path.join(folder.top, "-"), "a file\n")
    report.compare("lw run ./-", ("a file\n", "", 0), folder.run("run", os.path.join(folder.top, "-")))
    put(folder, FAULT)
    told = folder.run("run", "-", input="print p\nprint q;")
    report.check("lw run - of a fault", told[1].startswith("`;` is missing here\n") and told[2] == 1, str(told))


def check_version(report, folder):
    """The kit is that of the path when the program was vouched for, and later ones change nothing."""

    def compare(what, wanted):
        report.compare("lw --version, %s" % what, (wanted, "", 0), folder.run("--version"))

    kit = os.path.join(folder.top, "bin", "rt")
    compare("not built", NOT_BUILT + "the commit is not known\n")
    folder.run("vouch")
    compare("without a kit", "the kit that the program was built with isn't known\nthe commit is not known\n")
    write(kit, KIT)
    os.chmod(kit, 0o755)
    folder.run("vouch")
    write(kit, KIT.replace("1", "3"))
    compare("with a kit", "kit-1 logic 2\nthe commit is not known\n")
    check_commit(report, folder, compare)
    write(os.path.join(folder.top, "VERSION"), "kit-5 logic 6\ncommit 7\n")
    compare("by the file VERSION", "kit-5 logic 6\ncommit 7\n")


def check_commit(report, folder, compare):
    """With a repository the commit is told, and whether its files were changed."""
    if shutil.which("git") is None:
        print("tools: lw --version isn't tried in a repository, since git is missing")
        return
    os.symlink(shutil.which("git"), os.path.join(folder.top, "bin", "git"))

    def git(*words):
        command = ["git", "-c", "user.name=one", "-c", "user.email=one@example.org", "-C", folder.top] + list(words)
        return subprocess.run(command, stdout=subprocess.PIPE, stderr=subprocess.DEVNULL, text=True, check=True).stdout

    git("init")
    git("add", "lw")
    git("commit", "--message", "one")
    named = "kit-1 logic 2\ncommit " + git("rev-parse", "HEAD").rstrip()
    compare("in a repository", named + "\n")
    os.utime(os.path.join(folder.top, "lw"), (0, 0))
    compare("with another time", named + "\n")
    with open(os.path.join(folder.top, "lw"), "a", encoding="utf-8") as file:
        file.write("# more\n")
    compare("with a change", named + ", and changes since\n")
    shutil.rmtree(os.path.join(folder.top, ".git"))


def check_all(report):
    with tempfile.TemporaryDirectory() as room:
        folder = Folder(os.path.join(room, "words"), ("python3", "sha256sum"))
        os.symlink(os.path.join(TOP, "tools"), os.path.join(folder.top, "tools"))
        check_help(report, folder)
        check_unwritten(report, folder)
        check_input(report, folder)
        check_version(report, Folder(os.path.join(room, "version")))
