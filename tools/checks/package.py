"""Whether packages are made of the built program alone, are the same each time, and run where they are unpacked, without the
kit.

Packages are made of a small repository, with a program of the system in place of the built one; and of this one, where its
program is built.
"""

import glob
import os
import shutil
import subprocess
import tarfile
import tempfile

from checks.launcher import COMMANDS
from checks.report import TOP, text_of
from packing.contents import FOR_SOURCES

PROGRAM = os.path.join("crates", "lw", "out", "lw")
SOURCE = os.path.join("crates", "lw", "src", "main.rt")
NOT_BUILT = "package: the program isn't built, or belongs to other sources; ./lw build builds it\n"
KIT = "#!/bin/sh\n: >>%s\necho sample kit\n"
DATE = "1000000000 +0000"
VERSION = "0.20010909.014640+"
INSTALLED = "lw: this is an installed program: it came built, and there are no sources beside it that could be built\n"
EXAMPLES = ("run/implication", "run/first-script", "check/loeb-in-gl")


def run(words, **more):
    done = subprocess.run(words, stdin=subprocess.DEVNULL, capture_output=True, text=True, check=False, **more)
    return done.stdout, done.stderr, done.returncode


class Sample:
    """A small repository with this one's launcher, tools, documents and examples, and a path with a kit that notes its runs."""

    def __init__(self, room):
        self.top = os.path.join(room, "sample")
        self.kit_ran = os.path.join(room, "kit-ran")
        kit = os.path.join(room, "kit")
        os.makedirs(kit)
        os.makedirs(os.path.join(self.top, os.path.dirname(SOURCE)))
        for name in ("docs", "examples", "tools"):
            shutil.copytree(os.path.join(TOP, name), os.path.join(self.top, name), ignore=shutil.ignore_patterns("__pycache__"))
        for name in ("lw", "README.md", "crates.txt"):
            shutil.copy(os.path.join(TOP, name), self.top)
        self.write(SOURCE, "one\n")
        self.write(".gitignore", "out/\n__pycache__/\n")
        self.write(os.path.join(kit, "rt"), KIT % self.kit_ran)
        os.chmod(os.path.join(kit, "rt"), 0o755)
        self.environment = dict(os.environ, PATH="%s:%s" % (kit, os.environ["PATH"]))

    def write(self, path, text):
        with open(os.path.join(self.top, path), "w", encoding="utf-8") as file:
            file.write(text)

    def commit(self):
        git = ["git", "-c", "user.name=Sample", "-c", "user.email=sample@example.org", "-c", "commit.gpgsign=false"]
        dated = dict(self.environment, GIT_AUTHOR_DATE=DATE, GIT_COMMITTER_DATE=DATE)
        for words in (["init", "-q"], ["add", "-A"], ["commit", "-q", "-m", "sample"]):
            subprocess.run(git + words, cwd=self.top, env=dated, check=True)
        return run(["git", "rev-parse", "HEAD"], cwd=self.top)[0].strip()

    def put_program(self, path):
        os.makedirs(os.path.join(self.top, os.path.dirname(PROGRAM)), exist_ok=True)
        shutil.copy(path, os.path.join(self.top, PROGRAM))
        self.launch("vouch")

    def launch(self, *words):
        return run([os.path.join(self.top, "lw"), *words], env=self.environment)

    def package(self, folder, **more):
        return run([os.path.join(self.top, "tools", "package"), "--output", folder], **dict(dict(env=self.environment), **more))


def check_refusals(report, sample, room):
    """Refused in one line, with status 2: a program that isn't there, is none, has no commit or belongs to other sources."""
    folder = os.path.join(room, "refused")
    report.compare("package without a program", ("", NOT_BUILT, 2), sample.package(folder))
    sample.put_program(shutil.which("echo"))
    written, told, status = sample.package(folder)
    report.check("package without a commit", (written, status) == ("", 2) and told.count("\n") == 1 and "commit" in told, told)
    commit = sample.commit()
    sample.write(SOURCE, "two\n")
    report.compare("package of other sources", ("", NOT_BUILT, 2), sample.package(folder))
    sample.write(SOURCE, "one\n")
    sample.put_program(os.path.join(sample.top, "lw"))
    told = "package: the program is for no processor that a package is made for\n"
    report.compare("package of a program that is none", ("", told, 2), sample.package(folder))
    report.check("what is refused makes nothing", not os.path.exists(folder))
    sample.put_program(shutil.which("echo"))
    return commit


def bytes_in(folder):
    found = {}
    for name in sorted(os.listdir(folder)):
        with open(os.path.join(folder, name), "rb") as file:
            found[name] = file.read()
    return found


def without_dpkg(room):
    """A path that has what a package needs but dpkg-deb."""
    folder = os.path.join(room, "few")
    os.makedirs(folder)
    for name in COMMANDS + ("env", "git", "python3", "sha256sum"):
        if shutil.which(name):
            os.symlink(shutil.which(name), os.path.join(folder, name))
    return dict(os.environ, PATH=folder)


def check_made(report, sample, room, commit):
    """What is made of the same sources is the same; without dpkg-deb it is said that the one file is all. Gives the folder."""
    first, second, third = (os.path.join(room, name) for name in ("first", "second", "third"))
    written, told, status = sample.package(first)
    report.compare("package: told and status", (0, "" if shutil.which("dpkg-deb") else told), (status, told))
    report.compare("package: the files that it prints", sorted(written.splitlines()), sorted(glob.glob(os.path.join(first, "*"))))
    version = VERSION + commit[:12]
    report.check("package: the version", all(version in name for name in os.listdir(first)), os.listdir(first))
    sample.package(second, env=dict(sample.environment, TZ="Asia/Tokyo", LC_ALL="C"), umask=0o077)
    report.check("package: the same bytes each time", bytes_in(first) == bytes_in(second))
    written, told, status = sample.package(third, env=without_dpkg(room))
    report.compare("package without dpkg-deb", ("package: dpkg-deb isn't installed, so no .deb was made\n", 0), (told, status))
    alone = [name for name in os.listdir(first) if name.endswith(".gz")]
    report.compare("package without dpkg-deb: its file", alone, os.listdir(third))
    return first


def unpacked(folder, room):
    """Each package in the folder, unpacked into an empty folder: its kind, that folder and its launcher."""
    for path in sorted(glob.glob(os.path.join(folder, "*"))):
        place = tempfile.mkdtemp(dir=room)
        if path.endswith(".deb"):
            subprocess.run(["dpkg-deb", "-x", path, place], check=True)
            yield ".deb", place, os.path.join(place, "usr", "bin", "lw")
        else:
            with tarfile.open(path) as archive:
                archive.extractall(place)
            yield ".tar.gz", place, glob.glob(os.path.join(place, "*", "lw"))[0]


def check_installed(report, sample, launcher, kind, commit):
    """The launcher of a package runs its program from any folder, says what it is, and its tools tell what they are for."""
    with tempfile.TemporaryDirectory() as empty:
        more = dict(cwd=empty, env=sample.environment)
        report.compare("%s: lw run" % kind, ("run x\n", "", 0), run([launcher, "run", "x"], **more))
        report.compare("%s: lw build" % kind, ("", INSTALLED, 0), run([launcher, "build"], **more))
        version = "sample kit\ncommit %s\n" % commit
        report.compare("%s: lw --version" % kind, (version, "", 0), run([launcher, "--version"], **more))
    folder = os.path.dirname(os.path.realpath(launcher))
    tools = [path for path in glob.glob(os.path.join(folder, "tools", "*")) if os.path.isfile(path)]
    report.check("%s: tools" % kind, {"show", "explain", "check-certificate"} < set(map(os.path.basename, tools)), tools)
    for tool in tools:
        report.compare("%s: %s --help" % (kind, os.path.basename(tool)), 0, run([tool, "--help"], env=sample.environment)[2])


def check_links(report, place, kind):
    """Each link of an unpacked package leads to what is in it, or there is none."""
    paths = [os.path.join(folder, name) for folder, below, names in os.walk(place) for name in below + names]
    led = [os.path.realpath(path) for path in paths if os.path.islink(path)]
    astray = [path for path in led if not (os.path.exists(path) and path.startswith(os.path.realpath(place)))]
    report.compare("%s: links" % kind, (kind == ".deb", []), (bool(led), astray))


def check_sample(report, room):
    gone = [name for name in FOR_SOURCES if not os.path.exists(os.path.join(TOP, "tools", name))]
    report.compare("package: what is left out is there", [], gone)
    sample = Sample(room)
    commit = check_refusals(report, sample, room)
    made = check_made(report, sample, room, commit)
    if os.path.exists(sample.kit_ran):
        os.remove(sample.kit_ran)
    for kind, place, launcher in unpacked(made, room):
        check_installed(report, sample, launcher, kind, commit)
        check_links(report, place, kind)
    report.check("an installed program needs no kit", not os.path.exists(sample.kit_ran))
    sample.write("README.md", text_of("README.md") + "\nMore.\n")
    written = sample.package(os.path.join(room, "changed"))[0]
    told = [".changed" in name for name in written.splitlines()]
    report.check("package: changes since the commit are told", told and all(told), written)


def check_examples(report, room):
    """Three examples, run from packages of the program that is built here; where none is, that is said."""
    folder = os.path.join(room, "own")
    _, told, status = run([os.path.join(TOP, "tools", "package"), "--output", folder])
    if status == 2:
        print("tools: no examples are run from a package: %s" % told.strip())
        return
    report.compare("package of this program", 0, status)
    for kind, _, launcher in unpacked(folder, room):
        run_examples(report, launcher, kind)


def run_examples(report, launcher, kind):
    examples = os.path.join(os.path.dirname(os.path.realpath(launcher)), "examples")
    for name in EXAMPLES:
        with tempfile.TemporaryDirectory() as empty:
            written = run([launcher, name.split("/")[0], os.path.join(examples, name + ".txt")], cwd=empty)
        report.compare("%s: %s" % (kind, name), (text_of("examples/%s.expected" % name), "", 0), written)


def check_all(report):
    if not shutil.which("git"):
        print("tools: no packages are made, since git isn't installed")
        return
    with tempfile.TemporaryDirectory() as room:
        check_sample(report, room)
        check_examples(report, room)
