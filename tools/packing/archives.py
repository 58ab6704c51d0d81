"""Archives of a tree that are the same whenever and by whomever they are made: names in order, times by the commit's date,
the owner root.
"""

import gzip
import io
import os
import subprocess
import tarfile
import tempfile

from packing.origin import Refused

CONTROL = """\
Package: fidortzu
Version: %(version)s
Architecture: %(processor)s
Maintainer: %(maintainer)s
Installed-Size: %(size)d
Depends: libc6 (>= %(library)s)
Recommends: python3
Suggests: man-db
Section: math
Priority: optional
Description: workbench for modal and provability logics
 It decides formulas with proofs and countermodels, computes interpolants,
 fixed points, normal forms and translations, and is driven by scripts. The
 program is proved to do what its contracts say.
"""
# what python3 keeps beside the tools isn't the package's, and would keep the folder
REMOVAL = b"#!/bin/sh\nfind /usr/lib/fidortzu -name __pycache__ -prune -exec rm -rf {} +\n"


def entry(path, date, mode):
    info = tarfile.TarInfo(path)
    info.mtime, info.mode = date, mode
    info.uname = info.gname = "root"
    return info


def folders_of(paths):
    """Each folder that the paths lie in."""
    parents = {os.path.dirname(path) for path in paths} - {""}
    return parents | folders_of(parents) if parents else set()


def tar_gz(tree, date):
    """The tree as a compressed tar archive; it must have no links."""
    packed = io.BytesIO()
    with gzip.GzipFile(filename="", mode="wb", fileobj=packed, mtime=date) as stream:
        with tarfile.open(fileobj=stream, mode="w", format=tarfile.USTAR_FORMAT) as archive:
            for path in sorted(folders_of(tree.files) | set(tree.files)):
                archive.addfile(*member(tree, path, date))
    return packed.getvalue()


def member(tree, path, date):
    """A path of the tree as tarfile wants it: what is told of it, and its bytes as a stream."""
    if path not in tree.files:
        info = entry(path, date, 0o755)
        info.type = tarfile.DIRTYPE
        return info, None
    data, is_program = tree.files[path]
    info = entry(path, date, 0o755 if is_program else 0o644)
    info.size = len(data)
    return info, io.BytesIO(data)


def write_file(path, data, mode):
    os.makedirs(os.path.dirname(path), exist_ok=True)
    with open(path, "wb") as file:
        file.write(data)
    os.chmod(path, mode)


def write_link(path, target):
    os.makedirs(os.path.dirname(path), exist_ok=True)
    os.symlink(target, path)


def write_tree(tree, room, date):
    """Writes the tree into a folder, with the modes and times that it is to have."""
    for path, (data, is_program) in tree.files.items():
        write_file(os.path.join(room, path), data, 0o755 if is_program else 0o644)
    write_links(tree.links, room)
    settle(room, date)


def write_links(links, room):
    """Writes links that lead from their folder to their targets, wherever the tree stands."""
    for path, target in links.items():
        write_link(os.path.join(room, path), os.path.relpath(target, os.path.dirname(path)))


def settle(room, date):
    """Gives all in a folder, and itself, the time; and each folder its mode, whatever the process gives a new one."""
    for folder, _, names in os.walk(room, topdown=False):
        os.chmod(folder, 0o755)
        set_times([os.path.join(folder, name) for name in names] + [folder], date)


def set_times(paths, date):
    for path in paths:
        os.utime(path, (date, date), follow_symlinks=False)


def control_of(tree, origin):
    size = sum(-(-len(data) // 1024) for data, _ in tree.files.values())
    return (CONTROL % dict(vars(origin), size=size)).encode("utf-8")


def deb(tree, origin, path):
    """Writes the tree as a Debian package, by dpkg-deb; raises Refused and OSError."""
    with tempfile.TemporaryDirectory() as room:
        tree.put("DEBIAN/control", control_of(tree, origin))
        tree.put("DEBIAN/prerm", REMOVAL, is_program=True)
        write_tree(tree, room, origin.date)
        command = ["dpkg-deb", "--root-owner-group", "-Zgzip", "--build", room, path]
        environment = dict(os.environ, SOURCE_DATE_EPOCH=str(origin.date))
        done = subprocess.run(command, env=environment, stdout=subprocess.DEVNULL, stderr=subprocess.PIPE, text=True, check=False)
    if done.returncode:
        raise Refused("dpkg-deb made no package: %s" % " ".join(done.stderr.split()))
