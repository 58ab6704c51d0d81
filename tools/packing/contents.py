"""What a package has: the program, the launcher, the tools that need no sources, manual pages, documents and examples."""

import gzip
import os

from common.inputs import bytes_of
from packing.origin import PROGRAM
from packing.pages import PAGES, file_name, text_of

# the files of tools/ that are for whoever has the sources, and what they alone go by; all others are in the package
FOR_SOURCES = (
    "bench",
    "check-tools",
    "checks",
    "compare-checkers",
    "damage",
    "deepest",
    "fail-memory",
    "failing-malloc.c",
    "manual",
    "package",
    "packing",
    "run-examples",
    "timing",
    "trusted",
    "trusted-reading",
)
WHOLE = ("lw", "README.md")
FOLDERS = ("docs", "examples")
NOTICE = "This is an installed program: its folder has no sources that could be built.\n"
LIBRARY = "usr/lib/fidortzu"
LINKS = {
    "usr/bin/lw": LIBRARY + "/lw",
    "usr/share/doc/fidortzu/README.md": LIBRARY + "/README.md",
    "usr/share/doc/fidortzu/docs": LIBRARY + "/docs",
    "usr/share/doc/fidortzu/examples": LIBRARY + "/examples",
    "usr/share/doc/fidortzu/editors": LIBRARY + "/tools/editors",
}
VIM = "tools/editors/vim/"


def is_packed(name):
    """Whether a file of the repository is in the package."""
    first, _, rest = name.partition("/")
    if first == "tools":
        return rest.partition("/")[0] not in FOR_SOURCES
    return name in WHOLE or first in FOLDERS


class Tree:
    """Files by their paths, each with its bytes and whether it is a program; and links by theirs, each with its target."""

    def __init__(self):
        self.files, self.links = {}, {}

    def put(self, path, data, is_program=False):
        self.files[path] = data, is_program

    def take(self, path, top):
        """Puts a file as it stands in the folder `top`; raises Unread."""
        source = os.path.join(top, path)
        self.put(path, bytes_of(source), os.access(source, os.X_OK))

    def below(self, folder):
        """The same within a folder."""
        tree = Tree()
        tree.files = {"%s/%s" % (folder, path): file for path, file in self.files.items()}
        return tree


def manual_pages(origin):
    """Each page's file name and section, with its text."""
    for page in PAGES:
        text = text_of(page, origin.top, origin.moment("%Y-%m-%d"), "fidortzu " + origin.version)
        yield file_name(page), page[1], text.encode("ascii")


def folder_tree(origin):
    """The folder of the package, which is laid out as that of the sources is; raises Refused and Unread."""
    tree = Tree()
    for name in filter(is_packed, origin.files()):
        tree.take(name, origin.top)
    tree.take(PROGRAM, origin.top)
    tree.put("VERSION", origin.lines.encode("utf-8"))
    tree.put("PACKAGE", NOTICE.encode("utf-8"))
    return tree


def loose_tree(origin):
    """The folder with the manual pages in it, for whoever unpacks it by hand; raises as folder_tree does, and Unknown."""
    tree = folder_tree(origin)
    for name, section, text in manual_pages(origin):
        tree.put("man/man%d/%s" % (section, name), text)
    return tree


def editor_links(names):
    """Links by which Vim finds those of the folder's files that are for it, with their targets."""
    ours = [name for name in names if name.startswith(VIM)]
    return {"usr/share/vim/vimfiles/" + name[len(VIM) :]: "%s/%s" % (LIBRARY, name) for name in ours}


def system_tree(origin):
    """The folder in its place in a system, with links to what is looked for elsewhere, and the manual pages in theirs; raises as
    loose_tree does.
    """
    folder = folder_tree(origin)
    tree = folder.below(LIBRARY)
    tree.links = dict(LINKS, **editor_links(folder.files))
    for name, section, text in manual_pages(origin):
        tree.put("usr/share/man/man%d/%s.gz" % (section, name), gzip.compress(text, mtime=0))
    return tree
