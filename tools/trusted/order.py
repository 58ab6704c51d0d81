"""The order in which files are read: crate by crate, each behind those that it stands on."""

import os
import re


def crate_order(top, last):
    """The crates that this one stands on, each behind those that it stands on itself, and then the crate."""
    below = {}
    with open(os.path.join(top, "crates.txt"), encoding="utf-8") as file:
        for line in file:
            if not line.startswith("#"):
                name, _, words = line.partition(":")
                below[name.strip()] = words.split()
    order = []

    def add(name):
        if name in below and name not in order:
            for other in below[name]:
                add(other)
            order.append(name)

    add(last)
    return order


def spec_order(top, crate):
    """The files of a crate's specs, in the order of its list of them."""
    folder = os.path.join("crates", crate, "specs")
    with open(os.path.join(top, folder, "Lib.antt"), encoding="utf-8") as file:
        return [os.path.join(folder, name + ".antt") for name in re.findall(r"^pub mod (\w+)", file.read(), re.MULTILINE)]


def crate_of(path):
    return path.split(os.sep)[1]


class Order:
    """The files of the definitions that are reached, in order, with their definitions."""

    def __init__(self, top, reach, last):
        self.uses = reach.uses
        self.items = {}
        for item in reach.reached:
            self.items.setdefault(item.path, []).append(item)
        for items in self.items.values():
            items.sort(key=lambda item: item.first)
        self.paths = [path for crate in crate_order(top, last) for path in self.in_crate(top, crate)]
        self.check()

    def in_crate(self, top, crate):
        """The crate's files: its specs as it lists them, and a source just before the first of them that speaks of it."""
        specs = [path for path in spec_order(top, crate) if path in self.items]
        sources = sorted(path for path in self.items if crate_of(path) == crate and path.endswith(".rt"))
        order = []
        for spec in specs:
            spoken = [path for path in sources if path not in order and self.speaks(spec, path)]
            order += spoken + [spec]
        return order + [path for path in sources if path not in order]

    def speaks(self, path, other):
        return any(used.path == other for item in self.items[path] for used in self.uses[id(item)])

    def check(self):
        """Each file stands behind those that it speaks of."""
        lost = set(self.items) - set(self.paths)
        if lost:
            raise ValueError("no place in the order: %s" % ", ".join(sorted(lost)))
        for at, path in enumerate(self.paths):
            for later in self.paths[at + 1 :]:
                if self.speaks(path, later):
                    raise ValueError("%s speaks of %s, which stands behind it" % (path, later))
