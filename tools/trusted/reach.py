"""Which definitions a contract reaches: through the names in its clauses, and from each definition through its own."""

import glob
import os
import re

from trusted.sources import DECLARED, Source
from trusted.specs import Reader

RUST_OWN = {"Self", "Result", "Ok", "Err"}


class Repository:
    """The files of the crates, read when they are asked for."""

    def __init__(self, top):
        self.top, self.files, self.crates = top, {}, {}

    def read(self, path):
        if path not in self.files:
            with open(os.path.join(self.top, path), encoding="utf-8") as file:
                text = file.read()
            self.files[path] = Source(path, text) if path.endswith(".rt") else Spec(path, text)
        return self.files[path]

    def declared_in(self, crate):
        """The types, traits and constants of a crate with the files that have them."""
        if crate not in self.crates:
            found = {}
            for path in sorted(glob.glob(os.path.join(self.top, "crates", crate, "src", "**", "*.rt"), recursive=True)):
                with open(path, encoding="utf-8") as file:
                    for line in file:
                        match = DECLARED.match(line)
                        if match:
                            found.setdefault(match.group(1), os.path.relpath(path, self.top))
            self.crates[crate] = found
        return self.crates[crate]

    def is_crate(self, name):
        return os.path.isdir(os.path.join(self.top, "crates", name))


class Spec:
    """A file of specs with an index of its names."""

    def __init__(self, path, text):
        reader = Reader(path, text).read()
        self.path, self.imports, self.definitions = path, reader.imports, reader.definitions
        self.index = {}
        # a definition or a constructor goes before a field of its name: a field stands behind a point
        for kind in ["fields", "constructors", "names"]:
            for item in self.definitions:
                self.index.update((name, item) for name in getattr(item, kind))
        self.constructors = {name for item in self.definitions for name in item.constructors}


class Kit:
    """A word of the kit's own."""

    def __init__(self, module, name):
        self.module, self.name = module, name


class Reach:
    """The definitions that are reached, and the kit's words among them."""

    def __init__(self, repository):
        self.repository, self.reached, self.kit, self.uses = repository, [], {}, {}

    def member(self, module, name):
        """What a module's name stands for, and whether it is a constructor."""
        path = module.split(".")
        if path[0] != "Rattle" or not self.repository.is_crate(path[1]):
            return Kit(module, name), True
        crate, rest = path[1], path[3:]
        if rest[0] == "declared":
            return self.declared(crate, rest[1:], name)
        spec = self.repository.read(os.path.join("crates", crate, "specs", *rest) + ".antt")
        if name not in spec.index:
            raise ValueError("%s has no %s" % (spec.path, name))
        return spec.index[name], name in spec.constructors

    def declared(self, crate, rest, name):
        """A declared type, one of its variants, or a constant."""
        is_variant = rest[-1] == "TheVariants"
        places = [word for word in rest if word[0].islower()]
        wanted = rest[len(places)] if is_variant or rest[-1] != "TheConstants" else name
        source = self.repository.read(os.path.join("crates", crate, "src", *places) + ".rt")
        item = source.definition(wanted)
        if item is None:
            raise ValueError("%s has no %s" % (source.path, wanted))
        return item, is_variant

    def rust_type(self, source, name):
        """A type that a source names: of the crate itself, or of one that a use line names."""
        own = source.path.split(os.sep)[1]
        crate = own if source.types.get(name, "crate") == "crate" else source.types[name]
        if name in RUST_OWN or not self.repository.is_crate(crate):
            return None
        path = self.repository.declared_in(crate).get(name)
        return self.repository.read(path).definition(name) if path else None

    def resolve(self, file, name, member):
        """What a mentioned name stands for, and whether it is a constructor; None where it is bound, or Rust's own."""
        if name in file.imports.modules and member:
            return self.member(file.imports.modules[name], member)
        if isinstance(file, Spec) and name in file.index:
            return file.index[name], name in file.constructors
        if name in file.imports.names:
            return self.member(*file.imports.names[name])
        if isinstance(file, Source) and re.match("[A-Z]", name):
            item = self.rust_type(file, name)
            return (item, False) if item else None
        return None

    def symbols(self, file, piece):
        """The kit's operators that stand in a piece."""
        for name, (module, own) in file.imports.names.items():
            if self.repository.is_crate(module.split(".")[1]):
                continue
            parts = [part for part in name.split("◌") if part]
            if "◌" in name and all(part in piece.symbols for part in parts):
                yield Kit(module, own)
            elif name in piece.symbols:
                yield Kit(module, own)

    def of_piece(self, file, piece):
        """What a piece mentions: on its left side constructors alone, which bind nothing."""
        bound = set()
        for name in sorted(piece.patterns):
            found = self.resolve(file, name, None)
            if found and found[1]:
                yield found[0]
            else:
                bound.add(name)
        for name, member in sorted(piece.mentions, key=str):
            found = None if name in bound else self.resolve(file, name, member)
            if found:
                yield found[0]
        yield from self.symbols(file, piece)

    def follow(self, item):
        """Adds what the definition reaches, and then the definition itself."""
        if id(item) in self.uses:
            return
        self.uses[id(item)] = uses = []
        file = self.repository.read(item.path)
        for piece in item.pieces:
            for found in list(self.of_piece(file, piece)):
                if isinstance(found, Kit):
                    self.kit.setdefault(found.module, set()).add(found.name)
                elif found is not item:
                    uses.append(found)
        uses += item.needs
        for found in uses:
            self.follow(found)
        self.reached.append(item)
