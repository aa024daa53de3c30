"""The definitions of crates/, and what a promise or a contract rests on: `Project.rests_on` gives the items that one reaches, each before what uses it."""
import glob
import os
import re
from functools import cached_property, lru_cache

from items import AnttFile, Item, RattleFile, indent_of


class Project:
    """All crates."""

    def __init__(self, root):
        self.root = root
        self.crates = self.read_crates()

    def read_crates(self):
        """The crates in the order of crates.txt, each after those that it stands on."""
        with open(os.path.join(self.root, "crates.txt"), encoding="utf8") as f:
            return [m[1] for m in re.finditer(r"^(\w+)(?: +staticlib)? *:", f.read(), re.M)]

    def paths(self, pattern):
        return sorted(os.path.relpath(p, self.root) for p in glob.glob(os.path.join(self.root, "crates", pattern), recursive=True))

    @lru_cache(maxsize=None)
    def file(self, path):
        if not os.path.isfile(os.path.join(self.root, path)):
            return None
        return (RattleFile if path.endswith(".rt") else AnttFile)(self, path)

    @lru_cache(maxsize=None)
    def module(self, name):
        """The file of a module: `Rattle.CRATE.specs.FILE`, `..specs.declared.[FILE.]TYPE[.TheVariants]` (the file of src/ that declares it); None for the library's."""
        found = re.match(r"Rattle\.(\w+)\.(specs|proofs)\.(.+)$", name)
        if not found:
            return None
        crate, folder, rest = found.groups()
        if rest.startswith("declared."):
            words = rest.removesuffix(".TheVariants").split(".")[1:]
            sources = [f"crates/{crate}/src/{words[0]}.rt"] if len(words) > 1 else [f"crates/{crate}/src/lib.rt", f"crates/{crate}/src/main.rt"]
            return next((f for f in map(self.file, sources) if f), None)
        return self.file(f"crates/{crate}/{folder}/{rest.replace('.', '/')}.antt")

    def rattle(self, crate, where, name):
        """What `where::name` is, written in a crate: a module of its own, or another crate."""
        for path in (f"crates/{crate}/src/{where}.rt", f"crates/{where}/src/lib.rt"):
            file = self.file(path)
            found = file and file.declared(name)
            if found:
                return found
        return None

    # ---- what a text rests on

    @lru_cache(maxsize=None)
    def needs(self, item):
        more = item.file.rattle_items(item) if isinstance(item.file, RattleFile) else []
        return item.needs + [i for i in more if i not in item.needs]

    @cached_property
    def ranks(self):
        """The place of each file in reading order: crate by crate; in a crate what its source declares, then each file of specs/ after those that it uses, then proofs/."""
        order = []
        for crate in self.crates:
            order += self.paths(f"{crate}/src/*.rt")
            for folder in ("specs", "proofs"):
                for path in self.paths(f"{crate}/{folder}/**/*.antt"):
                    self.after_its_own(path, order)
        return {path: k for k, path in enumerate(order)}

    def after_its_own(self, path, order):
        """A file, after those of its own folder that it uses."""
        if path in order:
            return
        names = self.file(path).names
        for module in sorted({m for m, _ in names.imports.values()} | set(names.aliases.values())):
            used = self.module(module)
            if used and used.path != path and os.path.dirname(used.path) == os.path.dirname(path):
                self.after_its_own(used.path, order)
        order.append(path)

    def reached(self, items):
        """All that these items name, and so on: {key: item}; themselves too."""
        out = {i.key: i for i in items}
        todo = list(items)
        while todo:
            for i in self.needs(todo.pop()):
                if i.key not in out:
                    out[i.key] = i
                    todo.append(i)
        return out

    def rests_on(self, item):
        """The items that one reaches, itself last, each after those that it uses."""
        reached = self.reached([item])
        del reached[item.key]
        order, done = [], set()
        for i in sorted(reached.values(), key=lambda i: (self.ranks[i.file.path], i.line)):
            self.after_its_needs(i, reached, done, order)
        return order + [item]

    def after_its_needs(self, item, reached, done, order):
        if item.key in done:
            return
        done.add(item.key)
        for i in self.needs(item):
            if i.key in reached and i.file is item.file:
                self.after_its_needs(i, reached, done, order)
        order.append(item)

    # ---- the promises

    @cached_property
    def contracts(self):
        """The public functions of the libraries, crate by crate."""
        libraries = [c for c in self.crates if not self.file(f"crates/{c}/src/main.rt")]
        files = [self.file(path) for c in libraries for path in self.paths(f"{c}/src/*.rt")]
        return [i for f in files for i in f.items if i.kind == "fn" and i.public]

    @cached_property
    def ghosts(self):
        """What the types and traits of the libraries say by ghost members."""
        files = [self.file(path) for c in self.crates for path in self.paths(f"{c}/src/*.rt")]
        return [i for f in files for i in f.items if i.kind == "ghost" or (i.kind == "struct" and "ghost " in "\n".join(i.text))]

    @cached_property
    def theorems(self):
        """The public theorems of proofs/ by name: {name: [item]}. Of each only the statement is kept."""
        out = {}
        for path in self.paths("*/proofs/*.antt"):
            for i in self.file(path).items:
                if i.kind == "definition" and i.public:
                    out.setdefault(i.name, []).append(i)
        return out

    @cached_property
    def promises(self):
        """The theorems that docs/TRUST.md has beside the demands, in the third column: `name`, .. or `name`, .. (`crate`), parts by `;`."""
        with open(os.path.join(self.root, "docs/TRUST.md"), encoding="utf8") as f:
            rows = [row.split(" | ") for row in f.read().split("\n") if row.startswith("|")]
        out = {}
        for part in ";".join(cells[2] for cells in rows if len(cells) == 3).split(";"):
            words = re.findall(r"`([^`]+)`", part)
            crate = words[-1] if words and words[-1] in self.crates else None
            for theorem in (t for word in words for t in self.theorems.get(word, [])):
                if crate in (None, theorem.file.crate):
                    out[theorem.key] = self.statement(theorem)
        return list(out.values())

    def statement(self, theorem):
        """A theorem without its proof, as an item."""
        out = Item(theorem.file, "definition", theorem.name, theorem.line)
        out.comment, out.blocks = theorem.comment, theorem.blocks
        base = indent_of(theorem.text[0])
        end = next((k for k, x in enumerate(theorem.text) if k and indent_of(x) == base), len(theorem.text))
        out.text = theorem.text[:end]
        return out
