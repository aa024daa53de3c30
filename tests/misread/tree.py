"""The theory tree: the crates without any function. Types, constants, definitions and theorem modules stay; of the theorem modules only what a theorem that the pages name, or a
computed case, rests on. What such a crate refuses is refused by a theorem or by a case, and not because the code is other than its contract.

A crate of it is checked over the proved libraries, crates/NAME/out/rlib, so that only the crates from a changed definition up to the one that may refuse it are checked."""
import os
import re
import shutil
import subprocess

from items import indent_of
from specs import Project

# Crates whose theorems tie definitions to the words of the code: a definition is not held by them. Their definitions stay, and what the theorems of others rest on.
BRIDGES = set("memory memory_places held_bits fragment_fit slots slot_turns receiver_state verdict receiver open_and_payload receiver_laws pit_marks pit_payloads count stretch host_count".split())
# Crates of functions alone.
CODE = set("checksum lmcp_check lmcp_reader lmcp_size lmcp_writer host host_append host_state host_receiver host_flight host_index host_index_file host_season host_pits host_marks host_acks host_gauge host_messages host_state_c host_receiver_c host_index_c host_count_c".split())
# Modules of computed cases.
CASES = set("Worked Works Answered Computed Marks Wide Needed StrangersWork Shown StepCases".split())
# Theorems that the pages name by one word.
WORDS = set("worked marked demand3 strangers forgotten course longest shortest larger takes counted sound limited".split())
ERROR = re.compile(r"(?m)^(\S+?\.(?:antt|rt)):(\d+):(\d+): error(?:\[[\w-]+\])?: (.*)$")
FOLLOWS = re.compile(r"was not admitted|cannot be checked|did not elaborate")


def without_functions(text):
    """A source file without its functions, methods and traits, and without the imports that only these used."""
    kept, lines, k, ghosts = [], text.split("\n"), 0, []
    while k < len(lines):
        line, wide = lines[k], lines[k]
        # a `use` that goes over lines, as one
        while re.match(r"(pub |ghost )*use ", wide) and ";" not in wide:
            k += 1
            wide += " " + lines[k].strip()
        if wide.startswith("ghost use "):
            ghosts.append(wide)
        if re.match(r'(pub )?(extern "C" )?fn |(pub )?(impl|trait)\b', line):
            while not (lines[k].startswith("}") or re.match(r"\S.*\{.*\}$", lines[k])):
                k += 1
        elif not re.match(r"(//|#\[(?!derive)|ghost use )", line):
            kept.append(wide)
        k += 1
    body = "\n".join(x for x in kept if not re.match(r"(pub )?use ", x))
    out = []
    # what a ghost field of a type names
    facts = "\n".join(x for x in kept if re.match(r"\s+(pub )?ghost ", x))
    for line in ghosts:
        found = re.match(r"(ghost use [^{]+)\{([^}]*)\};", line)
        names = [x.strip() for x in found[2].split(",")] if found else []
        names = [x for x in names if any(part in facts for part in [x.replace("◌", "").strip()])]
        if facts and names:
            out.append(f"{found[1]}{{{', '.join(names)}}};")
    for line in kept:
        use = re.match(r"(pub )?use ([\w:]+?)(?:::\{([^{}]*)\}|(?: as (\w+))?);", line)
        if use:
            path, _, last = use[2].rpartition("::")
            all_names = [x.strip() for x in use[3].split(",") if x.strip()] if use[3] is not None else [last + (f" as {use[4]}" if use[4] else "")]
            names = [x for x in all_names if stays(x.split(" as ")[-1], use[1], body)]
            path = use[2] if use[3] is not None else path
            line = f"{use[1] or ''}use {path}::{{{', '.join(names)}}};" if len(names) > 1 else f"{use[1] or ''}use {path}::{names[0]};" if names else None
        if line is not None:
            out.append(line)
    return re.sub(r"\n{3,}", "\n\n", "\n".join(out).lstrip("\n"))


def stays(name, passed_on, body):
    """Whether an import is of use where there are no functions: a type that is passed on, or a name that stands in the rest."""
    return name[0].isupper() and not name.isupper() if passed_on else re.search(rf"\b{name}\b", body)


def is_theory(project, crate):
    return crate not in CODE and not os.path.exists(os.path.join(project.root, "crates", crate, "src", "main.rt"))


class Chunk:
    """A declaration of a theorem module, with what stands in it where it is a `module _` block; `fixed` where it always stays."""

    def __init__(self, name, lines, fixed=False):
        self.name, self.lines, self.fixed = name, lines, fixed
        self.inner, self.heads, self.module = [], [], None
        self.kept = fixed

    def words(self):
        return set(re.findall(r"[^\s(){};,.@]+", "\n".join(line for chunk in [self] + self.heads for line in chunk.lines)))

    def written(self):
        if not self.inner:
            return self.lines if self.kept else []
        inner = [line for chunk in self.inner for line in chunk.written()]
        return self.lines + inner if any(line.strip() and not line.lstrip().startswith("--") for line in inner) else []


FIXED = re.compile(r"(pub )?((unfoldable|abbrev|opaque) )*(pub )?(record|data|use|mod|infixl?r?|ghost)\b|--|(pub )?(abbrev|unfoldable|opaque) ")
SIGNATURE = re.compile(r"(?:pub )?(\S+)(?: \{[^}:]*\})? :(?: |$)")


def chunks(lines, level=0):
    """The declarations at a level of indentation."""
    got, k = [], 0
    while k < len(lines):
        line, text = lines[k], lines[k].strip()
        k += 1
        found = SIGNATURE.match(text)
        if indent_of(line) == level and text.startswith("module _"):
            head = [line]
            while not head[-1].split("--")[0].rstrip().endswith("where"):
                head.append(lines[k])
                k += 1
            begin = k
            while k < len(lines) and (not lines[k].strip() or indent_of(lines[k]) > level):
                k += 1
            got.append(Chunk("", head))
            got[-1].inner = chunks(lines[begin:k], level + 2) or [Chunk("", [], True)]
        elif indent_of(line) == level and text and FIXED.match(text):
            got.append(Chunk("", [line], True))
        elif indent_of(line) == level and found and not (got and got[-1].name == found[1]):
            got.append(Chunk(found[1], [line]))
        elif got and not got[-1].inner:
            got[-1].lines.append(line)
        else:
            got.append(Chunk("", [line], True))
    return got


class Module:
    """A theorem module."""

    def __init__(self, path, text):
        self.path, self.crate, self.name = path, path.split("/")[1], os.path.basename(path)[:-5]
        self.chunks = chunks(text.split("\n"))
        self.imports = set(re.findall(r"(?m)^(?:unfoldable |pub )*use Rattle\.(\w+)\.proofs\.(\w+)", text))
        self.by_name = {}
        self.settle(self.chunks, [])

    def settle(self, some, heads):
        for chunk in some:
            chunk.module, chunk.heads = self, heads
            if chunk.name:
                self.by_name.setdefault(chunk.name, []).append(chunk)
            self.settle(chunk.inner, heads + [chunk])

    def all(self, some=None):
        for chunk in self.chunks if some is None else some:
            yield chunk
            yield from self.all(chunk.inner)


class Tree:
    """The theory tree of a repository, written to a folder."""

    def __init__(self, root, out):
        self.project, self.out = Project(root), out
        self.crates = [c for c in self.project.crates if is_theory(self.project, c)]
        self.modules = {}
        for crate in self.crates:
            for path in self.project.paths(f"{crate}/proofs/*.antt"):
                if not path.endswith("/Lib.antt"):
                    self.modules[crate, os.path.basename(path)[:-5]] = Module(path, self.text(path))
        self.keep()
        self.write()

    def text(self, path):
        with open(os.path.join(self.project.root, path), encoding="utf-8") as f:
            return f.read()

    def named(self):
        """What the pages name between backquotes, but for the one that lists what the port renamed: it has private lemmas too."""
        text = "".join(self.text(f"docs/{name}") for name in sorted(os.listdir(os.path.join(self.project.root, "docs"))) if name.endswith(".md") and name != "PORT.md")
        return {x for x in re.findall(r"`([^`\s]+)`", text) if "-" in x or "_" in x or x in WORDS}

    def keep(self):
        """Marks what named theorems and computed cases rest on, those too."""
        named, todo = self.named(), []
        for module in self.modules.values():
            for chunk in module.all():
                root = chunk.name and module.crate not in BRIDGES and (chunk.name in named or (module.name in CASES and chunk.lines[0].lstrip().startswith("pub ")))
                if root or (chunk.fixed and not re.match(r"\s*((unfoldable|pub) )*use |\s*--", "".join(chunk.lines[:1]))):
                    chunk.kept = True
                    todo.append(chunk)
        while todo:
            chunk = todo.pop()
            words = chunk.words()
            for module in [chunk.module] + [self.modules[key] for key in sorted(chunk.module.imports) if key in self.modules]:
                for other in [c for word in words for c in module.by_name.get(word, []) if not c.kept]:
                    other.kept = True
                    todo.append(other)

    def write(self):
        for crate in self.crates:
            for path in self.project.paths(f"{crate}/src/*.rt"):
                self.put(path, without_functions(self.text(path)))
            for path in self.project.paths(f"{crate}/specs/*.antt"):
                self.put(path, self.text(path))
            for module in self.modules.values():
                if module.crate == crate:
                    text = "\n".join(line for chunk in module.chunks for line in chunk.written()) + "\n"
                    self.put(module.path, re.sub(r"(?m)^((?:unfoldable |pub )*use Rattle\.(\w+)\.proofs\.(\w+))\.\{([^}]*)\}\n", self.use, text))
            if os.path.exists(os.path.join(self.project.root, "crates", crate, "proofs", "Lib.antt")):
                self.put(f"crates/{crate}/proofs/Lib.antt", self.text(f"crates/{crate}/proofs/Lib.antt"))

    def use(self, found):
        """A `use` of a theorem module without the names that are gone."""
        module = self.modules.get((found[2], found[3]))
        stays = []
        for name in [x.strip() for x in found[4].split(",")]:
            there = module.by_name.get(name.split()[0]) if module else None
            if there is None or any(c.kept for c in there):
                stays.append(name)
        return f"{found[1]}.{{{', '.join(stays)}}}\n" if stays else ""

    def put(self, path, text):
        full = os.path.join(self.out, path)
        os.makedirs(os.path.dirname(full), exist_ok=True)
        with open(full, "w", encoding="utf-8") as f:
            f.write(text)


class Refusal:
    """Where a crate of the theory tree is refused: its first error that does not only follow from another."""

    def __init__(self, crate, said):
        self.crate, self.said = crate, said
        self.places = []
        for m in ERROR.finditer(said):
            if not FOLLOWS.search(m[4]):
                name = re.match(r"`([^`]+)`: (.*)", m[4])
                self.places.append((re.sub(r".*/crates/", "", m[1]), int(m[2]), name[1] if name else "", (name[2] if name else m[4])[:300]))

    @property
    def module(self):
        return os.path.basename(self.places[0][0])[:-5] if self.places else ""

    @property
    def kind(self):
        """case, theorem, or nothing where a definition itself does not stand any more."""
        if not self.places or "/proofs/" not in self.places[0][0]:
            return ""
        return "case" if self.module in CASES else "theorem"

    def __str__(self):
        path, line, name, message = self.places[0] if self.places else ("", 0, "", self.said[-300:])
        return f"{path}:{line} `{name}`: {message}"


class Theory:
    """Definitions with an edit, checked in the theory tree."""

    def __init__(self, root, work, kit):
        self.root, self.work, self.kit = root, work, kit
        self.crates = kit.lines(os.path.join(root, "crates.txt"))
        self.tree = Tree(root, os.path.join(work, "theory"))

    def above(self, changed):
        """The crates of the tree that stand on these, themselves first, in order."""
        got = []
        for crate in self.tree.crates:
            if crate in changed or any(x in got for x in self.crates[crate]):
                got.append(crate)
        return got

    def below(self, crate):
        got, todo = set(), [crate]
        while todo:
            name = todo.pop()
            if name not in got:
                got.add(name)
                todo += [x for x in self.crates[name] if x in self.crates]
        return got

    def way(self, changed, to):
        """From the changed crates up to others: those that must be checked again on the way."""
        below = set().union(*map(self.below, to))
        return [c for c in self.above(changed) if c in below]

    def build(self, tree, crate, rlib):
        """Checks a crate of a tree over the libraries of a folder, and puts its own there."""
        file = os.path.join(tree, "crates", crate, "src", "lib.rt")
        words = [os.path.join(self.kit.home, "bin", "rattle"), "build", "--crate-name", crate, file, "--extern", f"std={self.kit.home}/rlibs/std.rlib"]
        for name in self.crates[crate]:
            if name in self.tree.crates:
                words += ["--extern", f"{name}={rlib}/{name}.rlib"]
        words += ["-L", f"dependency={rlib}", "-L", f"dependency={self.kit.home}/rlibs", "--antt-project", os.path.join(self.kit.home, "rattle", "logic", "antt-project.json")]
        words += ["--logic-built", os.path.join(self.kit.home, "logic_built"), "-o", os.path.join(rlib, crate + ".rlib")]
        done = subprocess.run(words, capture_output=True, text=True)
        return done.returncode, done.stdout + done.stderr

    def libraries(self, again):
        """A folder with the proved libraries, but for those that are checked again."""
        rlib = os.path.join(self.work, "rlib")
        shutil.rmtree(rlib, ignore_errors=True)
        os.makedirs(rlib)
        for name in self.crates:
            proved = os.path.join(os.path.abspath(self.root), "crates", name, "out", "rlib", name + ".rlib")
            if name not in again and os.path.isdir(proved):
                os.symlink(proved, os.path.join(rlib, name + ".rlib"))
        return rlib

    def tried(self, edits, applied, to):
        """The first refusal of a definition's edit on the way up to some crates; None where nothing refuses it."""
        changed = sorted({e[0].split("/")[0] for e in edits})
        again = self.above(changed)
        way = self.way(changed, to)
        tree = os.path.join(self.work, "misread")
        shutil.rmtree(tree, ignore_errors=True)
        for crate in way:
            shutil.copytree(os.path.join(self.tree.out, "crates", crate), os.path.join(tree, "crates", crate))
        fault = applied(self.tree.out, tree, edits)
        if fault:
            raise SystemExit(fault)
        rlib = self.libraries(again)
        for crate in way:
            status, said = self.build(tree, crate, rlib)
            if status:
                return Refusal(crate, said)
        return None
