"""The files of crates/ cut into items, and which names each item uses.

An item is a definition, record or data type of an .antt file, or a struct, enum, const or function of an .rt file (of a function only its
comment, signature and clauses)."""
import os
import re
from dataclasses import dataclass
from functools import cached_property

import antt

MARKS = r"(?:(?:unfoldable|abbrev|pub|axiom) )*"
SIGNATURE = re.compile(rf"(?P<marks>{MARKS})(?P<name>[^\s(){{}}.;,@\"]+)(?P<levels> \{{[^}}:]*\}})? :(?: |$)")
TYPE = re.compile(rf"(?P<marks>{MARKS})(?P<kind>record|data) (?P<name>\S+)")
USE = re.compile(r"^(?:unfoldable )?(?P<pub>pub )?(?:ghost )?use (?P<module>[^\s{;]+?)(?:\.\{(?P<names>[^}]*)\}|(?: as (?P<alias>[^\s;]+))?);?\s*$")
# a clause may have a name, and a star where it speaks of memory
CLAUSE = re.compile(r"^\s*(?:requires|ensures)\*?(?: \w+)? \{(.*?)\}\s*$", re.M | re.S)
CLAUSES = r"\s*(?:requires|ensures)\*?(?: \w+)? \{"
RT_ITEM = re.compile(r'^(?P<pub>pub )?(?:extern "C" )?(?P<kind>struct|enum|const|fn) (?P<name>\w+)')
# a block of methods: of a type, or of a trait, whose ghost members are facts too
RT_BLOCK = re.compile(r"^(?:pub )?(?P<kind>impl|trait)\b(?:<[^{]*?>)?\s*(?P<first>[\w:]+)[^{]*?(?: for (?P<second>[\w:]+)[^{]*)?\{$")
GHOST = re.compile(r"^\s*(?:pub )?ghost \w+(?: =|:) \{(.*?)\}[;,]?(?: = \{(.*?)\};)?\s*$", re.M | re.S)
RT_USE = re.compile(r"^(?P<pub>pub )?use (?P<path>[\w:]+?)(?:::\{(?P<names>[^{}]*)\}|(?: as (?P<alias>\w+))?);")
# what the prelude of antt, which is open in every file, and a contract's own words give
PRELUDE = set("Unit tt ⊥ ¬ absurd Dec yes no IsProp IsSet refl result".split())
# what no text need define: the fields of lent memory and of a pair
LIBRARY_FIELDS = {"entry", "exit", "now", "old", "new", "ghost_name", "0", "1", "2", "3", "4"}


def indent_of(line):
    return len(line) - len(line.lstrip())


@dataclass(frozen=True)
class Block:
    """`module _ (..) where`, which binds for all that stands in it: the comment above it, and its own lines."""

    comment: tuple
    lines: tuple


class Item:
    """One definition with its comment, and the module block and the section that it stands in."""

    def __init__(self, file, kind, name, line):
        self.file, self.kind, self.name, self.line = file, kind, name, line
        self.public = False
        self.comment, self.text = [], []
        # the blocks around it, and the comment that heads its section
        self.blocks, self.section = (), None
        self.members, self.fields = [], []

    def __repr__(self):
        return f"{self.file.path}:{self.line}: {self.name}"

    @property
    def key(self):
        return (self.file.path, self.name)

    @cached_property
    def used(self):
        """The names of its text that it does not bind."""
        return self.file.used(self)

    @cached_property
    def needs(self):
        """The project's items that this one names."""
        found = {}
        for t in self.used.names:
            for item in self.file.items_of(t.text):
                found[item.key] = item
        for t in self.used.paths:
            for item in self.file.items_at(t.parts):
                found[item.key] = item
        found.pop(self.key, None)
        return list(found.values())


def operator_parts(name):
    """The words of an operator's name: `◌when◌else◌` gives when and else."""
    return [p for p in name.split("◌") if p] if "◌" in name else []


class Names:
    """What the `use` lines of a file bring."""

    def __init__(self):
        # name: (module, the name there); alias: module; and the names that the file passes on
        self.imports, self.aliases = {}, {}
        self.passed_on = set()
        # of a `use` that goes over lines, those so far
        self.begun = ""

    def read(self, line):
        """Takes a line in, if it is one of a `use`."""
        line = self.begun + line
        if re.match(r"(unfoldable |pub |ghost )*use ", line) and "{" in line and "}" not in line:
            self.begun = line
            return True
        self.begun = ""
        found = USE.match(line)
        if not found:
            return False
        module = found["module"]
        if found["names"] is not None:
            for entry in found["names"].split(","):
                words = entry.split()
                if words:
                    here = words[2] if len(words) == 3 else words[0]
                    self.imports[here] = (module, words[0])
                    if found["pub"]:
                        self.passed_on.add(here)
        else:
            self.aliases[found["alias"] or module.rpartition(".")[2]] = module
        return True


class File:
    """A file of crates/: its items by name, and its comment."""

    def __init__(self, project, path):
        self.project, self.path = project, path
        self.crate = path.split("/")[1]
        self.names = Names()
        self.items, self.by_name = [], {}
        self.head, self.fixities = [], {}
        with open(os.path.join(project.root, path), encoding="utf8") as f:
            self.lines = f.read().split("\n")

    def add(self, item):
        self.items.append(item)
        for name in [item.name] + item.members:
            self.by_name.setdefault(name, item)

    @cached_property
    def operators(self):
        """Which operators a word may be part of: {word: [operator]}."""
        out = {}
        for name in list(self.by_name) + list(self.names.imports):
            for part in operator_parts(name):
                out.setdefault(part, []).append(name)
        return out

    def spelled(self, word):
        """The names that a word of a text stands for here: itself, or the operators that it is part of."""
        if word in self.by_name or word in self.names.imports:
            return [word]
        return self.operators.get(word.strip("◌"), [])

    def item(self, name):
        """The project's item of a name that this file defines or passes on or brings in; None for the library's."""
        if name in self.by_name:
            return self.by_name[name]
        if name in self.names.imports:
            module, there = self.names.imports[name]
            file = self.project.module(module)
            return file and file.item(there)
        return None

    def items_of(self, word):
        return [i for i in map(self.item, self.spelled(word)) if i]

    def items_at(self, parts):
        """`alias.name`, or `name.field` written tight."""
        if parts[0] in self.names.aliases:
            file = self.project.module(self.names.aliases[parts[0]])
            item = file and file.item(parts[1])
            return [item] if item else []
        return self.items_of(parts[0])

    def of_library(self, parts):
        """Whether a path begins with a module or a name that the toolchain's library gives."""
        if parts[0] in self.names.aliases:
            return self.project.module(self.names.aliases[parts[0]]) is None
        return parts[0] in self.names.imports and self.item(parts[0]) is None

    def known(self, word):
        """Whether a word is a name here at all: the file's, imported, the prelude's."""
        return bool(self.spelled(word)) or word in PRELUDE

    def is_constructor(self, word):
        """In a pattern: a constructor of the project, or a name that the library gives (of which a pattern uses constructors only)."""
        for name in self.spelled(word):
            item = self.item(name)
            if item is None or self.is_member(item, name):
                return True
        return False

    def is_member(self, item, name):
        """Whether a name of this file is a constructor of the item, under that or another name."""
        there = name if name in self.by_name else self.names.imports[name][1]
        return there in item.members

    def scope(self):
        return antt.Scope(self.is_constructor)


class AnttFile(File):
    """An .antt file, cut into its items by its layout."""

    def __init__(self, project, path):
        super().__init__(project, path)
        # while it is read: the comment above the next line, the section's, the `module _` blocks around it, and the item that goes on
        self.comment, self.section, self.blocks, self.current = [], None, (), None
        for number, line in enumerate(self.lines, 1):
            self.read(number, line)
        for item in self.items:
            item.text = [*self.fixity_of(item), *item.text]

    def read(self, number, line):
        indent = indent_of(line)
        if self.blocks and not self.blocks[-1].lines[-1].endswith("where"):
            last = self.blocks[-1]
            self.blocks = self.blocks[:-1] + (Block(last.comment, last.lines + (line,)),)
        elif self.names.begun:
            self.names.read(line)
        elif not line.strip():
            self.empty(number)
        elif self.current and (indent > self.level or line.strip() == "}"):
            self.current.text.append(line)
        else:
            while indent < self.level:
                self.blocks = self.blocks[:-1]
            if line.lstrip().startswith("--"):
                self.comment, self.current = self.comment + [line], None
            elif self.names.read(line) or re.match(r"(pub )?mod ", line):
                self.head, self.comment = self.head or self.comment, []
            elif line.lstrip().startswith("module _"):
                self.blocks += (Block(tuple(self.comment), (line,)),)
                self.comment, self.current = [], None
            else:
                self.begin(line, number)

    @property
    def level(self):
        """How far items are indented here."""
        return 2 * len(self.blocks)

    def empty(self, number):
        """An empty line: a comment above it is the file's or a section's; an item ends unless its text goes on below."""
        if self.comment and not self.items and not self.head:
            self.head = self.comment
        elif self.comment:
            self.section = self.comment
        self.comment = []
        rest = next((x for x in self.lines[number:] if x.strip()), "")
        if indent_of(rest) <= self.level or rest.lstrip().startswith("--"):
            self.current = None

    def begin(self, line, number):
        """A line at the level of items: a fixity, a signature, a type, or a clause of the item before."""
        bare = line.lstrip()
        fixity = re.match(r"infix[lr]? \d+ (\S+)", bare)
        found = TYPE.match(bare) or SIGNATURE.match(bare)
        if fixity:
            self.fixities[fixity[1]] = line
            self.current = None
        elif found:
            item = Item(self, found.groupdict().get("kind") or "definition", found["name"], number)
            item.public = "pub" in found["marks"]
            item.comment, item.text = self.comment, [line]
            item.section, item.blocks = self.section, self.blocks
            self.add(item)
            self.comment, self.current = [], item
        elif self.current:
            self.current.text.append(line)

    def fixity_of(self, item):
        self.members_of(item)
        return [self.fixities[n] for n in [item.name] + item.members if n in self.fixities]

    def members_of(self, item):
        """The constructors of a data type, the fields of a record."""
        if item.kind == "definition":
            return
        for line in item.text[1:]:
            found = re.match(r"^\s+(?:pub )?((?:[^\s(){}.;,@\"→]+ )+): ?", line)
            if found and indent_of(line) == indent_of(item.text[0]) + 2 and not line.lstrip().startswith("--"):
                (item.members if item.kind == "data" else item.fields).extend(found[1].split())
        for name in item.members:
            self.by_name.setdefault(name, item)

    # ---- what an item uses

    def used(self, item):
        scope = self.scope()
        env = frozenset()
        for block in item.blocks:
            env = scope.binders(antt.tree(antt.tokens("\n".join(block.lines)))[2:-1], env)
        lines = [x for x in item.text if not re.match(r"\s*infix", x)]
        if item.kind == "definition":
            self.used_by_definition(scope, item, lines, env)
        else:
            self.used_by_type(scope, item, lines, env)
        return scope.used

    def used_by_definition(self, scope, item, lines, env):
        starts = [k for k, x in enumerate(lines) if indent_of(x) == indent_of(lines[0]) and x.strip() not in ("", "}")] + [len(lines)]
        signature = antt.tree(antt.tokens("\n".join(lines[: starts[1]])))
        colon = antt.place(signature, ":")
        levels = {t.text for n in signature[:colon] if isinstance(n, antt.Group) for t in n.nodes if antt.is_name(t)}
        scope.term(signature[colon + 1 :], env | levels)
        own = {item.name, *operator_parts(item.name)}
        for begin, end in zip(starts[1:], starts[2:]):
            nodes = antt.tree(antt.tokens("\n".join(lines[begin:end])))
            if antt.is_name(nodes[0], "unfolding"):
                scope.term(nodes[1:], env)
                continue
            equals = antt.place(nodes, "=")
            left = [n for n in nodes[:equals] if not (isinstance(n, antt.Token) and n.text in own)]
            scope.term(nodes[equals + 1 :], env | levels | scope.bind(left, env))

    def used_by_type(self, scope, item, lines, env):
        """Its parameters, then its members, each a name and a type; a record's earlier fields are bound in the later ones."""
        head = antt.tree(antt.tokens(lines[0]))
        where = antt.place(head, "where")
        env = scope.term(head[antt.place(head, item.name) + 1 : where], env)
        member = []
        for line in [*lines[1:], ""]:
            new = re.match(r"^\s+(?:pub )?(?:[^\s(){}.;,@\"→]+ )+: ?", line) or not line
            if new and member:
                env = self.used_by_member(scope, item, member, env)
                member = []
            if line and not line.lstrip().startswith("--"):
                member.append(line)

    def used_by_member(self, scope, item, lines, env):
        nodes = antt.tree(antt.tokens("\n".join(lines)))
        colon = antt.place(nodes, ":")
        scope.term(nodes[colon + 1 :], env)
        if item.kind == "record":
            env = env | {n.text for n in nodes[:colon] if antt.is_name(n)}
        return env


def self_named(line):
    """A method's own value, written as any other parameter."""
    line = re.sub(r"&('\w+ )?(mut )?self\b", r"self: &\1\2Self", line)
    return re.sub(r"(^\s*|\()(?:mut )?self(?=[,)])", r"\1self: Self", line)


def parameters(signature):
    """The parameters of a function, and what its clauses call its answer."""
    return {"result", *re.findall(r"(\w+):", signature)}


class RattleFile(File):
    """An .rt file: its declared types and consts, its functions by their signatures and clauses."""

    def __init__(self, project, path):
        super().__init__(project, path)
        # what `use` lines of Rattle bring: name: (crate or module, name), and which of them are passed on
        self.types, self.passed_on = {}, set()
        # apart from the types: a clause never means a function by its name
        self.functions = {}
        self.modules = [m[1] for m in (re.match(r"(?:pub )?mod (\w+);", x) for x in self.lines) if m]
        self.read()

    def read(self):
        comment = []
        number = 0
        while number < len(self.lines):
            line = self.lines[number]
            number += 1
            begun = line
            while re.match(r"(?:pub )?use ", begun) and ";" not in begun:
                begun += " " + self.lines[number].strip()
                number += 1
            rattle = RT_USE.match(begun)
            found = RT_ITEM.match(line)
            block = RT_BLOCK.match(line)
            if line.startswith("//"):
                comment.append(line)
                continue
            if line.startswith("#["):
                # an attribute may go over lines, and stands between the comment and its item
                while not self.lines[number - 1].rstrip().endswith("]"):
                    number += 1
                continue
            if rattle:
                words = rattle["path"].split("::")
                names = [words[-1] + (f" as {rattle['alias']}" if rattle["alias"] else "")] if rattle["names"] is None else [x.strip() for x in rattle["names"].split(",") if x.strip()]
                for name, _, alias in (x.partition(" as ") for x in names):
                    self.types[alias or name] = (words[0], name)
                    if rattle["pub"]:
                        self.passed_on.add(alias or name)
            elif found:
                number = self.begin(found, comment, number)
            elif block:
                number = self.block(block, comment, number)
            else:
                self.names.read(line)
            comment = []

    def block(self, found, comment, number):
        """The methods of a type, each an item by the type's name and its own; of a trait, and of a type's `impl` of one, the ghost members and clauses as one item."""
        end = number
        while self.lines[end] != "}":
            end += 1
        inside = [line[4:] for line in self.lines[number:end]]
        owner = (found["second"] or found["first"]).rpartition("::")[2]
        clauses = [f"    ensures {{ {part} }}" for ghost in GHOST.findall("\n".join(inside)) for part in ghost if part.strip()]
        clauses += [f"    ensures {{ {part} }}" for part in CLAUSE.findall("\n".join(inside))] if found["kind"] == "trait" or found["second"] else []
        if clauses:
            item = Item(self, "ghost", owner, number)
            item.public, item.comment, item.text = True, comment, [self.lines[number - 1].rstrip("{ "), *clauses]
            self.items.append(item)
        above = []
        for k, line in enumerate(inside) if found["kind"] == "impl" and not found["second"] else ():
            method = re.match(r"(pub )?fn (\w+)", line)
            if method:
                stop = next(i for i in range(k, len(inside)) if re.match(r"^(\{|\S.*\{|\S.*\{.*\})$", inside[i]))
                item = Item(self, "fn", f"{owner}::{method[2]}", number + k + 1)
                item.public, item.comment = bool(method[1]), above
                text = inside[k:stop] + [x for x in [inside[stop].partition("{")[0].rstrip()] if x]
                item.text = [self_named(x) if i == 0 or re.match(r"\s*(&|self,|mut self,)", x) else x for i, x in enumerate(text)]
                self.items.append(item)
                self.functions[item.name] = item
            above = above + [line] if line.startswith("//") else []
        return end + 1

    def begin(self, found, comment, number):
        item = Item(self, found["kind"], found["name"], number)
        item.public = bool(found["pub"])
        item.comment = comment
        end = number - 1
        if item.kind == "fn":
            # up to the brace of its body, which has a line of its own where there are clauses; a short body may end its line
            while not re.match(r"^(\{|\S.*\{|\S.*\{.*\})$", self.lines[end]):
                end += 1
            head, _, body = self.lines[end].partition("{")
            item.text = self.lines[number - 1 : end] + [x for x in [head.rstrip()] if x]
            while not body and not self.lines[end].startswith("}"):
                end += 1
            self.items.append(item)
            self.functions[item.name] = item
        else:
            while not re.search(r"^\}|;$", self.lines[end]) and not re.search(r"^\S.*\{.*\}$", self.lines[end]):
                end += 1
            item.text = self.lines[number - 1 : end + 1]
            self.members_of(item)
            self.add(item)
        return end + 1

    def members_of(self, item):
        body = re.sub(r"//.*", "", "\n".join(item.text[1:]))
        if item.kind == "enum":
            item.members = re.findall(r"^\s*(\w+)", body, re.M)
        elif item.kind == "struct":
            item.fields = re.findall(r"^\s*(?:pub )?(\w+):", body, re.M)

    def declared(self, name):
        """A type or const of Rattle by its name in this file."""
        if name in self.by_name:
            return self.by_name[name]
        if name in self.types:
            where, there = self.types[name]
            return self.project.rattle(self.crate, where, there)
        return None

    def used(self, item):
        """The types and consts of its text; of a function's clauses the names of antt."""
        scope = self.scope()
        text = "\n".join(item.text)
        for clause in CLAUSE.findall(text):
            scope.term(antt.tree(antt.tokens(clause)), frozenset(parameters(text)))
        return scope.used

    def rattle_items(self, item):
        text = re.sub(r"//.*", "", re.split(rf"^{CLAUSES}", "\n".join(item.text), flags=re.M)[0])
        out = []
        for path, name in re.findall(r"\b(?:(\w+)::)?([A-Z]\w*)\b", text):
            found = self.project.rattle(self.crate, path, name) if path else self.declared(name)
            if found and found is not item and found not in out:
                out.append(found)
        return out
