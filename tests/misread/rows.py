"""Every row of docs/PAPER.md that names definitions has at least two misreadings: cases that edit one of the definitions that it names, or a file that it names without any.
A case whose edit stands where a definition is used says so by a line `rule: NAME`."""
import os
import re

from model.files import ROOT
from specs import Project

LEAST = 2
PROMISE = "a promise's statement, which has no code: cases/promises.txt weakens it"
CASES = "cases of the paper: what they compute is misread where it is defined"
WORDS = "words of a theorem alone"
# Rows that may have fewer, by how their phrase begins, and why.
LESS = {
    "**Demand 3**": PROMISE,
    "**L6.** Demand 3 now supposes": PROMISE,
    "**L6.** no datagram comes again": PROMISE,
    "**L9.** and nothing else stands there": PROMISE,
    "**L10.** Demand 3 reads": PROMISE,
    "**L12.**": PROMISE,
    "**Marked table**": CASES,
    "**L5.** Case m10": CASES,
    "**L10.** TILE at M 96": CASES,
    "**L10.** 5, 6, 9, 11 and 21": CASES,
    "**L13.** Reading it acknowledges": WORDS,
    "**L14.** The round trip": WORDS,
}


def rows():
    """The rows of docs/PAPER.md: the paper's phrase, and the (`crate/File`, `name`) that say it; `name` is nothing where the file alone is named."""
    with open(os.path.join(ROOT, "docs", "PAPER.md"), encoding="utf-8") as f:
        table = [line.rstrip("\n").strip("|").split(" | ") for line in f if line.startswith("| ")]
    for phrase, *rest in table:
        named, where = [], None
        for word in re.findall(r"`([^`]+)`", " | ".join(rest)):
            if re.fullmatch(r"\w+/\w+", word):
                where = word
                named.append((where, None))
            elif where:
                named = [n for n in named if n != (where, None)] + [(where, word)]
        if named:
            yield phrase.strip(), named


class Edited:
    """Which definitions a case edits."""

    def __init__(self):
        self.project = Project(ROOT)

    def of(self, case):
        """The (`crate/File`, `name`) of a case, and for each file (`crate/File`, None)."""
        got = set()
        for path, old, _ in case.specs:
            if "/specs/" not in path:
                continue
            file = self.project.file("crates/" + path)
            where = path.replace("/specs/", "/").removesuffix(".antt")
            got.add((where, None))
            text = "\n".join(file.lines)
            if old not in text:
                raise SystemExit(f"{case}: not in {path}: {old!r}")
            first = text[: text.index(old)].count("\n") + 1
            last = first + old.count("\n")
            ends = [i.line for i in file.items[1:]] + [len(file.lines) + 1]
            for item, end in zip(file.items, ends):
                if item.line <= last and first < end:
                    got |= {(where, name) for name in [item.name] + item.members + item.fields}
        return got


def counted(some):
    """For each row its phrase, what it names, and the cases that it has and that something holds."""
    edited = Edited()
    of = [(case, edited.of(case)) for case in some if case.held]
    for phrase, named in rows():
        names = {name for _, name in named}
        yield phrase, named, [case for case, edits in of if edits & set(named) or names & set(case.rules)]


def held(some):
    """Whether each row has its misreadings; says which has not."""
    few = [(phrase, named, mine) for phrase, named, mine in counted(some) if len(mine) < LEAST and not any(phrase.startswith(begins) for begins in LESS)]
    for phrase, named, mine in few:
        print(f"docs/PAPER.md, {phrase[:100]!r}: {len(mine)} misreadings of {', '.join(name or where for where, name in named)}")
    return not few
