"""Imported names that nothing uses, in src/, specs/ and proofs/.

A name is used where it stands as a word outside comments and `use` lines: alone, as the first word of a path, or, of an operator, by all its parts; a trait of Rattle by a method
of it. Not where it is only a field (`x.name`) or the label of a record. What a file passes on (`pub use`) is used, and what a must-fail edit of the file writes."""
import os
import re

import antt
import items

# a fault once the tree is free of them; until then they are counted
ENFORCED = True
USE_LINE = re.compile(r"^(?:unfoldable |pub |ghost )*use [^{\n]*(?:\{[^}]*\})?.*$", re.M)


# a trait is used where a method of it is called
METHODS = {"Read": "read", "Write": "write|write_all|flush", "Env": "arg|var|var_at"}


def labels(toks):
    """The places of tokens that are labels of a record or name an implicit argument: behind a brace or a `;`, before `=`."""
    return {k for k, t in enumerate(toks[:-1]) if k and toks[k + 1].text == "=" and toks[k - 1].text in ("{", ";")}


def words(text):
    """The words of a text that may be names, and the first words of its paths."""
    toks = antt.tokens(text)
    skip = labels(toks)
    return {t.parts[0] if t.kind == "path" else t.text for k, t in enumerate(toks) if t.kind in ("name", "path") and k not in skip}


def stands(name, used):
    """Whether a name is among the words that are used: itself, or all parts of an operator, also with the places of its arguments (`◌+ 1`)."""
    parts = items.operator_parts(name)
    return name in used or (bool(parts) and all(any(p == w or p == w.strip("◌") for w in used) for p in parts))


def edits(project, path):
    """What the must-fail edits of a crate write into a file of it, but for its `use` lines."""
    crate, inside = path.split("/")[1], path.split("/", 2)[2]
    out = []
    for edit in project.paths(f"{crate}/must-fail/*.edit"):
        file = None
        for line in open(os.path.join(project.root, edit), encoding="utf8"):
            key, _, rest = line.partition(": ")
            file = rest.strip() if key == "file" else file
            if key == "new" and file == inside and not re.match(r"(pub |ghost )*use ", rest):
                out.append(rest)
    return "\n".join(out)


def unused(project, path):
    """The names that a file brings in and does not use; of `use MODULE as ALIAS` the alias."""
    file = project.file(path)
    text = USE_LINE.sub("", "\n".join(file.lines))
    more = edits(project, path)
    if path.endswith(".rt"):
        ghosts = [part for ghost in items.GHOST.findall(text + "\n" + more) for part in ghost]
        clauses = words("\n".join(items.CLAUSE.findall(text + "\n" + more) + ghosts))
        code = set(re.findall(r"\w+", re.sub(r"//.*", "", items.CLAUSE.sub("", text) + more)))
        out = [x for x in file.types if x not in code and x not in file.passed_on and not (x in METHODS and re.search(rf"\.(?:{METHODS[x]})\(", text))]
    else:
        clauses = words(text + "\n" + more)
        out = []
    names = file.names
    through = {m.split(".")[0] for m, _ in names.imports.values()}
    # a place of a proof, brought in from its Goals, is read as a field: (goal.at.returns c).After-open
    places = {x for x, (m, _) in names.imports.items() if m.endswith(".Goals") and f").{x}" in text}
    out += [x for x in names.imports if x not in names.passed_on and x not in places and not stands(x, clauses)]
    return out + [x for x in names.aliases if x not in clauses and x not in through]


def left(project):
    """{file: the names that it does not use}, of those with any."""
    paths = [p for pattern in ("*/src/*.rt", "*/specs/*.antt", "*/proofs/**/*.antt") for p in project.paths(pattern)]
    found = {p: unused(project, p) for p in paths}
    return {p: names for p, names in found.items() if names}


def check(faults, project):
    found = left(project)
    for path, names in found.items() if ENFORCED else ():
        faults.rule(False, f"{path} brings in what it does not use: {' '.join(names)}")
    if found and not ENFORCED:
        faults.note(f"{sum(map(len, found.values()))} imported names that nothing uses, in {len(found)} files")
    faults.rule(True, "")
