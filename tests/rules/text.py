"""How definitions and contracts are written: few arguments, private definitions apart, rules that read as the paper's, words as strings, refusals as bare numbers."""
import os
import re

import antt
import items
import pages
from faults import bare, read

MOST = 8  # arguments, and fields in a row
# ---- the tables of exceptions: each is to be mended, and then goes from here
# clauses and definitions with more arguments: crate and name
OVER = set()
# files of specs/ with definitions that nothing public reaches
NOT_INSIDE = set()
# the most characters of a line
LONGEST = {"src": 200, "specs": 200, "proofs": 300}
OPERATORS = set("→ × ≡ ≢ λ ≤ < + * : ∷ ++ = == ⊎ - / % ^ && || +ℤ -ℤ *ℤ ≤ℤ <ℤ ⇒ when else if then in let".split())
# a word that hands on the number of a refusal
REFUSES = r"(?:\w+\.)?(?:\w*[rR]efus\w*|bad|broken|no_report|Unread|Unwritten)"
# the pages that name theorems
PAGES = ("CONTRACTS", "TRUST", "COUNT", "ORDER-OF-ARRIVAL")


# ---- arguments


def names_in(group):
    """How many explicit names a bracket binds; 0 where it binds none."""
    colon = antt.place(group.nodes, ":")
    return colon if group.bracket == "(" and colon > 0 and all(antt.is_name(x) for x in group.nodes[:colon]) else 0


def explicit(nodes):
    """How many explicit arguments a type takes."""
    count = 0
    for part in antt.split(nodes, {"→"})[:-1]:
        binders = [g for g in part if isinstance(g, antt.Group) and antt.place(g.nodes, ":") > 0]
        count += sum(map(names_in, binders)) if len(binders) == len(part) else 1
    return count


def arguments(item):
    """How many explicit arguments a definition of specs/ takes."""
    lines = [x for x in item.text if not x.lstrip().startswith("infix")]
    if item.kind == "definition":
        end = next((k for k, x in enumerate(lines) if k and items.indent_of(x) == items.indent_of(lines[0])), len(lines))
        nodes = antt.tree(antt.tokens("\n".join(lines[:end])))
        return explicit(nodes[antt.place(nodes, ":") + 1 :])
    nodes = antt.tree(antt.tokens(lines[0]))
    colon = antt.place(nodes, ":")
    return sum(names_in(g) for g in nodes[:colon] if isinstance(g, antt.Group)) + explicit(nodes[colon + 1 : antt.place(nodes, "where")])


def applications(nodes):
    """What is applied in a clause, and to how many arguments; a bracket is one, and what stands in it is counted too."""
    run = []
    for n in [*nodes, antt.Token("sep", ";")]:
        if isinstance(n, antt.Group):
            yield from applications(n.nodes)
        if isinstance(n, antt.Token) and (n.kind in ("stop", "sep") or n.text in OPERATORS):
            if run and antt.is_name(run[0]):
                yield run[0].text, sum(1 for x in run[1:] if isinstance(x, antt.Group) or x.kind != "field")
            run = []
        else:
            run.append(n)


def few_arguments(faults, project):
    """At most eight arguments in a clause of src/, and in a definition of specs/."""
    met = set()
    for path in project.paths("*/src/*.rt"):
        for item in (i for i in project.file(path).items if i.kind == "fn"):
            for clause in items.CLAUSE.findall("\n".join(item.text)):
                for name, count in applications(antt.tree(antt.tokens(clause))):
                    over(faults, met, item, f"{item.file.crate} {name}", count)
    for path in project.paths("*/specs/*.antt"):
        for item in project.file(path).items:
            over(faults, met, item, f"{item.file.crate} {item.name}", arguments(item))
    faults.table(OVER, met, "clauses and definitions with many arguments")


def over(faults, met, item, name, count):
    if count > MOST:
        met.add(name)
    faults.rule(count <= MOST or name in OVER, f"{item}: {name} has {count} arguments, more than {MOST}")


# ---- what need not be believed


def crates_in(project, text):
    """The crates that a text names: `crate`, or by a file of it (`crate/File`, crates/crate/..)."""
    return {w for w in re.findall(r"(?:`|\bcrates/)(\w+)(?=[`/])|\b(\w+)/\w+", text) for w in w if w in project.crates}


def named_on(project, page):
    """The public theorems that a page names where it names their crate: in that row or paragraph, in the heading above it, or at the page's head."""
    head, *parts = re.split(r"^## ", read(f"docs/{page}.md"), flags=re.M)
    for part in parts:
        heading, _, text = part.partition("\n")
        above = crates_in(project, head) | {w for w in re.findall(r"\w+", heading) if w in project.crates}
        for told in re.split(r"\n(?=\||\n)", text):
            crates = above | crates_in(project, told)
            for word in re.findall(r"`([^`\s]+)`", told):
                yield from (i for i in project.theorems.get(word, []) if i.file.crate in crates)


def told_of(project):
    """What the pages promise: the contracts, the theorems that they name, and of a program the definitions that its section of CONTRACTS names."""
    out = project.contracts + [project.statement(i) for page in PAGES for i in named_on(project, page)]
    for crates, text in pages.sections(read("docs/CONTRACTS.md")):
        files = [project.file(p) for c in crates if os.path.exists(f"crates/{c}/src/main.rt") for p in project.paths(f"{c}/specs/*.antt")]
        out += [f.by_name[w] for f in files for w in set(re.findall(r"`([^`\s]+)`", text)) if w in f.by_name]
    return out


def unreached(project):
    """The definitions of specs/ that nothing public reaches, outside Inside files and worked cases: {crate/File: names}."""
    reached = project.reached(told_of(project) + project.ghosts)
    out = {}
    for path in project.paths("*/specs/*.antt"):
        name = os.path.basename(path)
        left = [i.name for i in project.file(path).items if i.key not in reached]
        if left and not name.startswith("Inside") and "Worked" not in name:
            out[f"{path.split('/')[1]}/{name[:-5]}"] = left
    return out


def inside(faults, project):
    """What only private contracts use stands in files Inside*, and nothing that is promised rests on these."""
    found = unreached(project)
    for file, names in found.items():
        faults.rule(file in NOT_INSIDE, f"{file}: nothing public reaches {' '.join(names)}: such definitions stand in a file Inside*")
    faults.table(NOT_INSIDE, found, "files that hold definitions for private contracts")
    for item in project.reached(project.contracts + project.promises).values():
        faults.rule(not os.path.basename(item.file.path).startswith("Inside"), f"{item} stands in a file Inside*, and a contract or a promise rests on it")


# ---- how rules, words and refusals are written

CODE = r"(?:10|3[2-9]|[4-9]\d|1[01]\d|12[0-6])"
HEX = r"0x[2-7][0-9a-f]"
CODES = {"antt": rf"(?:\b(?:{CODE}|{HEX}) ∷ ){{4}}", "rt": rf"(?:\b(?:{CODE}|{HEX})(?:u8)?, *){{3}}(?:{CODE}|{HEX})\b"}
# the paper's own bytes, and raw logs, as they stand there
RAW = ("marked/specs/Table", "count_laws/specs/Worked")
# in worked cases the paper's words at least
SPELLED = {word: " ∷ ".join(f"0x{ord(c):x}" for c in word) for word in ("LMCP", "PITSURV", "TILE")}


def written(faults, project):
    """No line of specs/ begins with `(pick`: chains are `◌when◌else◌`. No list of four or more codes of characters in specs/ and src/; in worked cases, which have datagrams, none of the paper's words."""
    for path in project.paths("*/specs/*.antt") + project.paths("*/src/*.rt"):
        text = bare(path, read(path))
        if path.endswith(".antt"):
            faults.rule(not re.search(r"^\s*\(pick\b", text, re.M), f"{path}: a line begins with (pick: write the chain by ◌when◌else◌")
        if "Worked" not in path and not any(raw in path for raw in RAW):
            faults.rule(not re.search(CODES[path.rpartition(".")[2]], text), f"{path} has a list of codes of characters: write the word by ascii, or *b\"..\"")
        for word, codes in SPELLED.items() if not any(raw in path for raw in RAW) else ():
            faults.rule(codes not in text, f"{path} has {word} as a list of codes: write it by ascii")


def bare_refusals(faults, project):
    """A refusal is the bare number of the papers: no const and no definition is a name for one."""
    numbers = set(pages.refusal_numbers())
    for path in project.paths("*/src/*.rt"):
        text = bare(path, read(path))
        for name in re.findall(r"\bRefused?\((?:\w+::)*([A-Z][A-Z_0-9]*)\)", text):
            faults.rule(False, f"{path}: {name} is a name for a refusal: write its number")
        for name, value in re.findall(r"\bconst (\w+): u32 = (\d+);", text):
            faults.rule(value not in numbers, f"{path}: {name} is a name for refusal {value}: write its number")
    for path in project.paths("*/specs/*.antt"):
        file = project.file(path)
        for _, word in re.findall(rf"(?<![\w.-])({REFUSES}) ([^\s()]+)", bare(path, read(path))):
            for item in file.items_of(word) if not antt.is_number(word) else []:
                value = re.search(rf"^\s*{re.escape(item.name)} = (\d+)$", "\n".join(item.text), re.M)
                faults.rule(not value or value[1] not in numbers, f"{path}: {word} is a name for refusal {value and value[1]}: write its number")


def long_chains(faults, project):
    """Places are named, and not counted: no chain of more than eight fields, as `c.loop-1.if-a-b.true` has three, also one that goes over lines."""
    for path in project.paths("*/proofs/**/*.antt"):
        text = re.sub(r"(?m)^(?:(?:pub|unfoldable) )*use .*", "", bare(path, read(path)))
        longest = max((x.count(".") for x in re.findall(r"(?:\s*\.[^\W\d_][\w'-]*)+", text)), default=0)
        faults.rule(longest <= MOST, f"{path}: a chain of {longest} fields, more than {MOST}: name a place on the way by let")


def short_lines(faults, project):
    """No line over 200 characters, of a proof none over 300: a reader's window ends before that."""
    for path in project.paths("*/src/*.rt") + project.paths("*/specs/*.antt") + project.paths("*/proofs/**/*.antt"):
        most = LONGEST[path.split("/")[2]]
        longest = max(map(len, read(path).split("\n")))
        faults.rule(longest <= most, f"{path}: a line has {longest} characters, more than {most}")


def check(faults, project):
    few_arguments(faults, project)
    short_lines(faults, project)
    inside(faults, project)
    written(faults, project)
    bare_refusals(faults, project)
    long_chains(faults, project)
