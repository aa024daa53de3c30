"""The pages are true of the crates: docs/CONTRACTS.md, docs/PAPER.md, docs/TRUST.md, docs/REFUSALS.md."""
import glob
import os
import re

from contracts import ensures_of, needs
from faults import bare, read


def sections(page):
    """docs/CONTRACTS.md by its headings: (the crates that a heading names, its text)."""
    for part in re.split(r"^## ", page, flags=re.M)[1:]:
        heading, _, text = part.partition("\n")
        yield [w for w in re.findall(r"\w+", heading) if os.path.isdir(f"crates/{w}")], text


def rows(faults, project, contracts):
    """Each public function has its row, in the section of its crate; a row that cites `one-answer` is of an equation."""
    functions = {}
    for item in project.contracts:
        functions[item.file.crate, item.name] = item
    rowed = set()
    for crates, text in sections(contracts):
        for row in re.findall(r"^\| `[\w:]+`.*$", text, re.M):
            cells = [c.strip() for c in row.split(" | ")]
            for name in re.findall(r"`([\w:]+)`", cells[0]):
                # a method by its type's name and its own, or by its own
                found = [item for (c, called), item in functions.items() if c in crates and (called == name or called.endswith("::" + name))]
                rowed |= {(i.file.crate, i.name) for i in found}
                if len(cells) >= 3 and "`one-answer`" in cells[2]:
                    faults.rule(found, f"docs/CONTRACTS.md has {' '.join(crates)} {name}, which is no public function there")
                    for i in found:
                        faults.rule("≡" in ensures_of(i), f"docs/CONTRACTS.md: {i.file.crate} {name} cites one-answer, and its ensures is no equation")
    for crate, name in functions:
        faults.rule((crate, name) in rowed, f"docs/CONTRACTS.md has no row of {crate} {name}")


def in_order(faults, project, contracts):
    """CONTRACTS has each crate under one heading, in the order of crates.txt."""
    headed = [c for crates, _ in sections(contracts) for c in crates]
    for crate, wanted in zip(headed + ["no heading"] * len(project.crates), project.crates):
        if crate != wanted:
            return faults.rule(False, f"docs/CONTRACTS.md has {crate} where {wanted} belongs: its headings go as crates.txt does, each crate once")
    faults.rule(len(headed) == len(project.crates), f"docs/CONTRACTS.md has {' '.join(headed[len(project.crates):])} behind the last crate")


def edits(faults, contracts):
    """Every must-fail edit says in its first line which wrong answer it is, and stands in docs/CONTRACTS.md."""
    for path in sorted(glob.glob("crates/*/must-fail/*.edit")):
        faults.rule(read(path).startswith("# "), f"{path}: the first line does not say which wrong answer this is")
        faults.rule(f"`{os.path.basename(path)[:-5]}`" in contracts, f"{path} is not in docs/CONTRACTS.md")


def defines(text, name):
    n = re.escape(name)
    return re.search(rf"^\s*(?:pub |abbrev |unfoldable |record |data )*{n}(?: .*)? ?:(?:\s|$)", text, re.M) or re.search(
        rf"^\s*(?:pub )?use .*[{{ ,]{n}[}} ,]", text, re.M) or re.search(rf"^\s*pub (?:record|data) {n}\b", text, re.M)


def cited(faults, contracts, paper):
    """Every name that CONTRACTS and PAPER cite stands in the crates, outside comments; and where PAPER cites a file of specs/ (`crate/File` sets it for the names
    after it in a row), it is defined there."""
    sources = {path: bare(path, read(path)) for kind in ("antt", "rt") for path in glob.glob(f"crates/**/*.{kind}", recursive=True) if path.split("/")[2] != "out"}
    for row in paper.split("\n"):
        where = None
        for word in re.findall(r"`([^`]+)`", row.rpartition(" | ")[2]):
            if re.fullmatch(r"\w+/\w+", word):
                where = "crates/{}/specs/{}.antt".format(*word.split("/"))
                faults.rule(where in sources, f"docs/PAPER.md cites {word}, and there is no {where}")
                where = where if where in sources else None
            elif where and re.fullmatch(r"[\w′₀₁₂₃₄-]+", word):
                faults.rule(defines(sources[where], word), f"docs/PAPER.md cites {word} of {where}, which does not define it")
    wrong_answers = [os.path.basename(p)[:-5] for p in glob.glob("crates/*/must-fail/*.edit")]
    everything = "\n".join([*sources.values(), read("include/quartzmitten.h"), *wrong_answers])
    stands = set(re.findall(r"[\w′·-]+", everything)) | set(re.findall(r"\w+", everything)) | set(needs())
    for word in sorted(set(re.findall(r"`([\w′·-]+)`", contracts + paper))):
        faults.rule(word in stands, f"docs/CONTRACTS.md or PAPER.md cites {word}, which stands nowhere in crates/")


def believed(faults, project):
    """Every file of specs/ that a contract or a promise rests on stands in one of the tables of docs/TRUST.md: behind its crate (`crate` File, File), or behind some crates that share it."""
    tabled = set()
    for row in re.findall(r"^\|.*$", read("docs/TRUST.md"), re.M):
        for crates, text in re.findall(r"((?:`\w+`(?:, | and )?)+)([^`]*)", row):
            tabled |= {f"crates/{c}/specs/{file}.antt" for c in re.findall(r"\w+", crates) for file in re.findall(r"\b[A-Z]\w+", text)}
    for path in sorted({i.file.path for i in project.reached(project.contracts + project.promises).values() if "/specs/" in i.file.path}):
        faults.rule(path in tabled, f"docs/TRUST.md has {path} in no table, and a contract or a promise rests on it")


def refusal_numbers():
    return re.findall(r"^\| (\d+) \|", read("docs/REFUSALS.md"), re.M)


def refusals(faults):
    """docs/REFUSALS.md has each number once, and those of the C header."""
    numbers = refusal_numbers()
    faults.rule(numbers == sorted(set(numbers), key=int), "docs/REFUSALS.md has a number twice, or not in rising order")
    for number in sorted(set(re.findall(r"#define QM_\w+ (\d+) +/\*", read("include/quartzmitten.h"))), key=int):
        faults.rule(number in numbers, f"include/quartzmitten.h has refusal {number}, and docs/REFUSALS.md has not")


def check(faults, project):
    contracts, paper = read("docs/CONTRACTS.md"), read("docs/PAPER.md")
    rows(faults, project, contracts)
    in_order(faults, project, contracts)
    edits(faults, contracts)
    cited(faults, contracts, paper)
    believed(faults, project)
    refusals(faults)
