"""Crates, and what their public functions promise: nothing is asked (no requires), and the ensures speaks of the result and of each lent slice that may be
written, and says something of them."""
import glob
import os
import re

import antt
import items
from faults import bare, read

# A program's own memory that only passes through: the window onto its input, and what it works in, {crate function: what}. docs/CONTRACTS.md says each.
# The method of a trait that one public function calls, and that asks what this one gives it: {crate trait method}. docs/CONTRACTS.md says which.
ASKED = {"halving Halved test"}
PASSES = {"record_lines records": {"buf", "teller"}, "record_lines tell": {"buf", "teller"}, "log_lines tell": {"buf", "teller"}}
# what of the toolchain's library reaches the system, whose contracts are assumed; and the two streams, which any crate may hand on, and not read or write
SYSTEM = re.compile(r"\bHostRuntime\b|\bstd\s*::\s*(?:\{[^;]*\b)?(?:io|fs|env|time|process|thread|net|os|rt)\b")
STREAMS = re.compile(r"\bstd::io::(?:(?:Stdin|Stdout)\b|\{(?:Stdin|Stdout)(?:, (?:Stdin|Stdout))*\})")


def needs():
    """crates.txt: {crate: the crates that it stands on}; a static library has that word behind its name."""
    out = {}
    for line in read("crates.txt").split("\n"):
        name, colon, rest = line.split("#")[0].partition(":")
        if colon:
            out[name.split()[0]] = rest.split()
    return out


def crates(faults, project):
    """Every crate is listed, every listed crate is there, none stands on the toolchain's libc, io and os, and only `stream`, `output` and the programs on what is assumed: what its
    library says of the system. The others may hand its two streams on."""
    listed = needs()
    for crate in sorted(os.listdir("crates")):
        faults.rule(crate in listed, f"crates/{crate} is not listed in crates.txt")
    for crate, on in listed.items():
        faults.rule(os.path.isdir(f"crates/{crate}"), f"crates.txt lists {crate}, and there is no crates/{crate}")
        assumes = [d for d in on if d in ("libc", "io", "os")]
        faults.rule(not assumes, f"{crate} stands on {' '.join(assumes)}: the toolchain's std reaches the system")
        program = os.path.exists(f"crates/{crate}/src/main.rt")
        reached = [path for path in project.paths(f"{crate}/src/**/*.rt") if SYSTEM.search(STREAMS.sub("", bare(path, read(path))))]
        faults.rule(not reached or program or crate in ("stream", "output"), f"{' '.join(reached)}: {crate} is no program and reaches the system, whose contracts are assumed")


def showing():
    """The definitions that take lent slices and show them afterwards (`x.exit.now`): {name: which of its arguments}."""
    out = {}
    for path in glob.glob("crates/*/specs/*.antt"):
        for name, takes, is_ in re.findall(r"^(\w+)((?: \w+)+) = (.*)$", bare(path, read(path)), re.M):
            after = [k for k, x in enumerate(takes.split()) if re.search(rf"\b{x}\.exit\b", is_)]
            if after:
                out[name] = after
    return out


def ensures_of(item):
    """What a function's ensures say between their braces, together; empty without one."""
    text = bare(item.file.path, "\n".join(item.text))
    parts = [found[1].strip() for found in items.CLAUSE.finditer(text) if found[0].lstrip().startswith("ensures")]
    return " × ".join(f"({part})" for part in parts) if len(parts) > 1 else "".join(parts)


def equations(nodes):
    """The two sides of each equation of a clause, as words."""
    for n in nodes:
        if isinstance(n, antt.Group):
            yield from equations(n.nodes)
    body = max((k + 1 for k, n in enumerate(nodes) if isinstance(n, antt.Token) and n.kind == "stop"), default=0)
    for part in antt.split(nodes[body:], {"×", "→"}):
        sides = antt.split(part, {"≡"})
        if len(sides) == 2:
            yield tuple(spelled(s) for s in sides)


def spelled(nodes):
    """The words of nodes, without what only opens and closes."""
    out = []
    for n in nodes:
        out += spelled(n.nodes) if isinstance(n, antt.Group) else [n.text]
    return out


def named(nodes):
    """The names in nodes, of `x.f` the x."""
    return {word.partition(".")[0] for word in spelled(nodes)}


def unread(item):
    """The places of a definition's explicit arguments that its text never reads: a parameter of a record that no field names, or of a clause that its right side does not."""
    lines = [x for x in item.text if not x.lstrip().startswith("infix")]
    if item.kind != "record":
        return unread_by_clauses(item, lines)
    head = antt.tree(antt.tokens(lines[0]))
    names = [t.text for g in head if isinstance(g, antt.Group) and g.bracket == "(" for t in g.nodes[: antt.place(g.nodes, ":")]]
    words = named(antt.tree(antt.tokens("\n".join(lines[1:]))))
    return [k for k, x in enumerate(names) if x not in words]


def unread_by_clauses(item, lines):
    clauses = [antt.tree(antt.tokens(c)) for c in re.split(rf"^\s*(?={re.escape(item.name)} )", "\n".join(lines[1:]), flags=re.M) if c.strip()]
    out = None
    for nodes in clauses:
        equals = antt.place(nodes, "=")
        right = named(nodes[equals + 1 :])
        idle = {k for k, n in enumerate(nodes[1:equals]) if antt.is_name(n) and n.text not in right}
        out = idle if out is None else out & idle
    return sorted(out or [])


def says_something(faults, where, item, said, told):
    """No equation says only that a thing is itself, and no definition is handed the result, or what is lent afterwards, and does not read it."""
    nodes = antt.tree(antt.tokens(said))
    for left, right in equations(nodes):
        faults.rule(left != right, f"{where} says that {' '.join(left)} is itself")
    stack = [nodes]
    while stack:
        run = stack.pop()
        stack += [n.nodes for n in run if isinstance(n, antt.Group)]
        for part in antt.split(run, {"×", "→", "≡", "λ"}):
            part = [n for n in part if isinstance(n, antt.Group) or n.kind != "field"]
            head = part and antt.is_name(part[0]) and item.file.items_of(part[0].text)
            for k in unread(head[0]) if head and part[0].text == head[0].name and head[0].kind in ("record", "definition") else []:
                if k + 1 < len(part):
                    idle = named([part[k + 1]]) & told
                    faults.rule(not idle, f"{where} gives {' '.join(idle)} to {part[0].text}, which does not read it")


def public_functions(faults, project):
    shows = showing()
    for item in project.contracts:
        where = f"{item.file.path}:{item.line}: public {item.name}"
        text = bare(item.file.path, "\n".join(item.text))
        said, signature = ensures_of(item), re.split(r"^\s*(?:requires|ensures)", text, flags=re.M)[0]
        called = f"{item.file.crate} {item.name}"
        faults.rule(not re.search(r"^\s*requires", text, re.M), f"{where} has a requires")
        if "->" in signature:
            faults.rule(re.search(r"\bresult\b", said), f"{where} says nothing of what it gives")
        shown = {x.split()[k] for name, after in shows.items() for x in re.findall(rf"\b{name}((?: \w+)+)", said) for k in after if k < len(x.split())}
        lent = re.findall(r"(\w+): &(?:'\w+ )?mut ", signature)
        # what the answer goes on holding is the answer's
        held = {name for name, life in re.findall(r"(\w+): &'(\w+) mut ", signature) if re.search(rf"'{life}\b", signature.partition("->")[2])}
        for one in [x for x in lent if x not in held | PASSES.get(called, set())]:
            faults.rule(one in shown or re.search(rf"\b{one}\.(?:new|exit)\b", said), f"{where} says nothing of {one} afterwards")
        says_something(faults, where, item, said, {"result", *lent})


def public_traits(faults):
    """A method of a public trait asks nothing of who calls it either."""
    for path in sorted(glob.glob("crates/*/src/**/*.rt", recursive=True)):
        for trait, body in re.findall(r"^pub trait (\w+)[^{]*\{\n(.*?)^\}", bare(path, read(path)), re.M | re.S):
            for method, text in re.findall(r"^    (?:final )?fn (\w+)(.*?)(?=^    \S|\Z)", body, re.M | re.S):
                asks = re.search(r"^\s*requires", text, re.M)
                faults.rule(not asks or f"{path.split('/')[1]} {trait} {method}" in ASKED, f"{path}: {method} of public {trait} has a requires")


def check(faults, project):
    crates(faults, project)
    public_functions(faults, project)
    public_traits(faults)
