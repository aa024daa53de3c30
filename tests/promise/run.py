"""tools/promise leaves nothing out: of every name that it lists it prints a text in which each definition stands once, each name that one uses is printed
before it, is the toolchain's, or is bound in it, and each field is one of a record printed before it. It reads what is printed and not how that was found;
only what a name stands for in a file is taken from tools/specs.py. The books of demand 3 and of the count stay short enough to be read."""
import importlib.machinery
import itertools
import os
import re
import subprocess

import antt
import items
import specs
from model.files import ROOT
from model.tally import close, held

promise = importlib.machinery.SourceFileLoader("promise", os.path.join(ROOT, "tools/promise")).load_module()
project = specs.Project(ROOT)
# the most lines, without empty ones, that a book may have
MOST = {"demand3": 650, "count_promise": 950}


def squeezed(text):
    return re.sub(r",?\s*\)", ")", re.sub(r"\s+", "", text))


def function_of(file, line):
    """The function or method of a file whose signature begins a line."""
    begun = squeezed(line)
    for item in file.functions.values():
        whole = squeezed("".join(item.text))
        if whole.startswith(begun) or begun.startswith(squeezed("".join(itertools.takewhile(lambda x: not re.match(items.CLAUSES, x), item.text)))):
            return item
    return None


def items_in(lines):
    """What a book prints, in order: (file, item, lines of its text)."""
    file, out, heading = None, [], False
    for line in lines[1:]:
        # the head of a block may go over lines, up to its `where`
        heading = heading or re.match(r"\s*module _", line) is not None
        if heading:
            heading = not line.endswith(" where")
        elif line.startswith("==== "):
            file = project.file(line.split()[1].rstrip(":"))
        elif line.strip() and not re.match(r"\s*(--|//|module _|infix)", line):
            found = items.RT_ITEM.match(line) if file.path.endswith(".rt") else items.TYPE.match(line.lstrip()) or items.SIGNATURE.match(line.lstrip())
            item = found and (function_of(file, line) if found.groupdict().get("kind") == "fn" else file.by_name.get(found["name"]))
            if item and found["name"] == item.name.rpartition("::")[2] and items.indent_of(line) == 2 * len(item.blocks):
                out.append((file, item, []))
            out[-1][2].append(line)
    return out


def until_told(toks):
    """Tokens up to the `:` or `=` that says what they are, or the dot of a λ; nothing where none comes."""
    depth = -1 if toks[0].kind == "open" else 0
    for k, t in enumerate(toks):
        depth += (t.kind == "open") - (t.kind == "close")
        if depth <= 0 and (t.text in (":", "=", "in") or t.kind == "stop"):
            return toks[:k]
    return []


def words_bound(item, toks):
    """The words that a text binds, roughly: in brackets before a colon, behind λ and let, left of a clause's `=`, around its own operator, and labels of records."""
    out = set()
    for k, t in enumerate(toks):
        if t.text in ("λ", "let") or t.kind == "open" or t.text == item.name or (k and toks[k - 1].kind == "sep"):
            out |= {x.text for x in until_told(toks[k:]) if x.kind == "name"}
        if t.text in items.operator_parts(item.name):
            out |= {t.text, toks[k - 1].text, toks[k + 1].text}
    return out | set(item.members + item.fields)


def check_words(name, file, item, toks, printed):
    """Each name of an item's text is printed, is the library's, or is bound there or by the block around it."""
    bound = words_bound(item, toks)
    for block in item.blocks:
        bound |= words_bound(item, antt.tokens("\n".join(block.lines)))
    for t in toks:
        if t.kind == "path" and t.parts[0] not in bound:
            there = file.items_at(t.parts)
            held(file.of_library(t.parts) or (there and all(i.key in printed for i in there)), f"{name}: {item} uses {t.text}, which is not printed before it")
        if t.kind != "name" or t.text in antt.KEYWORDS or antt.is_number(t.text) or t.text in bound:
            continue
        held(file.known(t.text), f"{name}: {item} uses {t.text}, and nothing says what that is")
        for i in file.items_of(t.text):
            held(i.key in printed or i is item, f"{name}: {item} uses {t.text}, which is not printed before it")


def check_fields(name, file, item, toks, fields):
    """Of a path what follows its first name, unless that is a module or a type."""
    for t in toks:
        of = [t.text] if t.kind == "field" else t.parts[1:] if t.kind == "path" and t.parts[0] not in file.names.aliases and not t.parts[0][:1].isupper() else []
        for word in of:
            held(antt.is_number(word) or word in fields, f"{name}: {item} takes {word}, and no record printed before it has such a field")


def labels_in(clauses):
    """The labels of records in clauses."""
    return {word for c in clauses for word in re.findall(r"[{;]\s*(\w+) =", c)}


def check_rattle(name, file, item, text, printed):
    """The types and consts of a declaration or a signature."""
    for i in file.rattle_items(item):
        held(i.key in printed, f"{name}: {item} uses {i.name}, which is not printed before it")
    clauses = items.CLAUSE.findall(text)
    bound = items.parameters(text) | set(re.findall(r"λ (\w+)\.", text)) | set(re.findall(r"\((\w+) : ", text)) | labels_in(clauses)
    for t in (t for c in clauses for t in antt.tokens(c)):
        if t.kind == "path" and t.parts[0] not in bound:
            there = file.items_at(t.parts)
            held(file.of_library(t.parts) or (there and all(i.key in printed for i in there)), f"{name}: {item} uses {t.text}, which is not printed before it")
        if t.kind == "name" and t.text not in bound | antt.KEYWORDS and not antt.is_number(t.text):
            held(file.known(t.text), f"{name}: {item} uses {t.text}, and nothing says what that is")
            for i in file.items_of(t.text):
                held(i.key in printed, f"{name}: {item} uses {t.text}, which is not printed before it")


def check_book(name, lines):
    printed, fields = {}, set(items.LIBRARY_FIELDS)
    for file, item, own in items_in(lines):
        text = "\n".join(own)
        held(item.key not in printed, f"{name}: {item} is printed twice")
        fields |= set(item.fields)
        if file.path.endswith(".rt"):
            check_rattle(name, file, item, text, printed)
        else:
            toks = antt.tokens(text)
            check_words(name, file, item, toks, printed)
            check_fields(name, file, item, toks, fields)
        printed[item.key] = item
    held(printed and list(printed.values())[-1].name.rpartition("::")[2] == name.rpartition("::")[2], f"{name}: it is not the last that is printed")


def said(*args):
    return subprocess.run([os.path.join(ROOT, "tools/promise"), *args], capture_output=True, text=True)


names = [x.split()[0] for x in said("--list").stdout.split("\n") if x]
held({"demand3", "strangers", "count_promise", "shown_promise", "receive", "count_log"} <= set(names), "tools/promise --list lacks a promise")
for name in names:
    item, fault = promise.asked(project, name)
    held(item, f"{name} is listed: {fault}")
    lines = promise.printed(project, item)
    check_book(name, lines)
    if name in MOST:
        long = sum(1 for x in lines if x.strip())
        held(long <= MOST[name], f"{name} has {long} lines, more than {MOST[name]}")
held(said("demand3").stdout.split("\n")[:-1] == promise.printed(project, promise.asked(project, "demand3")[0]), "tools/promise demand3 prints something else")
wrong = said("recieve")
held(wrong.returncode == 2 and "receive" in wrong.stderr and not wrong.stdout, "an unknown name is not answered by those near it")
held(said("forget").returncode == 2 and "receiver::forget" in said("forget").stderr, "a name that two crates have is not answered by both")
held(said("--help").returncode == 0 and "--list" in said("--help").stdout, "there is no --help")
close()
