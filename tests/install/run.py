"""tools/install: what it lays down works away from this tree. A host is built in an empty folder with what pkg-config says, examples/van.c, by the command that stands
in it, and what it prints is held to the models; the header's wrappers are held to the plain calls; the header is C and C++ without a warning; the calls need the stack
that the header says; one version is told everywhere; the installed qm and page are those of the tree; the man pages have every command. Where the machine has no
compiler the toolchain's compiles."""
import glob
import os
import re
import shutil
import subprocess
import tempfile

from model import built
from model.called import qm
from model.files import ROOT, bytes_of, put
from model.log import entries_in, log_of
from model.messages import write
from model.receiver import MAX_PAYLOAD, Receiver, read, small
from model.tally import close, held
from model.watch import Watch

HERE = os.path.dirname(os.path.abspath(__file__))
CLANG = os.path.join(built.TOOLS, "bin", "clang")
NATIVE = shutil.which("cc")


def ran(words, **how):
    done = subprocess.run(words, stdout=subprocess.PIPE, stderr=subprocess.PIPE, **how)
    return done.returncode, done.stdout.decode(), done.stderr.decode()


def asked(prefix):
    """Where pkg-config looks, and nowhere else."""
    return {**os.environ, "PKG_CONFIG_LIBDIR": os.path.join(prefix, "lib", "pkgconfig"), "PKG_CONFIG_PATH": ""}


def flags(prefix, what):
    """What pkg-config says; where it is not installed, what stands in its file."""
    if shutil.which("pkg-config"):
        status, out, said = ran(["pkg-config", what, "quartzmitten"], env=asked(prefix))
        held(status == 0, f"pkg-config {what}", said)
        return out.split()
    with open(os.path.join(prefix, "lib", "pkgconfig", "quartzmitten.pc")) as f:
        text = f.read()
    line = re.search({"--cflags": r"^Cflags: (.*)$", "--libs": r"^Libs: (.*)$", "--modversion": r"^Version: (.*)$"}[what], text, re.M)[1]
    return line.replace("${includedir}", prefix + "/include").replace("${libdir}", prefix + "/lib").split()


def host(prefix, folder, source, *more):
    """Builds a host in an empty folder; answers the words that run it."""
    name = os.path.splitext(os.path.basename(source))[0]
    program = os.path.join(folder, name)
    if NATIVE:
        words = ["cc", "-O2", "-Wall", "-Wextra", "-Werror", "-o", name, source, *flags(prefix, "--cflags"), *flags(prefix, "--libs"), *more]
        status, out, said = ran(words, cwd=folder)
        held(status == 0, f"cc {source}", said)
        return [program]
    headers = ["-nostdinc", "-isystem", os.path.join(HERE, "headers")]
    status, out, said = ran([CLANG, "--target=x86_64-unknown-linux-gnu", "-fPIE", "-O2", "-Wall", "-Wextra", "-Werror", *headers, *flags(prefix, "--cflags"), "-c", source, "-o", f"{name}.o"], cwd=folder)
    held(status == 0, f"clang {source}", said)
    status, out, said = ran(built.linking(name, f"{name}.o", *flags(prefix, "--libs")), cwd=folder)
    held(status == 0, f"ld.lld {source}", said)
    return built.RUN + [program]


def van_of(entries):
    """What examples/van.c prints of each datagram."""
    receiver, watch, out = Receiver(8 * MAX_PAYLOAD), Watch(), []
    for sender, _, d in entries:
        said = read(d, MAX_PAYLOAD)
        if not isinstance(said, int):
            words = watch.see(sender, said["sequence"]).split()
            if words[0] == "forward" and words[1] != "0":
                out.append(f"sender {sender}: {words[1]} numbers missing")
            if words[0] == "restarted":
                receiver.forget(sender)
                out.append(f"sender {sender}: began anew at {words[1]}")
        words = receiver.receive(sender, d).split()
        if words[0] == "refused":
            out.append(f"sender {sender}: refused {words[1]}")
        if words[0] == "delivered":
            out.append(f"sender {sender}: {receiver.name.decode()}, {words[1]} bytes")
        if "emptied" in words:
            at = words.index("emptied")
            out.append(f"sender {words[at + 1]}: message {words[at + 2]} given up")
    return out


def as_it_says(prefix, folder):
    """The command that examples/van.c says it is built by, to the letter, where the machine's own compiler can link the archive."""
    command = "cc -o van van.c $(pkg-config --cflags --libs quartzmitten)"
    text = bytes_of("examples", "van.c").decode()
    held(f"\n       {command}\n" in text and len(text.split("\n")) < 150, "examples/van.c says how it is built, in fewer than 150 lines")
    words = host(prefix, folder, "van.c")
    if NATIVE and shutil.which("pkg-config"):
        os.remove(os.path.join(folder, "van"))
        status, out, said = ran(["sh", "-c", command], cwd=folder, env=asked(prefix))
        held(status == 0 and out + said == "", command, said)
    return words


def van(prefix, folder):
    shutil.copy(os.path.join(ROOT, "examples", "van.c"), folder)
    held(os.listdir(folder) == ["van.c"], "the folder is empty but for van.c")
    run, log = as_it_says(prefix, folder), os.path.join(folder, "FLIGHT.log")
    status, out, said = ran(run + [log], input=bytes_of("samples", "survey.bin"))
    b = bytes_of(log)
    counted = qm("count", log)[1]
    expected = van_of(entries_in(b)[0]) + [line for line in counted.split("\n")[:-1] if line.startswith(("lists", "tile"))]
    held(status == 0 and said == "" and out == "\n".join(expected) + "\n", "van", out, "\n".join(expected) + "\n")
    held(b == bytes_of("samples", "survey.log"), "van: the log is that of qm keep")
    held(any("began anew" in x for x in expected) and any("missing" in x for x in expected), "van: a restart and a gap are met")
    van_season(run, folder, [log] + [os.path.join(ROOT, "samples", name) for name in ("season-1.log", "season-2.log")])
    for words, given, says in [([], b"", "usage: van LOG [EARLIER..]"), ([log], b"", "it may be there already"), ([log + "2"], b"abc" * 9, "a record is cut"),
                               ([log + "3", log + "4"], b"", "a log cannot be read"), ([log + "5", folder], b"", "a log cannot be read")]:
        status, out, said = ran(run + words, input=given)
        held(status == 1 and says in said, f"van {words}", said)


def van_season(run, folder, earlier):
    """A flight more: the lines are those of qm count of this log and of the earlier ones, also where one of them ends in the midst; each log has a receiver of its own."""
    records, cut = bytes_of("samples", "survey.bin"), os.path.join(folder, "cut.log")
    put(cut, bytes_of("samples", "season-3.log")[:-9])
    for i, (logs, whole) in enumerate([(earlier[:1], 1), (earlier[1:], 1), (earlier, 1), (earlier[:1] * 2, 1), ([earlier[1], cut, earlier[2]], 0)]):
        log = os.path.join(folder, f"NEXT-{i}.log")
        status, out, said = ran(run + [log, *logs], input=records)
        told = van_of(entries_in(bytes_of(log))[0]) + [f"{cut}: the count stopped: refused 43"] * (1 - whole)
        counted = qm("count", log, *logs)[1].split("\n")[:-1]
        expected = "\n".join(told + [line for line in counted if line.startswith(("lists", "tile"))]) + "\n"
        held(status == 0 and said == "" and out == expected and "\ntile " in out, f"van, a season of {1 + len(logs)} logs", out, expected)


def header(prefix, folder):
    """C of three editions and C++, with the old names, each of which is a new one, and without."""
    old = re.findall(r"^#define (QM_\w+) (QM_[A-Z_]+)$", bytes_of("include", "quartzmitten.h").decode().partition("#ifndef QM_NO_OLD_NAMES")[2], re.M)
    held(("QM_COVERED", "QM_FILE_COVERED") in old and len(old) > 35, "the old names", str(old))
    same = " ".join(f"+ ((int) {a} != (int) {b})" for a, b in old)
    for name, kinds in (("empty.c", ("c99", "c11", "c2x")), ("empty.cc", ("c++11", "c++20"))):
        path = os.path.join(folder, name)
        with open(path, "w") as f:
            f.write(f"#include <quartzmitten.h>\nint main(void) {{\n    return QM_TOLD_ANSWER\n#ifndef QM_NO_OLD_NAMES\n{same}\n#endif\n    ;\n}}\n")
        for kind in kinds:
            for more in ([], ["-DQM_NO_OLD_NAMES"]):
                status, out, said = ran([CLANG, "--target=x86_64-unknown-linux-gnu", f"-std={kind}", "-x", "c++" if name.endswith("cc") else "c", "-Wall", "-Wextra", "-Werror", "-Wno-long-long", "-fsyntax-only", "-nostdinc", *more,
                                         *flags(prefix, "--cflags"), path])
                held(status == 0, f"the header as {kind} {more}", said)


def versions(prefix):
    """The header's number, its text, what pkg-config, qm and the man pages say: one version. wrapped.c holds the archive's to the header's."""
    with open(os.path.join(prefix, "include", "quartzmitten.h"), encoding="utf8") as f:
        text = f.read()
    number, says = int(re.search(r"^#define QM_VERSION (\d+)$", text, re.M)[1]), re.search(r'^#define QM_VERSION_TEXT "(.*)"$', text, re.M)[1]
    held(says == f"{number // 100}.{number % 100}", "the header's version", says)
    held(flags(prefix, "--modversion") == [says], "pkg-config --modversion", says)
    held(qm("--version")[1] == f"qm {says}\n" and ran([os.path.join(prefix, "bin", "qm"), "--version"])[1] == f"qm {says}\n", "qm --version", says)
    for page in ("qm.1", "flight-page.1"):
        with open(os.path.join(prefix, "share", "man", "man1", page), encoding="utf8") as f:
            held(f'"Quartzmitten {says}"' in f.readline(), f"the version of {page}", says)
    return says


def stack(prefix, folder):
    """What the header says of the stack is enough for a thread that makes the call and for what a thread touches anyway, and no more than twice what the call needs."""
    deepest = [0]
    for _ in range(16):
        deepest = [6, 1, 110] + deepest  # a Note in a Note
    flight = entries_in(bytes_of("samples", "late-copies.log"))[0] + [(9, 9, small(9, b"NOTE", write([1] + deepest, True)))]
    status, out, said = ran(host(prefix, folder, os.path.join(HERE, "stack.c"), "-lpthread"), input=log_of(flight))
    used = {x.split()[0]: int(x.split()[1]) for x in out.split("\n")[:-1]}
    print(f"stack: {', '.join(f'{k} {v}' for k, v in used.items())}")
    held(status == 0, "the stack of each call", out, said)
    anyway = used.pop("nothing")
    for name, call in (("QM_COUNT_STACK", "qm_count"), ("QM_ACKS_STACK", "qm_acks_write")):
        limit, need = used.pop(name), used.pop(call)
        held(limit // 2 + anyway < need <= limit, name, out)
    limit = used.pop("QM_STACK")
    held(len(used) == 10 and all(0 < need <= limit for need in used.values()) and limit // 2 + anyway < max(used.values()), "QM_STACK", out)


def installed(prefix, folder):
    program = os.path.join(prefix, "bin", "qm")
    sample = os.path.join(ROOT, "samples", "late-copies.log")
    status, out, said = ran([program, "count", sample], cwd=folder)
    held(status == 0 and out.encode() == bytes_of("samples", "late-copies.txt"), "the installed qm", out, said)
    # by another name, from another place
    link = os.path.join(folder, "counts")
    os.symlink(program, link)
    held(ran([link, "count", sample], cwd=folder)[1] == out, "the installed qm by a link")
    page = ran([os.path.join(prefix, "bin", "flight-page"), sample], cwd=folder)
    tree = ran([os.path.join(ROOT, "tools", "flight-page"), sample], cwd=folder)
    held(page[0] == 0 and page == tree, "the installed page", page[2], tree[2])
    with open(os.path.join(prefix, "share", "man", "man1", "qm.1"), encoding="utf8") as f:
        text = f.read()
    commands = re.findall(r"^  qm (\w+) ", qm("--help")[1], re.M)
    held(len(commands) >= 13 and re.findall(r"^\.SS qm (\w+)$", text, re.M) == commands and not re.search(r"^[.'](?!TH|SH|SS|PP|nf|fi|BR)", text, re.M), "the man page of qm", text[:300])
    with open(os.path.join(prefix, "share", "man", "man1", "flight-page.1"), encoding="utf8") as f:
        held("flight\\-page" in f.read(), "the man page of flight-page")
    held(glob.glob(os.path.join(prefix, "**", "*.new"), recursive=True) == [], "something half laid down")


with tempfile.TemporaryDirectory() as top:
    install = os.path.join(ROOT, "tools", "install")
    for words in ([], ["relative"], ["/a", "/b"]):
        got = ran([install, *words], cwd=top)
        held(got[0] == 2 and got[1] == "" and "usage: " in got[2] and os.listdir(top) == [], f"tools/install {words}", str(got))
    prefix = os.path.join(top, "prefix")
    got = ran([install, prefix], cwd=top)
    held(got[0] == 0 and got[1] == f"quartzmitten {versions(prefix)} is below {prefix}\n", "tools/install", str(got))
    # once more over it; and below DESTDIR, where it speaks of PREFIX
    held(ran([install, prefix], cwd=top)[0] == 0, "tools/install twice")
    held(ran([install, "/opt/qm"], cwd=top, env={**os.environ, "DESTDIR": os.path.join(top, "dest")})[0] == 0, "tools/install, DESTDIR")
    with open(os.path.join(top, "dest", "opt", "qm", "lib", "pkgconfig", "quartzmitten.pc")) as f:
        held("prefix=/opt/qm\n" in f.read(), "DESTDIR is not in the file for pkg-config")
    folder = os.path.join(top, "empty")
    os.mkdir(folder)
    van(prefix, folder)
    status, out, said = ran(host(prefix, folder, os.path.join(HERE, "wrapped.c")), input=bytes_of("samples", "survey.log"))
    held(status == 0 and out.endswith(" passed, 0 failed\n") and int(out.split()[-4]) > 1000, "the wrappers", out, said)
    header(prefix, folder)
    stack(prefix, folder)
    installed(prefix, folder)
close()
