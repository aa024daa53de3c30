"""The first contact: in a tree where nothing is built, `./run qm --help`, every other help and every wrong call are answered at once, with nothing proved; a call that
is good says what it proves, crate by crate, and about how long it takes. A toolchain that only looks like one stands before the real one and notes what it is asked, and for which
crate."""
import os
import re
import shutil
import stat
import subprocess
import tempfile

from model.files import ROOT
from model.tally import close, held

# it proves nothing, and notes for which crate it is asked; BAD is one that is not proved
RT = """#!/bin/sh
[ "$1" = doc ] && exec "$REAL" doc
crate=$(basename "$PWD")
echo "$1 $crate" >> "$ASKED"
if [ "$crate" = "$BAD" ]; then echo "src/lib.rt:7:5: error: a reason" >&2; exit 1; fi
mkdir -p out/rlib
case $1 in
lib) touch out/rlib/stamp "out/lib$crate.a" ;;
run) touch "out/$crate"; echo "rt: running out/$crate; to give it other input, run that file yourself" >&2; exit 3 ;;
*) exit 2 ;;
esac
"""


def tree(folder):
    """The project without what was built."""
    for name in ("include", "crates.txt", "docs"):
        os.symlink(os.path.join(ROOT, name), os.path.join(folder, name))
    # these find the tree by their own place, and what is made stands in a crate's own folder
    shutil.copy(os.path.join(ROOT, "run"), folder)
    shutil.copytree(os.path.join(ROOT, "tools"), os.path.join(folder, "tools"))
    shutil.copytree(os.path.join(ROOT, "crates"), os.path.join(folder, "crates"), ignore=shutil.ignore_patterns("out"))


def afresh(folder):
    """Nothing is proved any more."""
    for crate in os.listdir(os.path.join(folder, "crates")):
        shutil.rmtree(os.path.join(folder, "crates", crate, "out"), ignore_errors=True)


def under(crate):
    """What is asked where a crate and all below it is proved, but for the last."""
    crates = subprocess.run([os.path.join(ROOT, "tools", "under"), crate], stdout=subprocess.PIPE, text=True, check=True).stdout.split()
    return [f"lib {x}" for x in crates[:-1]]


def called(folder, *words, bad="", **how):
    asked = os.path.join(folder, "asked")
    env = {**os.environ, "PATH": os.path.join(folder, "bin") + ":" + os.environ["PATH"], "ASKED": asked, "REAL": shutil.which("rt"), "BAD": bad}
    open(asked, "w").close()
    done = subprocess.run([os.path.join(folder, *words[:1]), *words[1:]], env=env, stdin=subprocess.DEVNULL, stdout=subprocess.PIPE, stderr=subprocess.PIPE, text=True, **how)
    with open(asked) as f:
        asked = [x for x in f.read().split("\n")[:-1] if x != "doc"]
    return done.returncode, done.stdout, done.stderr, asked


with tempfile.TemporaryDirectory() as folder:
    tree(folder)
    os.mkdir(os.path.join(folder, "bin"))
    rt = os.path.join(folder, "bin", "rt")
    with open(rt, "w") as f:
        f.write(RT)
    os.chmod(rt, os.stat(rt).st_mode | stat.S_IXUSR)
    log, here = os.path.join(folder, "FLIGHT.log"), set(os.listdir(folder)) | {"target", "asked"}
    for words in (["--help"], ["-h"], ["help"], ["--version"], ["help", "count"], ["keep", "--help"]):
        status, out, said, asked = called(folder, "run", "qm", *words)
        held(status == 0 and out and said == "" and asked == [], f"./run qm {words}", str((status, out[:100], said, asked)))
    listed = called(folder, "run", "qm", "--help")[1]
    commands = re.findall(r"^  qm (\w+) ", listed, re.M)
    held(len(commands) >= 13, "the commands", str(commands))
    for words in [[], ["tell"], ["--helpme"]] + [[c] for c in commands] + [[c, "--no-such-option", log] for c in commands] + [["find", log, "7", "x"], ["count", "--from", "x", log], ["keep", "--every", "1", log]]:
        status, out, said, asked = called(folder, "run", "qm", *words)
        held(status == 2 and out == "" and said and asked == [], f"./run qm {words}", str((status, out, said, asked)))
    # a good call is proved first: nothing is opened or made before, and where the proof fails it is said which
    for words in (["count", log], ["keep", log], ["keep", "--new", log], ["import", "-o", log, log], ["take", "--all", log, log], ["check", log]):
        status, out, said, asked = called(folder, "run", "qm", *words, bad="wire")
        good = status == 2 and out == "" and asked == ["lib wire"] and set(os.listdir(folder)) <= here
        good = good and re.search(r"^proving \d+ of \d+ crates, about \d+ minutes on two processors, then 14 archives, about \d+ minutes; later ", said, re.M) and "error: a reason\nwire is not proved\n" in said and said.endswith("run: qm is not built\n")
        held(good, f"./run qm {words}", str((status, out, said, asked)))
    # find answers a wrong call as the proved one does
    most, over = (["18446744073709551615", "4294967295"], ["18446744073709551616", "4294967296"])
    for words in ([], ["x"], ["7"], ["7", "x"], ["", "1"], ["1", ""], ["-1", "1"], ["+1", "1"], ["1 ", "1"], ["0x1", "1"], ["1", "2", "3"], [over[0], "1"], ["1", over[1]], ["1", "1" + over[1]], ["--help"]):
        got = called(folder, "run", "find", *words)
        held(got == (0, "", "usage: find SENDER SEQUENCE < LOG\n", []), f"./run find {words}", str(got))
    for words in (["7", "500"], ["0", "0"], most, ["00" + most[0], "000" + most[1]]):
        afresh(folder)
        status, out, said, asked = called(folder, "run", "find", *words, bad="find")
        held(status == 2 and asked == under("find") + ["run find"] and said.endswith("run: find is not proved\n"), f"./run find {words}", str((status, said, asked)))
    # crate by crate
    afresh(folder)
    status, out, said, asked = called(folder, "tools/prove", "steps")
    held(status == 0 and out == "" and re.match(r"proving (\d+) of \1 crates, about 1 minute on two processors; later only what has changed\n", said) and re.search(r"^  1 of (\d+): wire proved \(\d+ s\)\n  2 of \1: refusals proved \(\d+ s\)\n(.*\n)*  \1 of \1: steps proved \(\d+ s\)$", said, re.M), "tools/prove", str((status, out, said)))
    held(asked == under("steps") + ["lib steps"], "tools/prove asks", str(asked))
    # what is proved is not asked for again; what has changed is, and what was asked for stands on it
    status, out, said, asked = called(folder, "tools/prove", "steps")
    held(status == 0 and re.match(r"proving what has changed of \d+ crates\n$", said) and asked == [], "tools/prove again", str((status, said, asked)))
    later = os.path.join(folder, "crates", "names", "src", "lib.rt")
    was = os.stat(later).st_mtime
    os.utime(later, (was + 10**6,) * 2)
    status, out, said, asked = called(folder, "tools/prove", "steps")
    held(status == 0 and asked == ["lib names", "lib steps"], "tools/prove after a change", str((status, said, asked)))
    os.utime(later, (was,) * 2)
    # archive by archive: the last is not made
    afresh(folder)
    status, out, said, asked = called(folder, "tools/archive", "host_append", "host_state", "host_acks", bad="host_acks")
    good = status == 1 and out == "" and re.search(r" on two processors, then 3 archives, about 1 minute; later only what has changed\n", said) and "\n  archive 1 of 3: host_append\n  archive 2 of 3: host_state\n  archive 3 of 3: host_acks\n" in said
    good = good and sorted(os.listdir(os.path.join(folder, "target", "staticlib"))) == ["libhost_append.a", "libhost_state.a"]
    held(good and asked[-3:] == ["lib host_append", "lib host_state_c", "lib host_acks"] and "lib host_state" in asked, "tools/archive", str((status, said, asked)))
    # a program is proved where it could be built and started, whatever it ended with
    status, out, said, asked = called(folder, "run", "replay", bad="replay")
    held(status == 2 and "error: a reason" in said and said.endswith("run: replay is not proved\n"), "./run replay", str((status, said)))
    status, out, said, asked = called(folder, "tools/prove", "replay")
    held(status == 0 and asked == ["run replay"] and re.search(r": replay proved \(\d+ s\)\n$", said), "tools/prove replay", str((status, said, asked)))
    for words, says in [([], "usage: ./run NAME"), (["no_such"], "no crate no_such"), (["wire"], "wire is a library")]:
        status, out, said, asked = called(folder, "run", *words)
        held(status == 2 and out == "" and says in said and asked == [], f"./run {words}", str((status, out, said)))
close()
