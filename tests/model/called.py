"""Calling qm and the Rattle programs from a test: built first."""
import os
import subprocess
import sys

from . import built
from .files import ROOT
from .tally import held

# what qm says of the refusals of a log
MEANING = {40: "not a log", 41: "not in its shortest form", 42: "over 65,535 bytes", 43: "cut off", 45: "limit is over 1,048,576"}


def build():
    if subprocess.run([os.path.join(ROOT, "tools", "build")]).returncode != 0:
        sys.exit("tools/build has failed")
    return built.RUN + [os.path.join(ROOT, "target", "tools", "qm")]


# another qm may be held to the same, as one that was compiled with sanitizers
QM = os.environ["QM"].split() if "QM" in os.environ else build()


def raw(*words, **how):
    """Its status, what it printed and what it said on standard error, as bytes."""
    given = {"input": b"", "stdout": subprocess.PIPE, "stderr": subprocess.PIPE}
    done = subprocess.run(QM + list(words), **{**given, **how})
    return done.returncode, done.stdout or b"", done.stderr or b""


def qm(*words, **how):
    """The same as text."""
    status, printed, said = raw(*words, **how)
    return status, printed.decode(), said.decode()


def no_room(*words, **how):
    """A call whose lines find no room on the disk fails, and says so. Answers whether that could be tried."""
    if not os.path.exists("/dev/full"):
        return False
    with open("/dev/full", "w") as disk:
        got = qm(*words, stdout=disk, **how)
    held(got[0] == 1 and "standard output: No space left on device" in got[2], f"qm {' '.join(words)}, the disk full", str(got))
    return True


def program(name, *words):
    """A function from input and arguments to output: the proved program. It is built by a call with these arguments."""
    subprocess.run([os.path.join(ROOT, "run"), name, *words], input=b"", stdout=subprocess.DEVNULL, check=True)
    run = built.program(name)
    return lambda b, *words: subprocess.run(run + list(words), input=b, stdout=subprocess.PIPE, check=True).stdout.decode()
