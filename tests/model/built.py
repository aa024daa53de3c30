"""How a test runs what was built. Programs are x86-64: they run with the toolchain's own loader and C library."""
import glob
import os
import subprocess
import sys

from .files import ROOT

_guide = subprocess.run(["rt", "doc"], capture_output=True, text=True, check=True).stdout.strip()
# the toolchain, and its compiler, linker and C library
HOME = os.path.dirname(_guide)
TOOLS = os.path.join(HOME, "toolchain")
LIB = os.path.join(TOOLS, "lib")
# the words before the path of what is run
RUN = [os.path.join(LIB, "ld-linux-x86-64.so.2"), "--library-path", LIB]


def program(name):
    """The words that run a program of crates.txt. One that is not built is a fault, and no reason to pass."""
    path = os.path.join(ROOT, "crates", name, "out", name)
    if not os.path.exists(path):
        sys.exit(f"{name} is not built: tools/prove {name}")
    return RUN + [path]


def linking(program, *parts):
    """The words that link a program of these objects and archives."""
    first, last = ([os.path.join(LIB, x) for x in some.split()] for some in ("Scrt1.o crti.o crtbeginS.o", "libc.so.6 libc_nonshared.a libgcc.a crtendS.o crtn.o"))
    return [os.path.join(TOOLS, "bin", "ld.lld"), "-pie", "--dynamic-linker", "/lib64/ld-linux-x86-64.so.2", "-o", program, *first, *parts, *last]


def of_c(name, crates, *sources):
    """The words that run a program of C sources, linked with the archives of some crates (tests/reference/export.sh)."""
    script = f'set -eu; . tests/reference/export.sh; build_x86 "$export_to/{name}" "{crates}" {" ".join(sources)}'
    subprocess.run(["bash", "-c", script], cwd=ROOT, check=True)
    return RUN + [os.path.join(ROOT, "target", "tests", "export", name)]


def with_faults(test, *wraps):
    """The words that run a qm of the same objects with a test's faults.c before these of its calls."""
    out = os.path.join(ROOT, "target", "tests", test)
    os.makedirs(out, exist_ok=True)
    planted, qm, source = os.path.join(out, "faults.o"), os.path.join(out, "qm"), os.path.join(ROOT, "tests", test, "faults.c")
    clang = os.path.join(TOOLS, "bin", "clang")
    subprocess.run([clang, "--target=x86_64-unknown-linux-gnu", "-ffreestanding", "-fPIE", "-O2", "-Wall", "-Wextra", "-Werror", "-c", source, "-o", planted], check=True)
    objects, archives = (sorted(glob.glob(os.path.join(ROOT, "target", *x))) for x in (("tools", "*.o"), ("staticlib", "libhost*.a")))
    subprocess.run(linking(qm, *(f"--wrap={x}" for x in wraps), *objects, planted, *archives), check=True)
    return RUN + [qm]
