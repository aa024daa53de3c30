# What run, lmcp, count and falling share; each of them sources it. A temporary folder, $work, has a copy of the repository's crates; it goes at the end. The archive that
# `rt lib` writes of a static library is linked, as a C host links it.
set -euo pipefail
here=$(cd "$(dirname "${BASH_SOURCE[0]}")" && pwd)
root=$(dirname "$here")

stop() {
    echo "bench: $*" >&2
    exit 2
}

command -v rt >/dev/null 2>&1 || stop "the Rattle toolchain is missing: there is no command rt"
tools=$(dirname "$(rt doc)")/toolchain
clang=$tools/bin/clang
lib=$tools/lib
work=$(mktemp -d)
trap 'rm -rf "$work"' EXIT
mkdir -p "$work/all"
tar -C "$root" --exclude=out -cf - crates crates.txt | tar -C "$work/all" -xf -

# One more crate, a static library of a text with functions for C.
crate() { # NAME DEPENDENCIES, and the text on standard input
    echo "$1 staticlib: $2" >>"$work/all/crates.txt"
    mkdir -p "$work/all/crates/$1/src"
    { printf '#![tactic(auto)]\n\n' && cat; } >"$work/all/crates/$1/src/lib.rt"
}

# Has a crate proved and built, and adds its code to $proved.
proved=
build() { # CRATE
    echo "bench: proving $1 (minutes the first time)" >&2
    if [ -d "$root/crates/$1" ]; then
        "$root/tools/archive" "$1" || stop "$1 is not proved"
        proved="$proved $root/target/staticlib/lib$1.a"
        return
    fi
    (cd "$work/all/crates/$1" && rt lib) >"$work/log" 2>&1 || { tail -n 20 "$work/log" >&2; stop "$1 is not proved"; }
    proved="$proved $work/all/crates/$1/out/lib$1.a"
}

# A program of C files and the proved code.
link() { # OUT FILE...
    local out=$1 objects=
    shift
    for name; do
        "$clang" --target=x86_64-unknown-linux-gnu -O3 -fPIE -Wall -Wextra -Werror -c "$here/$name.c" -o "$work/$name.o"
        objects="$objects $work/$name.o"
    done
    # shellcheck disable=SC2086 # one word an object
    "$tools/bin/ld.lld" -pie --dynamic-linker /lib64/ld-linux-x86-64.so.2 -o "$out" "$lib/Scrt1.o" "$lib/crti.o" "$lib/crtbeginS.o" \
        $objects $proved "$lib/libc.so.6" "$lib/libc_nonshared.a" "$lib/libgcc.a" "$lib/crtendS.o" "$lib/crtn.o"
}

# The instructions inside FUNCTION by the words that call it.
counted() { # FUNCTION PROGRAM WORD...
    local function=$1
    shift
    command -v valgrind >/dev/null 2>&1 || { echo -; return; }
    valgrind --tool=callgrind --callgrind-out-file="$work/calls" --toggle-collect="$function" "$@" >/dev/null 2>"$work/counted"
    awk '/Collected/ { print $NF }' "$work/counted"
}

per() { # N INSTRUCTIONS FORMAT: of each of N
    awk -v n="$1" -v a="$2" -v f="$3" 'BEGIN { if (a + 0 > 0) printf f, a / n; else print "-" }'
}

ratio() { # A B
    awk -v a="$1" -v b="$2" 'BEGIN { if (a + 0 > 0) printf "%.2f", b / a; else print "-" }'
}

processor() {
    echo "$(uname -m), $(lscpu | sed -n 's/^Model name: *//p' | head -n 1)"
}
