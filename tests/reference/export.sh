# Sourced by tests that call proved code from C, from the repository's root: links the C sources named with the archives of the crates that export it.
# With the toolchain alone.
#   build_x86 PROGRAM "CRATE.." SOURCE..     writes the program
#   run_x86 PROGRAM ARGS..                   runs it
command -v rt >/dev/null 2>&1 || { echo "the test needs the Rattle toolchain: there is no command rt" >&2; exit 2; }
tools=$(dirname "$(rt doc)")/toolchain
lib=$tools/lib
export_to=target/tests/export

build_x86() {
    program=$1
    crates=$2
    shift 2
    # its own objects: another test may be compiling the same sources
    mkdir -p "$program.parts"
    # shellcheck disable=SC2086 # one word a crate
    tools/archive $crates
    archives=
    for crate in $crates; do archives="$archives target/staticlib/lib$crate.a"; done
    objects=
    for source; do
        object=$program.parts/$(echo "$source" | tr / -).o
        "$tools/bin/clang" --target=x86_64-unknown-linux-gnu -ffreestanding -fPIE -O2 -Wall -Wextra -Werror -c "$source" -o "$object"
        objects="$objects $object"
    done
    # shellcheck disable=SC2086 # one word an object, one an archive
    "$tools/bin/ld.lld" -pie --dynamic-linker /lib64/ld-linux-x86-64.so.2 -o "$program" \
        "$lib/Scrt1.o" "$lib/crti.o" "$lib/crtbeginS.o" $objects $archives \
        "$lib/libc.so.6" "$lib/libc_nonshared.a" "$lib/libgcc.a" "$lib/crtendS.o" "$lib/crtn.o"
}

run_x86() {
    "$lib/ld-linux-x86-64.so.2" --library-path "$lib" "$@"
}
