#!/bin/sh
# Makes libfleet of the proved crate fleet_c, beside its header, in a folder:
#     tools/lib.sh FOLDER
# The archive has the object of the crate and that of the toolchain by which it calls malloc, joined into one of which
# no name is seen but those of the calls; the shared object is linked from the archive. CC names a C compiler, where it
# is not cc.

root=$(cd "$(dirname "$0")/.." && pwd) || exit 2
mkdir -p "$1" && to=$(cd "$1" && pwd) || exit 2
kit=$(dirname "$(rt doc)")
work=$(mktemp -d) || exit 2
trap 'rm -rf "$work"' EXIT
trap 'exit 2' INT TERM HUP

# Proves and builds the crate over the libraries that `rt ci` or tools/prove.sh left, which `rt lib` takes for none of
# its own and would prove once more. It fails where one of them is lacking or older than its sources.
over_gate() {
    set -- --crate-name fleet_c src/lib.rt --extern "std=$kit/rlibs/std.rlib" -L "dependency=$kit/rlibs"
    for crate in $(sed -n 's/^\([a-z_]*\):.*/\1/p' ../../crates.txt); do
        built=../$crate/out/rlib
        [ -d "$built/$crate.rlib" ] || continue
        [ -z "$(find "../$crate" -name out -prune -o -type f -newer "$built" -print)" ] || return 1
        set -- "$@" -L "dependency=$built"
    done
    for crate in $(sed -n 's/^fleet_c staticlib://p' ../../crates.txt); do
        built=../$crate/out/rlib
        [ -d "../$crate" ] || built=$kit/rlibs
        set -- "$@" --extern "$crate=$built/$crate.rlib"
    done
    "$kit/bin/rattle" build "$@" --antt-project "$kit/rattle/logic/antt-project.json" --logic-built "$kit/logic_built" \
        --links fleet_c= --crate-type staticlib --toolchain "$kit/toolchain" --backend llvm -o out/libfleet_c.a
}

(cd "$root/crates/fleet_c" && mkdir -p out && { [ ! -d out/incremental ] && over_gate || rt lib; }) || exit 1
cd "$work" || exit 2
ar x "$root/crates/fleet_c/out/libfleet_c.a" && ar x "$kit/c/liblibc_c.a" heap.pic.o &&
    ld -r -o all.o ./*.o && objcopy --wildcard --keep-global-symbol='fleet_*' all.o fleet.o || exit 1
rm -f "$to/libfleet.a"
ar rcsD "$to/libfleet.a" fleet.o &&
    "${CC:-cc}" -shared -o "$to/libfleet.so" -Wl,-soname,libfleet.so -Wl,--whole-archive "$to/libfleet.a" -Wl,--no-whole-archive &&
    cp "$root/include/fleet.h" "$to/fleet.h"
