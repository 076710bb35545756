#!/bin/sh
# Proves a crate from nothing and builds it, over the statements alone of the crates below it, which were proved so:
#     tools/prove.sh CRATE [FLAG..]
# A check that keeps its work reads all proofs of those once more, which takes a third of its time. What was proved so
# before is left, if no file of the crate has changed since, and nothing below it was proved anew. What the gate asks
# besides a proof (HANDLES, contracts that no call can meet) is left to it.

root=$(cd "$(dirname "$0")/.." && pwd) || exit 2
kit=$(dirname "$(rt doc)")
crate=$1
shift
cd "$root/crates/$crate" || exit 2

# The crates below have such a file of their own.
below=$(sed -n "s/^$crate\( [a-z]*\)*://p" "$root/crates.txt" | tr ' ' '\n' | sed -n 's|^fleet.*|../&/out/proved|p')
made=out/rlib/$crate.rlib
[ ! -f src/main.rt ] || made=out/$crate
if [ -e "$made" ] && [ -f out/proved ] &&
    [ -z "$(find . $below "$root/crates.txt" "$kit/KIT-ID" \
        \( -path ./out -o -path ./must-fail \) -prune -o -newer out/proved -print 2>&1)" ]; then
    exit 0
fi
rm -f out/proved
if [ ! -f src/main.rt ]; then
    rm -rf out/rlib && mkdir -p out/rlib &&
        sh "$root/tools/rattle.sh" "$crate" build "$@" --statements -o "$made"
else
    sh "$root/tools/rattle.sh" "$crate" build "$@" --toolchain "$kit/toolchain" --backend llvm -o "out/$crate.o" &&
        "$kit/bin/rattle-link" --target x86_64-unknown-linux-gnu --toolchain "$kit/toolchain" -o "$made" \
            "out/$crate.o" "$kit/c/libos_c.a" "$kit/c/liblibc_c.a"
fi && : > out/proved
