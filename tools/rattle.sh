#!/bin/sh
# Has the toolchain check or build a crate over the libraries that were built below it:
#     tools/rattle.sh CRATE check|build [FLAG..]
# `rt` takes what `rt ci` and tools/prove.sh built for none of its own, and would prove it once more.

root=$(cd "$(dirname "$0")/.." && pwd) || exit 2
kit=$(dirname "$(rt doc)")
name=$1
verb=$2
shift 2
cd "$root/crates/$name" && mkdir -p out || exit 2
file=src/lib.rt
[ ! -f src/main.rt ] || file=src/main.rt
set -- --crate-name "$name" "$file" --extern "std=$kit/rlibs/std.rlib" -L "dependency=$kit/rlibs" "$@"
for crate in $(sed 's/[ :].*//' ../../crates.txt); do
    set -- "$@" -L "dependency=../$crate/out/rlib"
done
for crate in $(sed -n "s/^$name\( [a-z]*\)*://p" ../../crates.txt); do
    built=../$crate/out/rlib
    [ -d "../$crate" ] || built=$kit/rlibs
    set -- "$@" --extern "$crate=$built/$crate.rlib"
done
if grep -q "^$name staticlib:" ../../crates.txt; then
    set -- "$@" --crate-type staticlib
fi
exec "$kit/bin/rattle" "$verb" "$@" --antt-project "$kit/rattle/logic/antt-project.json" --logic-built "$kit/logic_built" \
    --links "$name="
