#!/bin/sh
# The files of specs/ of all crates, a line each, in the order of crates.txt and of each crate's specs/Lib.antt:
#     sh tools/specs.sh

cd "$(dirname "$0")/.." || exit 2
sed -n 's/^\([a-z_]*\)[ :].*/\1/p' crates.txt | while read -r crate; do
    lib=crates/$crate/specs/Lib.antt
    [ ! -f "$lib" ] || sed -n "s|^pub mod \(.*\)|crates/$crate/specs/\1.antt|p" "$lib"
done
