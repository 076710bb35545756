#!/bin/sh
# Proves and builds a library in a copy of the repository, and brings back what was made:
#     tools/apart.sh CRATE [FLAG..]
# `rt` keeps all others out of the folders of the crates that it works over. So two crates that use a third are built
# side by side only in copies, which have what was built of the third by hard links. The flags are those of `rt lib`.

root=$(cd "$(dirname "$0")/.." && pwd) || exit 2
crate=$1
shift
out=$root/crates/$crate/out
mkdir -p "$out" && room=$(mktemp -d "$out/apart.XXXXXX") || exit 2
trap 'rm -rf "$room"' EXIT
trap 'exit 130' INT TERM
(cd "$root" && tar -cf - --exclude=out crates.txt HANDLES crates) | tar -xf - -C "$room" || exit 2

# What another crate, which this one does not use, makes meanwhile may be half there.
for made in "$root"/crates/*/out/rlib "$out/incremental"; do
    [ ! -d "$made" ] || { to=$room${made#"$root"} && mkdir -p "${to%/*}" && cp -al "$made" "$to" 2> /dev/null; }
done
cd "$room/crates/$crate" && rt lib "$@" || exit
rm -rf "$out/rlib" "$out/incremental"
mv out/rlib out/incremental "$out/"
