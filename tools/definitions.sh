#!/bin/sh
# Writes docs/DEFINITIONS.md to standard output: its front, tools/definitions.md, and then the comment on each
# definition of the crates that tools/reached.awk finds, in the order of tools/specs.sh. `make definitions` keeps it,
# and `make examples` looks whether it is current.

cd "$(dirname "$0")/.." || exit 2
LC_ALL=C
export LC_ALL
work=$(mktemp -d) || exit 2
trap 'rm -rf "$work"' EXIT
trap 'exit 2' INT TERM HUP
sed -n 's/^\([a-z_]*\)[ :].*/\1/p' crates.txt > "$work/crates"
while read -r crate; do
    for root in lib main; do
        [ ! -f "crates/$crate/src/$root.rt" ] || echo "crates/$crate/src/$root.rt"
    done
    find "crates/$crate/src" -name '*.rt' ! -path "crates/$crate/src/lib.rt" ! -path "crates/$crate/src/main.rt" | sort
done < "$work/crates" > "$work/sources"
sh tools/specs.sh > "$work/specs"
cat "$work/sources" "$work/specs" | xargs awk -f tools/reached.awk tests/names.txt docs/PROVED.md > "$work/reached"
cat tools/definitions.md
xargs awk -v reached="$work/reached" -f tools/definitions.awk < "$work/specs"
