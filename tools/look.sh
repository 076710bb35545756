#!/bin/sh
# Runs the program, unproved, on three of the examples, and prints what it writes. `make look` calls it.

cd "$(dirname "$0")/.." || exit 2
work=$(mktemp -d) || exit 2
trap 'rm -rf "$work"' EXIT
trap 'exit 2' INT TERM HUP
cases=$work/cases
mkdir "$cases" || exit 2

# A case is a file, which is standard input, with a file of arguments beside it, and one of what it has to print.
cp examples/corridor.hex "$cases/rehearse-corridor"
: > "$cases/auto-corridor"
printf '%s\n' auto corridor.map corridor.scen --holds corridor.holds > "$cases/auto-corridor.args"
: > "$cases/auto-warehouse"
printf '%s\n' auto warehouse.map warehouse.scen --holds warehouse.holds > "$cases/auto-warehouse.args"
cp examples/warehouse.trace "$cases/auto-warehouse.stdout"

for file in corridor.map corridor.scen corridor.holds warehouse.map warehouse.scen warehouse.holds; do
    set -- "$@" --data "$file=../../examples/$file"
done
echo 'Nothing is proved by this: it builds the program as it stands, and runs it with checks, within two minutes.'
cd crates/fleet && rt try --cases "$cases" "$@" 2> "$work/said" || { status=$?; tail -n 20 "$work/said"; exit $status; }
