#!/bin/sh
# The numbers of `check --numbers` against a count of another hand, over plans at random:
#     sh tests/numbers.sh FLEET [COUNT]
# Each of the COUNT (10,000) cases is a map of 2 to 8 cells a side with blocked cells, agents on it, and the plan that
# `fleet` makes for them, in which all agents wait together now and then, and go on standing on their goals for a
# while. numbers.awk counts its costs, moves and waits cell by cell, and the distances by a flood from each goal, and
# looks of each two agents whether the one follows the other. Cases without a plan are left out. The last line says how
# many were compared; status 1 if a number differed.

fleet=$1 count=${2:-10000}
here=$(cd "$(dirname "$0")" && pwd) || exit 2
work=$(mktemp -d) || exit 2
trap 'rm -rf "$work"' EXIT
trap 'exit 2' INT TERM HUP
compared=0 case=0
while [ $compared -lt "$count" ] && [ $case -lt $((3 * count + 100)) ]; do
    case=$((case + 1))
    awk -v seed=$case -v to="$work" -f "$here/numbers_cases.awk"
    "$fleet" plan "$work/map" "$work/scen" --tries 20 > "$work/plan" 2> "$work/err" || continue
    awk -v seed=$case -v to="$work" -f "$here/numbers.awk" "$work/map" "$work/scen" "$work/plan"
    "$fleet" check "$work/map" "$work/scen" "$work/changed" --numbers > "$work/numbers" 2>> "$work/err"
    cmp -s "$work/numbers" "$work/want" || {
        echo "numbers: case $case differs"
        diff "$work/want" "$work/numbers"
        exit 1
    }
    compared=$((compared + 1))
done
echo "numbers: $compared of $case cases compared"
[ $compared -ge "$count" ]
