#!/bin/sh
# What a reader has to believe of some words of a contract, each named FILE.NAME: their definitions with all that these
# cite, and last how many lines that are and of which files. Status 1 if there is no such definition.
#     sh tools/believed.sh Run.IsSafe

cd "$(dirname "$0")/.." || exit 2
LC_ALL=C
export LC_ALL
sh tools/specs.sh | xargs awk -v names="$*" -f tools/believed.awk || exit 1
