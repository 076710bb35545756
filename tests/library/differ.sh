#!/bin/sh
# Random inputs through the program and through libfleet, which have to answer alike (differ.c):
#     tests/library/differ.sh FLEET LIBRARY [COUNT [SEED]]
# 10,000 where no number is given. On standard error it says how many were answered, and refused with each number.

here=$(cd "$(dirname "$0")" && pwd) || exit 2
fleet=$(cd "$(dirname "$1")" && pwd)/$(basename "$1") && library=$(cd "$2" && pwd) || exit 2
work=$(mktemp -d) || exit 2
trap 'rm -rf "$work"' EXIT
trap 'exit 2' INT TERM HUP
"${CC:-cc}" -Wall -Wextra -Werror -O1 -I"$library" -o "$work/differ" "$here/differ.c" "$library/libfleet.a" || exit 2
cd "$work" && ./differ "$fleet" "${3:-10000}" "${4:-1}"
