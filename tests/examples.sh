#!/bin/sh
# Runs a built program as a user would, and compares what it prints, what it prints on standard error and its status
# with what is due, to the letter:
#     tests/examples.sh FLEET [LIBRARY]
# Every fenced example of README.md and docs/, and what they cannot show: help, transcripts, texts, files, standard
# streams, the warehouse, and what must not compile. `make examples` calls it. The last line counts: `examples: N
# passed, M failed`.

root=$(cd "$(dirname "$0")/.." && pwd) || exit 2
case $1 in
    /*) fleet=$1 ;;
    *) fleet=$(pwd)/$1 ;;
esac
case $2 in
    /* | '') library=$2 ;;
    *) library=$(pwd)/$2 ;;
esac
[ -f "$fleet" ] || { echo "examples: $fleet is no program" >&2; exit 2; }
work=$(mktemp -d) || exit 2
trap 'chmod -R u+rwx "$work"; rm -rf "$work"' EXIT
beside=
trap 'kill $beside 2> /dev/null; exit 2' INT TERM HUP
mkdir "$work/bin" "$work/room"
cp "$fleet" "$work/bin/fleet" && chmod 755 "$work/bin/fleet" || exit 2
PATH=$work/bin:$PATH
LC_ALL=C
export PATH LC_ALL
# Of a make that runs several jobs a compiler would say that it cannot join them.
unset MAKEFLAGS MFLAGS
passed=0 failed=0 skipped=0
room=$work/room
cc=${CC:-cc}

# Whether there is such a command.
has() {
    command -v "$1" > /dev/null 2>&1
}

# script NAME: a script that command lines call, from standard input.
script() {
    cat > "$work/bin/$1" && chmod +x "$work/bin/$1"
}

# bytes HEX..: the bytes that the digits spell.
script bytes <<'EOF'
#!/bin/sh
printf "$(echo "$*" | awk '
    function digit(at) { return index("0123456789ABCDEF", substr($0, at, 1)) - 1 }
    { gsub(/ /, ""); for (i = 1; i < length($0); i += 2) printf "\\%03o", 16 * digit(i) + digit(i + 1) }')"
EOF

# A new folder in which commands run, with a copy of the examples and of the tools.
enter() {
    room=$work/room/$1
    mkdir -p "$room"
    cp -R "$root/examples" "$root/tools" "$room/"
}

# Runs a command line in the room.
try() {
    (cd "$room" && timeout 120 sh -c "$1") > "$work/out" 2> "$work/err" < /dev/null
    status=$?
}

# Judges what the last command did: its name, its command line, and the status due. What is due on its outputs is in
# want.out and want.err.
judge() {
    why=
    [ "$status" = "$3" ] || why="status $status, due $3"
    cmp -s "$work/out" "$work/want.out" || why="$why; standard output"
    cmp -s "$work/err" "$work/want.err" || why="$why; standard error"
    if [ -z "$why" ]; then
        passed=$((passed + 1))
        return
    fi
    failed=$((failed + 1))
    echo "FAILED $1: $why"
    printf '    $ %s\n' "$2" | cut -c 1-200
    differs out
    differs err
}

# alike NAME COMMAND [none]: judges what stands in out and was not printed by one command line. Unless `none` is due,
# something is.
alike() {
    [ -s "$work/want.out" ] || [ "$3" = none ] || echo something > "$work/want.out"
    : > "$work/err"
    : > "$work/want.err"
    status=0
    judge "$1" "$2" 0
}

# Shows where an output is not what is due.
differs() {
    cmp -s "$work/$1" "$work/want.$1" || diff "$work/want.$1" "$work/$1" | sed "s/^/    $1: /" | cut -c 1-200 | head -n 8
}

# check NAME STATUS OUT ERR COMMAND: the outputs as formats of printf.
check() {
    try "$5"
    printf "$3" > "$work/want.out"
    printf "$4" > "$work/want.err"
    judge "$1" "$5" "$2"
}

skip() {
    skipped=$((skipped + 1))
    echo "skipped: $1"
}

# document ROOM PAGE [FILES]: each example of a document, in the order of the document, in one room, with the files of a
# folder.
document() {
    enter "$1"
    [ -z "$3" ] || cp "$3"/* "$room/"
    mkdir "$work/$1"
    awk -v to="$work/$1" -f "$root/tests/fenced.awk" "$root/$2" || failed=$((failed + 1))
    for cmd in "$work/$1"/*.cmd; do
        [ -f "$cmd" ] || continue
        it=${cmd%.cmd}
        command=$(cat "$cmd")
        try "$command"
        cp "$it.out" "$work/want.out"
        cp "$it.err" "$work/want.err"
        judge "$2 line $(basename "$it" | sed 's/^0*//')" "$command" "$(cat "$it.status")"
    done
}

# The longest section runs beside the others, with a folder and counts of its own.
mkdir "$work/beside" "$work/beside/room" && cp -R "$work/bin" "$work/beside/" || exit 2
(
    work=$work/beside
    PATH=$work/bin:$PATH
    . "$root/tests/memory.sh"
    echo "$passed $failed $skipped" > "$work/counts"
) &
beside=$!

for section in documents names commands transcripts texts conflicts warehouse plans tools files limits streams library lent; do
    . "$root/tests/$section.sh"
done

wait
{ read -r more_passed more_failed more_skipped < "$work/beside/counts"; } 2> /dev/null || { more_failed=1; echo 'FAILED memory: it came to no end'; }
passed=$((passed + more_passed)) failed=$((failed + more_failed)) skipped=$((skipped + more_skipped))

[ "$skipped" = 0 ] || echo "examples: $skipped skipped"
echo "examples: $passed passed, $failed failed"
[ "$failed" = 0 ]
