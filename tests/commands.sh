# Help, wrong usage and statuses; and that what docs/COMMANDS.md and tests/transcripts/help.md say of the commands is
# what the program's help says.

enter commands
commands=$(cd "$room" && fleet --help | awk '/^Commands:/ { on = 1; next } /^$/ { on = 0 } on && $1 != "help" { print $1 }')
check 'help lists the commands' 0 "$(echo $(sed -n 's/^[^#].*|\([a-z]*\) .*/\1/p' "$root/tests/commands.list"))\n" '' "echo $(echo "$commands" | tr '\n' ' ')"

# Help in all its forms is that of tests/transcripts/help.md, which is compared with the other transcripts.
for command in '' $commands; do
    check "tests/transcripts/help.md has the help of fleet $command" 0 '1\n' '' "grep -c '^\\\$ fleet ${command:+$command }--help\$' '$root/tests/transcripts/help.md'"
    check "fleet ${command:+$command }-h" 0 '' '' "fleet $command --help > a && fleet $command -h > b && cmp a b"
    check "fleet help $command" 0 '' '' "fleet $command --help > a && fleet help $command > b && cmp a b"
    [ "$command" ] || continue
    # The words and options of the command's heading in docs/COMMANDS.md, and those of its help.
    (cd "$room" && fleet "$command" --help) | awk -v command="$command" '
        /^Usage:/ { for (i = 4; i <= NF; i++) words = words " " $i }
        /^ +--/ { option = $1; value = $2; values = ""
            if (match($0, /possible values: [^]]*/)) { values = substr($0, RSTART + 17, RLENGTH - 17); gsub(/, /, "|", values) }
            options = options " [" option (value ~ /^</ ? " " (values == "" ? value : values) : "") "]" }
        END { sub(/ \[OPTIONS\]/, "", words); line = words options; gsub(/[<>]/, "", line); print "### `fleet " command line "`" }' > "$work/want.out"
    grep "^### \`fleet $command " "$root/docs/COMMANDS.md" > "$work/out"
    alike "docs/COMMANDS.md's heading of $command has its words and options" "fleet $command --help"
done

check 'fleet.pc has the version of the program' 0 '' '' "fleet --version | sed 's/^fleet //' > a && sed -n 's/^Version: //p' '$root/include/fleet.pc.in' | cmp - a"

# Wrong usage.
hint="\nFor more information, try '--help'.\n"
check 'an unknown command' 2 '' "error: unrecognized subcommand 'fly'\n\nUsage: fleet <COMMAND>\n       fleet < HEXADECIMAL\n$hint" 'fleet fly'
check 'a word too few' 2 '' "error: the following required arguments were not provided:\n  <SCEN>\n\nUsage: fleet auto <MAP> <SCEN>\n$hint" 'fleet auto m'
check 'a word too many' 2 '' "error: unexpected argument 'x' found\n\nUsage: fleet auto [OPTIONS] <MAP> <SCEN>\n$hint" 'fleet auto m s x'
check 'a number too large' 2 '' "error: invalid value '65536' for '--agents <K>': 65536 is not in 0..=65535\n$hint" 'fleet auto m s --agents 65536'
check 'a horizon of 0' 2 '' "error: invalid value '0' for '--horizon <H>': 0 is not in 1..=65535\n$hint" 'fleet auto m s --horizon 0'
check 'a value that is none' 2 '' "error: invalid value 'x' for '--deps <DEPS>'\n  [possible values: all, last]\n$hint" 'fleet auto m s --deps x'
check 'wrong usage before files' 2 '' "error: unexpected argument '--holds' found\n\n  tip: to pass '--holds' as a value, use '-- --holds'\n\nUsage: fleet plan <MAP> <SCEN>\n$hint" 'fleet plan m s --holds h'
check 'a word that is no text' 2 '' 'error: a word of the command line is no text\n' "fleet \"\$(printf '\\377')\""
while read -r line; do
    check "wrong usage: $line" 2 "${line#*: }\n" '' "fleet ${line%%: *} > said 2> told; status=\$?; cat said; sed 1q told; exit \$status"
done <<'EOF'
--agents 1: error: unexpected argument '--agents' found
inst m s: error: unrecognized subcommand 'inst'
help fly: error: unrecognized subcommand 'fly'
instance: error: the following required arguments were not provided:
instance a b c: error: unexpected argument 'c' found
instance x y z --help: error: unexpected argument 'z' found
instance m s --agents: error: a value is required for '--agents <K>' but none was supplied
instance m s --agents x: error: invalid value 'x' for '--agents <K>': invalid digit found in string
instance m s --agents=-1: error: invalid value '-1' for '--agents <K>': -1 is not in 0..=65535
instance m s --agents 1 --agents 1: error: the argument '--agents <K>' cannot be used multiple times
instance m s --agent 1: error: unexpected argument '--agent' found
plan m s --tries 0: error: invalid value '0' for '--tries <N>': 0 is not in 1..=1000000
auto m s --tries 1000001: error: invalid value '1000001' for '--tries <N>': 1000001 is not in 1..=1000000
plan m s --best all: error: invalid value 'all' for '--best <BEST>'
check m s p --numbers --numbers: error: the argument '--numbers' cannot be used multiple times
check m s p --numbers=1: error: unexpected value '1' for '--numbers' found; no more were expected
compile m s p o --dwell 1000001: error: invalid value '1000001' for '--dwell <N>': 1000001 is not in 0..=1000000
rehearse p q: error: unexpected argument 'q' found
rehearse p --agents 1: error: unexpected argument '--agents' found
rehearse p --holds a --holds b: error: the argument '--holds <FILE>' cannot be used multiple times
list p --holds h: error: unexpected argument '--holds' found
times m s p --broken: error: a value is required for '--broken <ACTIONS>' but none was supplied
times m s p --costs a --costs b: error: the argument '--costs <FILE>' cannot be used multiple times
rest m s p l a: error: the following required arguments were not provided:
rest m s p l a b --map-out: error: a value is required for '--map-out <FILE>' but none was supplied
dispatch m s p --ahead 0: error: invalid value '0' for '--ahead <K>': 0 is not in 1..=255
dispatch m s p --ahead 256: error: invalid value '256' for '--ahead <K>': 256 is not in 1..=255
dispatch m s p --unnumbered=1: error: unexpected value '1' for '--unnumbered' found; no more were expected
EOF
