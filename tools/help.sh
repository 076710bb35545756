#!/bin/sh
# The page of help texts, tests/transcripts/help.md, as the program FLEET prints them: sh tools/help.sh FLEET
fleet=${1:-fleet}
printf '# Help texts\n\nWhat `fleet --help` and `fleet COMMAND --help` print.\n'
show() {
    printf '\n```\n$ fleet %s\n' "$*"
    "$fleet" "$@"
    printf '```\n'
}
show --help
show --version
for command in $("$fleet" --help | awk '/^Commands:/ { on = 1; next } /^$/ { on = 0 } on && $1 != "help" { print $1 }'); do
    show "$command" --help
done
