#!/bin/sh
# Robots of different speeds against `fleet dispatch` (or the program in the variable FLEET), through two pipes:
#     [AHEAD=K] [REPEATS=1] [KILL=N] [CUT=N] sh tools/robots.sh MAP SCEN PROGRAM [SEED] [TRACE]
# The robots are in robots.awk, which checks from outside that no two of them claim one cell, and that each action is
# ordered once. The clock ticks every hundredth of a second. Its number of ticks is printed on standard error. TRACE, if
# it is named, gets the places of the robots in each tick, for tools/film.awk. A robot has up to K orders ahead (1).
# With REPEATS some reports come twice, or late a second time. With KILL the dispatch is killed after every N ticks;
# with CUT the pipe that brings it the reports breaks within every Nth line. Then another one goes on after the log that
# it keeps; what was under way is lost, and a robot that is ordered again what it did reports anew.

fleet=${FLEET:-fleet}
here=$(cd "$(dirname "$0")" && pwd) || exit 2
pipes=$(mktemp -d) || exit 2
trap 'rm -rf "$pipes"' EXIT
trap 'exit 2' INT TERM HUP
mkfifo "$pipes/reports" "$pipes/orders" "$pipes/line" || exit 2
: > "$pipes/log"
"$fleet" instance "$1" "$2" > "$pipes/instance" || exit 2

# Gives on the lines of the reports, and of the Nth only a part.
give_on() {
    given=0
    while IFS= read -r line; do
        given=$((given + 1))
        if [ "$given" -eq "${CUT:-0}" ]; then
            printf '%s' "${line%?}"
            return
        fi
        printf '%s\n' "$line"
    done
}

# Begins a dispatch, after the log, and what gives it the reports.
begin() {
    give_on <&3 > "$pipes/line" &
    giver=$!
    "$fleet" dispatch "$1" "$2" "$3" --ahead "${AHEAD:-1}" --resume "$pipes/log" --log "$pipes/log" < "$pipes/line" &
    dispatch=$!
}

{
    exec 3<> "$pipes/reports"
    # Where the robots end first, nobody would end what waits for their reports.
    trap 'kill -9 $giver $dispatch 2> /dev/null' EXIT
    trap 'exit 2' PIPE TERM HUP
    begin "$1" "$2" "$3"
    ticks=0
    while :; do
        if ! kill -0 $dispatch 2> "$pipes/gone"; then
            wait $dispatch
            ended=$?
            # Killed, or at the end of a pipe that broke; else it has ended.
            is_cut=$([ -n "$CUT" ] && tail -n 1 "$pipes/said" | grep -c '^dispatch 4 Ended')
            kill -9 $giver 2> "$pipes/gone"
            wait $giver 2> "$pipes/gone"
            [ $ended -eq 137 ] || [ $ended$is_cut = 11 ] || break
            echo again
            begin "$1" "$2" "$3"
        fi
        echo tick
        sleep 0.01
        ticks=$((ticks + 1))
        if [ -n "$KILL" ] && [ $((ticks % KILL)) -eq 0 ]; then
            kill -9 $dispatch 2> "$pipes/gone"
        fi
    done
    trap - EXIT
} > "$pipes/orders" 2> "$pipes/said" &
# An awk that waits for a whole block of a pipe, as mawk does, is asked to take it line by line.
by_line=
awk -W version < /dev/null 2>&1 | grep -q '^mawk' && by_line='-W interactive'
awk $by_line -v reports="$pipes/reports" -v log_file="$pipes/log" -v repeats="$REPEATS" -v seed="${4:-1}" -v trace="$5" -f "$here/robots.awk" "$pipes/instance" - < "$pipes/orders"
status=$?
wait
grep -v -i -e kill -e '^dispatch 4 Ended' "$pipes/said" >&2
exit $status
