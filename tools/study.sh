#!/bin/sh
# What late robots do to a plan:
#     tools/study.sh MAP SCEN [--agents K] [--horizon H] [--tries N] [--best chain|cost] [--deps all|last] [--dwell N]
#     tools/study.sh MAP SCEN --plan PLAN [--agents K] [--deps all|last] [--dwell N]
# Plans (or takes the plan that was made elsewhere) and compiles once (with the program `fleet`, or that in the variable
# FLEET), and then runs the program under random holds: for each chance with which an agent stops in a tick (for 3 to 12
# ticks; other chances: --chances '0.1 0.2'), five lists of holds, with the seeds 1 to 5, four times as long as the
# chain. Prints CSV, a line for each chance: of the plan the agents, steps (the makespan), cost (the sum of costs),
# bound (the sum of the distances to the goals) and chain, and run_cost, the sum of costs of its run with nobody held;
# the chance; of the five runs the ticks in which some ready agent was held (the mean), the ticks (least, mean and
# most), and the delay of an agent, by which it comes to rest later than with nobody held: the mean, that which 95 of
# 100 do not exceed, and the worst, of all agents in all five runs.

fleet=${FLEET:-fleet}
tools=$(cd "$(dirname "$0")" && pwd) || exit 2
work=$(mktemp -d) || exit 2
trap 'rm -rf "$work"' EXIT
trap 'exit 2' INT TERM HUP
[ $# -ge 2 ] || { sed -n 's/^#     //p' "$0" >&2; exit 2; }
map=$1 scen=$2
shift 2

# Options go to the commands that have them.
agents= planning= compiling= given= chances='0.001 0.002 0.005 0.01 0.02 0.05'
while [ $# -gt 0 ]; do
    [ $# -ge 2 ] || { echo "study: $1 needs a value" >&2; exit 2; }
    case $1 in
        --agents) agents="--agents $2" ;;
        --horizon | --tries | --best) planning="$planning $1 $2" ;;
        --deps | --dwell) compiling="$compiling $1 $2" ;;
        --plan) given=$2 ;;
        --chances) chances=$2 ;;
        *) echo "study: $1 is no option" >&2; exit 2 ;;
    esac
    shift 2
done
if [ -n "$given" ]; then
    [ -z "$planning" ] || { echo "study:$planning is of no use with a plan" >&2; exit 2; }
    cat "$given" > "$work/plan" || exit 3
else
    "$fleet" plan "$map" "$scen" $agents $planning > "$work/plan" || exit
fi
"$fleet" check "$map" "$scen" "$work/plan" $agents --numbers > "$work/checked" || exit
"$fleet" compile "$map" "$scen" "$work/plan" "$work/program" $agents $compiling > "$work/compiled" || exit

# run NAME [--holds FILE]: the last lines of a run, and the time from which on each agent rests in it.
run() {
    name=$1
    shift
    "$fleet" run "$map" "$scen" "$work/program" $agents "$@" > "$work/trace" || exit
    tail -n 4 "$work/trace" > "$work/$name.end"
    arrivals "$work/trace" > "$work/$name.arrivals"
}

# The time from which on each agent rests, of a trace or a plan; their sum; the number behind a name.
arrivals() { awk -v csv=1 -f "$tools/run.awk" -f "$tools/numbers.awk" "$1" | awk -F , 'NR > 1 { print $2 }'; }
sum() { awk '{ sum += $1 } END { print sum + 0 }'; }
number() { sed -n "s/^$1 //p" "$2"; }

run free
chain=$(number chain "$work/free.end")
numbers=$(for name in agents steps cost bound; do number $name "$work/checked"; done | paste -sd , -),$chain,$(sum < "$work/free.arrivals")
echo agents,steps,cost,bound,chain,run_cost,chance,held,least,mean,most,delay,delay95,worst
for chance in $chances; do
    : > "$work/ends"
    : > "$work/delays"
    for seed in 1 2 3 4 5; do
        awk -v agents="$(number agents "$work/checked")" -v ticks=$((4 * chain)) -v chance="$chance" -v least=3 -v most=12 -v seed="$seed" -f "$tools/delays.awk" > "$work/holds"
        run held --holds "$work/holds"
        cat "$work/held.end" >> "$work/ends"
        paste "$work/held.arrivals" "$work/free.arrivals" | awk '{ print $1 - $2 }' >> "$work/delays"
    done
    sort -n "$work/delays" | awk -v front="$numbers,$chance" -v ends="$work/ends" '
        { delay[NR] = $1; sum += $1 }
        END {
            while ((getline line < ends) > 0) {
                split(line, word, " ")
                if (word[1] == "held") held += word[2]
                if (word[1] != "ticks") continue
                ticks += word[2]
                if (++n == 1 || word[2] < least) least = word[2]
                if (word[2] > most) most = word[2]
            }
            at = int(.95 * NR)
            if (at < .95 * NR) at++
            printf "%s,%.0f,%d,%.0f,%d,%.1f,%d,%d\n", front, held / n, least, ticks / n, most, sum / NR, delay[at], delay[NR]
        }'
done
