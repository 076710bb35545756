# The numbers of a run or of a plan, an agent a line and then all of them:
#     awk -f tools/run.awk -f tools/numbers.awk TRACE [HOLDS]
#     awk -f tools/run.awk -f tools/numbers.awk PLAN
# Its arrival (the tick of its last move), its moves, and the ticks before that in which it was held, or waited for
# another. The sum of the arrivals is the sum of costs, the greatest of them the makespan.
# -v csv=1: with commas, and without the last lines.

END {
    OFS = csv ? "," : " "
    print "agent", "arrival", "moves", "held", "waits"
    for (i = 0; i < agents; i++) {
        count["goes"] = count["held"] = count["waits"] = 0
        for (t = 1; t <= arrival[i]; t++) count[state(i, t)]++
        print i, arrival[i], count["goes"], count["held"], count["waits"]
        costs += arrival[i]
        moves += count["goes"]
        holds += count["held"]
        waits += count["waits"]
        if (arrival[i] > makespan) makespan = arrival[i]
    }
    if (csv) exit
    print "sum of costs", costs + 0
    print "makespan", makespan + 0
    print "moves", moves + 0
    print "held", holds + 0
    print "waits", waits + 0
}
