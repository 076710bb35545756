# How long a fleet takes that is led by orders and reports whose messages take time, some orders ahead:
#     fleet list PROGRAM | awk [-v ahead=K] [-v lag=L] [-v start=S] [-v seed=N] -f tools/ahead.awk
# An agent is told its next actions, up to K (1) that it has not reported, in turn, each as soon as what it awaits is
# reported. An order and a report take L ticks (2) each. A move takes an agent 10 ticks, or up to half as many again, as
# the agent is, and S ticks (5) more if it begins it from a stand: its order was not there yet when the move before
# ended. Prints how many ticks the fleet takes.

BEGIN {
    if (ahead == "") ahead = 1
    if (lag == "") lag = 2
    if (start == "") start = 5
    srand(seed == "" ? 1 : seed)
}

# When the action is ordered: `reported` of what it awaits, and of the last action that has to be before it is told.
function order_of(i, n,   at, k, count, words) {
    at = n > 1 ? ordered[i, n - 1] : 0
    if (n > ahead && ended[i, n - ahead] + lag > at) at = ended[i, n - ahead] + lag
    count = split(awaits[i, n], words, " ")
    for (k = 1; k <= count; k++) {
        if (!(words[k] in end_of)) return -1
        if (end_of[words[k]] + lag > at) at = end_of[words[k]] + lag
    }
    return at
}

# Carries out as many of the agent's next actions as can be said, and answers how many.
function carry_out(i,   n, at, came, free, begun, more) {
    for (n = done[i] + 1; n <= moves[i]; n++) {
        at = order_of(i, n)
        if (at < 0) break
        ordered[i, n] = at
        came = at + lag
        free = n > 1 ? ended[i, n - 1] : 0
        begun = came > free ? came : free
        ended[i, n] = begun + 10 * slow[i] + (n > 1 && came <= free ? 0 : start)
        end_of[i ":" n] = ended[i, n]
        if (ended[i, n] > last) last = ended[i, n]
        done[i] = n
        more++
    }
    return more
}

/^agent [0-9]+:/ {
    i = $2 + 0
    agents = i + 1
    slow[i] = 1 + rand() / 2
    next
}
/^[0-9]+:[0-9]+ / {
    split($1, name, ":")
    moves[name[1]] = name[2]
    for (k = 6; k <= NF && $5 == "after"; k++) awaits[name[1], name[2]] = awaits[name[1], name[2]] " " $k
    left++
}

END {
    if (!agents) { print "ahead: no list of a program" > "/dev/stderr"; exit 1 }
    while (left > 0) {
        step = 0
        for (i = 0; i < agents; i++) step += carry_out(i)
        if (!step) { print "the program cannot be carried out"; exit 1 }
        left -= step
    }
    printf "ahead %d lag %d start %d ticks %.0f\n", ahead, lag, start, last
}
