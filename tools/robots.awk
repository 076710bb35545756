# Plays the robots of a dispatch, each with a speed of its own, and checks from outside that they keep apart:
#     awk -v reports=PIPE -v log_file=FILE [-v repeats=1] [-v seed=N] [-v trace=FILE] \
#         -f tools/robots.awk INSTANCE ORDERS
# robots.sh calls it. INSTANCE is what `fleet instance` prints: where the robots stand. ORDERS are the lines of `fleet
# dispatch`, and between them lines `tick`, the clock, and `again` where a dispatch was killed and another one goes on.
# A move takes a robot some ticks, by chance, of which some robots need more than others. All that end in one tick are
# one report; FILE is the log that the dispatch keeps. A robot claims the cell on which it stands, and from its orders
# on also those to which they lead, until it has reported; it reports anew what it has carried out and is ordered again.
# At the end stands how many orders and ticks there were, or else what was wrong. In the trace a line is a tick.

function wrong(text) {
    if (!fault) print "wrong: " text
    fault = 1
    exit 1
}

function claim(cell, i) {
    if (cell in owner && owner[cell] != i) wrong("robots " owner[cell] " and " i " claim " cell)
    owner[cell] = i
    claims[cell]++
}

function release(cell) {
    if (--claims[cell] == 0) delete owner[cell]
}

# Says a report.
function say(line) {
    print line > reports
    fflush(reports)
}

# Robot i begins its next action, if it has the order.
function begin(i) {
    if (done[i] == told[i]) return
    is_moving[i] = 1
    began[i] = now
    ends[i] = now + slow[i] + int(rand() * 3)
}

# How far robot i is on its way, as a place.
function place(i,   from, to, part) {
    split(here[i], from, ",")
    if (!(i in is_moving)) return here[i]
    split(way[i, done[i] + 1], to, ",")
    part = (now - began[i]) / (ends[i] - began[i])
    return sprintf("%.2f,%.2f", from[1] + part * (to[1] - from[1]), from[2] + part * (to[2] - from[2]))
}

function note(   i, line) {
    if (trace == "") return
    line = now ":"
    for (i = 0; i < robots; i++) line = line " " place(i)
    print line > trace
}

BEGIN {
    srand(seed)
    now = 0
    # A report of nobody, which opens the pipe.
    say("-")
}

# The robots, on their starts.
NR == FNR && /^[0-9]+:/ {
    i = $1 + 0
    robots = i + 1
    here[i] = $2
    sent_to[i] = $2
    goal[i] = $3
    done[i] = 0
    told[i] = 0
    slow[i] = 1 + int(rand() * 6)
    claim($2, i)
}
NR == FNR { next }

FNR == 1 { note() }

/^go [0-9]+:[0-9]+ [0-9]+,[0-9]+ [0-9]+,[0-9]+$/ {
    split($2, name, ":")
    i = name[1]
    n = name[2]
    if (n <= told[i]) {
        if (!is_again || $4 != way[i, n]) wrong("action " $2 " is ordered twice")
        if (n <= done[i]) anew[i] = 1
        next
    }
    if (n != told[i] + 1) wrong("action " $2 " is ordered out of turn")
    if (sent_to[i] != $3) wrong("robot " i " is to go to " sent_to[i] ", and is sent from " $3)
    claim($4, i)
    way[i, n] = $4
    sent_to[i] = $4
    told[i] = n
    orders++
    if (!(i in is_moving)) begin(i)
    next
}

/^again$/ { is_again = 1; next }

/^tick$/ && !over {
    now++
    line = ""
    for (i = 0; i < robots; i++) {
        if ((i in is_moving) && ends[i] <= now) {
            done[i]++
            anew[i] = 1
            release(here[i])
            here[i] = way[i, done[i]]
            delete is_moving[i]
            begin(i)
        }
        if (i in anew) line = line (line == "" ? "" : " ") i ":" done[i]
        delete anew[i]
    }
    note()
    if (repeats && before != "" && rand() < 0.3) say(before)
    if (line != "") {
        say(line)
        if (repeats && rand() < 0.3) say(line)
        before = line
    }
    next
}
/^tick$/ { next }

/^arrived$/ {
    over = 1
    for (i = 0; i < robots; i++) if (here[i] != goal[i]) wrong("robot " i " is not on its goal")
    next
}
$1 == "agents" { if ($2 != robots) wrong($0); next }
$1 == "moves" { if ($2 != orders) wrong($0); next }
$1 == "reports" {
    while ((getline line < log_file) > 0) logged++
    if ($2 != logged) wrong($0)
    next
}
{ wrong("what is this: " $0) }

END {
    if (fault) exit 1
    if (!over) { print "wrong: not all have arrived"; exit 1 }
    print robots " robots kept apart"
    print orders " orders"
    print now " ticks" > "/dev/stderr"
}
