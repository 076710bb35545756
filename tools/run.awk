# Reads a map, a trace and the holds of its run, in any order, for the scripts beside this one:
#     awk -f tools/run.awk -f tools/SCRIPT.awk [MAP] TRACE [HOLDS]
# In place of a trace a plan may stand: then each robot is on time. Status 1 if a file is none of these, or there is no
# trace or plan, or more than one. At the end there are: width, height and blocked (a path of SVG) of the map; agents,
# last (the last time), X[i, t] and Y[i, t]; arrival[i], the time from which agent i stays where it is; and state(i, t),
# what agent i does in tick t.

{ sub(/[ \t\r]*$/, "") }
FNR == 1 { kind = kind_of($0) }

function kind_of(line) {
    if (line ~ /^type /) return "map"
    if (line ~ /^(-|[0-9]+( [0-9]+)*)$/) return "holds"
    if (line ~ /^0:( -?[0-9.]+,-?[0-9.]+)+$/) { runs++; return "trace" }
    if (line ~ /^[0-9]+,[0-9]+([ \t]+[0-9]+,[0-9]+)*$/) { runs++; return "plan" }
    refuse(FILENAME " is no map, trace, plan or holds")
}

function refuse(words) {
    print "run: " words > "/dev/stderr"
    refused = 1
    exit 1
}

kind == "map" && $1 == "height" { height = $2 + 0 }
kind == "map" && $1 == "width" { width = $2 + 0 }

# Each run of blocked cells in a row is one rectangle.
kind == "map" && FNR > 4 {
    for (x = 1; x <= width; x = end + 1) {
        for (end = x; end <= width && index("@OTW", substr($0, end, 1)); end++);
        if (end > x) blocked = blocked "M" x - 1 " " FNR - 5 "h" end - x "v1H" x - 1 "z"
    }
}

kind == "trace" && /^[0-9]+:/ {
    last = $1 + 0
    agents = NF - 1
    for (i = 0; i < agents; i++) {
        split($(i + 2), at, ",")
        X[i, last] = at[1] + 0
        Y[i, last] = at[2] + 0
    }
}

kind == "plan" {
    for (t = 0; t < NF; t++) {
        split($(t + 1), at, ",")
        X[agents + 0, t] = at[1] + 0
        Y[agents + 0, t] = at[2] + 0
    }
    steps[agents + 0] = NF - 1
    if (NF - 1 > last) last = NF - 1
    agents++
}

# Line t of the holds is tick t, from time t - 1 to time t.
kind == "holds" && $1 != "-" { for (k = 1; k <= NF; k++) held[$k + 0, FNR] = 1 }

function goes(i, t) { return X[i, t] != X[i, t - 1] || Y[i, t] != Y[i, t - 1] }

function state(i, t) {
    if (goes(i, t)) return "goes"
    if (t > arrival[i]) return "rests"
    return ((i, t) in held) ? "held" : "waits"
}

END {
    if (refused) exit 1
    if (runs != 1) refuse(runs ? "more than one trace or plan" : "no trace or plan")
    for (i in steps) {
        for (t = steps[i] + 1; t <= last; t++) {
            X[i, t] = X[i, steps[i]]
            Y[i, t] = Y[i, steps[i]]
        }
    }
    for (i = 0; i < agents; i++) {
        arrival[i] = 0
        for (t = last; t > 0 && !goes(i, t); t--);
        if (t > 0) arrival[i] = t
    }
}
