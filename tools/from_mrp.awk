# Plan text from a schedule of libMultiRobotPlanning: awk -f from_mrp.awk YAML > PLAN
# Below `schedule:` each agent, `agent0:` and so on, has entries of x, y and t, one for each time from 0, in blocks (`-
# x: X`, `y: Y`, `t: T`) or in flow style (`- {x: X, y: Y, t: T}`, or all of them as `[{..}, {..}]`). Status 1 if one is
# missing.
{ sub(/\r$/, "") }
/^[ \t]*(#.*)?$/ { next }
/^[^ \t]/ { inside = ($0 ~ /^schedule:/); sub(/^schedule:/, "") }
!inside { next }
{
    gsub(/[{-]/, " - ")
    gsub(/["\[\]},]/, " ")
    gsub(/:/, ": ")
    for (k = 1; k <= NF; k++) {
        if ($k ~ /^agent[0-9]+:$/) {
            if (n || $k != "agent" agents ":") wrong = 1
            agents++
            times = 0
        } else if ($k == "-") {
            if (n) wrong = 1
        } else if ($k ~ /^[xyt]:$/) {
            if (!agents || ($k in entry) || $(k + 1) !~ /^[0-9]+$/) wrong = 1
            entry[$k] = $(k + 1) + 0
            n++
            k++
            if (n == 3) take()
        } else wrong = 1
        if (wrong) exit
    }
}
function take() {
    if (entry["t:"] != times++) wrong = 1
    paths[agents] = paths[agents] (times == 1 ? "" : " ") entry["x:"] "," entry["y:"]
    delete entry["x:"]; delete entry["y:"]; delete entry["t:"]
    n = 0
}
BEGIN { agents = 0 }
END {
    for (i = 1; i <= agents; i++) if (paths[i] == "") wrong = 1
    if (wrong || n || !agents) { print "from_mrp: no schedule of all agents at all times" > "/dev/stderr"; exit 1 }
    for (i = 1; i <= agents; i++) print paths[i]
}
