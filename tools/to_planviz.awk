# A result in the form of the League of Robot Runners from plan text, for PlanViz: awk -f to_planviz.awk PLAN > JSON
# The action model is MAPF: R, L, U and D go right, left, up and down, W waits. Robots that arrive early wait to the
# end. Status 1 if the text is no plan, or a step of it is longer than one cell.
{
    sub(/[ \t\r]*$/, "")
    agents++
    for (i = 1; i <= NF; i++) {
        if ($i !~ /^[0-9]+,[0-9]+$/) { wrong = 1; exit }
        split($i, at, ",")
        dx = at[1] - x
        dy = at[2] - y
        x = at[1] + 0
        y = at[2] + 0
        if (i == 1) { start[agents] = "[" y "," x ",\"E\"]"; continue }
        if (dx * dx + dy * dy > 1) { wrong = 1; exit }
        action = dx > 0 ? "R" : dx < 0 ? "L" : dy > 0 ? "D" : dy < 0 ? "U" : "W"
        actions[agents] = actions[agents] (i == 2 ? "" : ",") action
        if (action != "W") arrival[agents] = i - 1
    }
    steps[agents] = NF - 1
    if (NF == 0) { wrong = 1; exit }
    if (NF - 1 > makespan) makespan = NF - 1
}

END {
    if (wrong || !agents) { print "to_planviz: no plan" > "/dev/stderr"; exit 1 }
    for (i = 1; i <= agents; i++) {
        for (t = steps[i]; t < makespan; t++) actions[i] = actions[i] (t == 0 ? "W" : ",W")
        costs += arrival[i]
        starts = starts (i == 1 ? "" : ",") start[i]
        paths = paths (i == 1 ? "\"" : ",\"") actions[i] "\""
        none = none (i == 1 ? "[]" : ",[]")
    }
    printf "{\"actionModel\":\"MAPF\",\"AllValid\":\"Yes\",\"teamSize\":%d,\"numTaskFinished\":0,\"sumOfCost\":%d,\"makespan\":%d,\n", agents, costs, makespan
    printf "\"start\":[%s],\n\"actualPaths\":[%s],\n\"plannerPaths\":[%s],\n", starts, paths, paths
    printf "\"plannerTimes\":[],\"errors\":[],\"tasks\":[],\n\"events\":[%s]}\n", none
}
