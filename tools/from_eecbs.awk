# Plan text from paths of EECBS, CBSH2-RTC, PBS or MAPF-LNS2: awk -f from_eecbs.awk PATHS > PLAN
# Their lines are `Agent I: (row,column)->(row,column)->..`; other lines are passed over. Status 1 if an agent is
# missing or has no cell, or a cell is wrong.
/^Agent [0-9]+:/ {
    agent = $2 + 0
    sub(/^Agent [0-9]+:[ \t]*/, "")
    sub(/[ \t\r]*$/, "")
    sub(/->$/, "")
    cells = split($0, cell, /->/)
    if (!cells) { wrong = 1; exit }
    path = ""
    for (i = 1; i <= cells; i++) {
        if (cell[i] !~ /^\([0-9]+,[0-9]+\)$/) { wrong = 1; exit }
        split(substr(cell[i], 2, length(cell[i]) - 2), at, ",")
        path = path (i == 1 ? "" : " ") at[2] "," at[1]
    }
    if (agent in paths) { wrong = 1; exit }
    paths[agent] = path
    agents++
}
END {
    for (i = 0; i < agents; i++) if (!(i in paths)) wrong = 1
    if (wrong || !agents) { print "from_eecbs: no paths of all agents" > "/dev/stderr"; exit 1 }
    for (i = 0; i < agents; i++) print paths[i]
}
