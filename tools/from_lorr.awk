# Plan text from a result of the League of Robot Runners: awk -f from_lorr.awk JSON > PLAN
# `start` has [row,column,"E"] for each robot, `actualPaths` a text of its actions, one for each step. With turns
# (MAPF_T): F forward, R clockwise, C counter-clockwise, W waits; a turn is a wait here. Without (MAPF): R, L, U and D
# go right, left, up and down, W waits. Status 1 if a robot has no start or no actions, or one of them is wrong.
{ sub(/\r$/, ""); gsub(/[ \t]/, ""); text = text $0 }

# What stands behind the key, up to the end.
function part(key, end,   at) {
    at = index(text, "\"" key "\":[")
    if (!at) return ""
    at += length(key) + 4
    return substr(text, at, index(substr(text, at) end, end) - 1)
}

# The step of an action from a heading, 0 east, 1 south, 2 west, 3 north.
function act(action) {
    dx = dy = 0
    if (action == "W") return 1
    if (turns && action == "R") { heading = (heading + 1) % 4; return 1 }
    if (turns && action == "C") { heading = (heading + 3) % 4; return 1 }
    if (turns && action != "F") return 0
    at = turns ? heading + 1 : index("RDLU", action)
    dx = at == 1 ? 1 : at == 3 ? -1 : 0
    dy = at == 2 ? 1 : at == 4 ? -1 : 0
    return at > 0
}

END {
    turns = text !~ /"actionModel":"MAPF"/
    starts = part("start", "]]")
    sub(/^\[/, "", starts)
    agents = split(starts, start, /\],\[/)
    wrong = !agents || split(part("actualPaths", "]"), actions, /","/) != agents
    for (i = 1; i <= agents && !wrong; i++) {
        wrong = start[i] !~ /^[0-9]+,[0-9]+(,"[ESWN]")?$/
        split(start[i], at_start, ",")
        y = at_start[1] + 0
        x = at_start[2] + 0
        heading = length(at_start[3]) ? index("ESWN", substr(at_start[3], 2, 1)) - 1 : 0
        paths[i] = x "," y
        gsub(/"/, "", actions[i])
        if (actions[i] !~ /^([A-Z](,[A-Z])*)?$/) wrong = 1
        steps = split(actions[i], action, ",")
        for (t = 1; t <= steps && !wrong; t++) {
            if (!act(action[t])) wrong = 1
            x += dx
            y += dy
            if (x < 0 || y < 0) wrong = 1
            paths[i] = paths[i] " " x "," y
        }
    }
    if (wrong) { print "from_lorr: no starts and actions of all robots" > "/dev/stderr"; exit 1 }
    for (i = 1; i <= agents; i++) print paths[i]
}
