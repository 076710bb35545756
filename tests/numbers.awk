# Changes a plan, and counts its numbers:
#     awk -v seed=N -v to=FOLDER -f numbers.awk MAP SCEN PLAN
# writes FOLDER/changed, the plan in which all agents wait together now and then and each stands on its goal for a while
# more, and FOLDER/want, what `check --numbers` is to print of it.
function random() {
    seed = (seed * 16807) % 2147483647
    return seed / 2147483647
}

FNR == 1 { file++ }
file == 1 && FNR == 2 { height = $2 }
file == 1 && FNR == 3 { width = $2 }
file == 1 && FNR > 4 { for (x = 0; x < width; x++) open[x, FNR - 5] = substr($0, x + 1, 1) == "." }
file == 2 && FNR > 1 { bound += distance($5, $6, $7, $8) }
file == 3 { line[agents++] = $0; if (NF > longest) longest = NF }

# How many moves lead from one cell to the other: a flood, ring by ring.
function distance(x, y, to_x, to_y,   ring, d, k, n, parts, next_ring, seen, i) {
    ring = x "," y
    seen[x, y] = 1
    for (d = 0; ring != ""; d++) {
        n = split(ring, parts, " ")
        next_ring = ""
        for (k = 1; k <= n; k++) {
            split(parts[k], at, ",")
            if (at[1] == to_x && at[2] == to_y) return d
            for (i = 0; i < 4; i++) {
                go_x = at[1] + (i == 0) - (i == 1)
                go_y = at[2] + (i == 2) - (i == 3)
                if (!open[go_x, go_y] || ((go_x, go_y) in seen)) continue
                seen[go_x, go_y] = 1
                next_ring = next_ring " " go_x "," go_y
            }
        }
        ring = substr(next_ring, 2)
    }
    return 0
}

END {
    seed = (seed * 104729) % 2147483646 + 1
    for (k = 0; k < 10; k++) random()
    for (t = 1; t <= longest; t++) again[t] = random() < .3 ? 1 + int(3 * random()) : 1
    printf "" > (to "/changed")
    for (i = 0; i < agents; i++) {
        n = split(line[i], path, " ")
        text = ""
        for (t = 1; t <= n; t++) for (k = 0; k < again[t]; k++) text = text " " path[t]
        for (k = int(4 * random()); k > 0; k--) text = text " " path[n]
        print substr(text, 2) > (to "/changed")
        n = split(text, path, " ")
        if (n - 1 > steps) steps = n - 1
        for (t = 1; t <= n; t++) cell[i, t] = path[t]
        ends[i] = n
        # From the front: a change of cell is a move, and the time after the last one is the cost.
        last = 0
        stays = 0
        for (t = 2; t <= n; t++) {
            if (path[t] == path[t - 1]) { stays++; continue }
            moves++
            last = t - 1
            waits_here = stays
        }
        cost += last
        if (last) waits += waits_here
    }
    printf "conflict-free\nagents %d\nsteps %d\ncost %d\nbound %d\nmoves %d\nwaits %d\napart %s\n", agents, steps, cost, (cost < bound ? -1 : bound), moves, waits, (follows() ? "no" : "yes") > (to "/want")
}

# Whether some agent is at some time where another was one time before: each agent with each other one.
function follows(   i, j, t) {
    for (i = 0; i < agents; i++)
        for (j = 0; j < agents; j++)
            for (t = 1; i != j && t <= steps; t++)
                if (where(i, t + 1) == where(j, t)) return 1
    return 0
}
function where(i, t) { return cell[i, t > ends[i] ? ends[i] : t] }
