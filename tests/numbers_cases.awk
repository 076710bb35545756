# A small map and agents on it, at random:
#     awk -v seed=N -v to=FOLDER -f numbers_cases.awk
# writes FOLDER/map and FOLDER/scen.
function random() {
    seed = (seed * 16807) % 2147483647
    return seed / 2147483647
}
function below(n) { return int(random() * n) }

BEGIN {
    seed = (seed * 7919) % 2147483646 + 1
    for (k = 0; k < 10; k++) random()
    width = 2 + below(7)
    height = 2 + below(7)
    share = random() * .4
    map = "type t\nheight " height "\nwidth " width "\nmap\n"
    for (y = 0; y < height; y++) {
        for (x = 0; x < width; x++) {
            blocked = random() < share
            map = map (blocked ? "@" : ".")
            if (!blocked) cell[cells++] = x " " y
        }
        map = map "\n"
    }
    printf "%s", map > (to "/map")
    agents = 1 + below(cells < 12 ? cells : 12)
    print "version 1" > (to "/scen")
    for (k = 0; k < agents && k < cells; k++) {
        # The k-th start and the k-th goal of two shuffles.
        from[k] = take(starts, k)
        goal[k] = take(goals, k)
        print 0, "m", width, height, from[k], goal[k], 0 > (to "/scen")
    }
}

# The k-th cell of a shuffle, of which the array has what was moved.
function take(moved, k,   j, c) {
    j = k + below(cells - k)
    c = (j in moved) ? moved[j] : cell[j]
    moved[j] = (k in moved) ? moved[k] : cell[k]
    return c
}
