# Agents at random on a map: awk -v agents=100 -v seed=1 -f tools/scen.awk MAP > SCEN
# Their starts are distinct, and so are their goals; all are on the largest part of the map within which each cell is
# reached from each. Status 1 if that has too few cells. The same numbers give the same agents everywhere (the generator
# is that of Park and Miller, 1988).

function random() {
    seed = (seed * 16807) % 2147483647
    return seed / 2147483647
}

{ sub(/\r$/, "") }
FNR == 2 { height = $2 + 0 }
FNR == 3 { width = $2 + 0 }
FNR > 4 { for (x = 0; x < width; x++) free[(FNR - 5) * width + x] = index(".GS", substr($0, x + 1, 1)) > 0 }

# The cells that are reached from one, as found[0] and so on; answers how many.
function part(from,   n, k, c) {
    found[0] = from
    seen[from] = 1
    n = 1
    for (k = 0; k < n; k++) {
        c = found[k]
        if (c % width > 0) n = visit(c - 1, n)
        if (c % width < width - 1) n = visit(c + 1, n)
        if (c >= width) n = visit(c - width, n)
        if (c < (height - 1) * width) n = visit(c + width, n)
    }
    return n
}

function visit(c, n) {
    if (!free[c] || (c in seen)) return n
    seen[c] = 1
    found[n] = c
    return n + 1
}

# Puts so many of the cells of the part, at random, in front.
function shuffle(count,   k, other, c) {
    for (k = 0; k < count; k++) {
        other = k + int(random() * (cells - k))
        c = cell[k]
        cell[k] = cell[other]
        cell[other] = c
    }
}

END {
    seed = seed % 2147483646 + 1
    for (k = 0; k < 10; k++) random()
    for (c = 0; c < width * height; c++) {
        if (!free[c] || (c in seen)) continue
        n = part(c)
        if (n <= cells) continue
        cells = n
        for (k = 0; k < n; k++) cell[k] = found[k]
    }
    if (cells < agents) { print "scen: the map has " cells + 0 " cells" > "/dev/stderr"; exit 1 }
    shuffle(agents)
    for (k = 0; k < agents; k++) start[k] = cell[k]
    shuffle(agents)
    print "version 1"
    for (k = 0; k < agents; k++) printf "0\tmap\t%d\t%d\t%d\t%d\t%d\t%d\t0\n", width, height, start[k] % width, int(start[k] / width), cell[k] % width, int(cell[k] / width)
}
