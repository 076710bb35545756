# A map at random, of the kinds on which planners are compared (Stern et al. 2019):
#     awk -v kind=random -v width=32 -v height=32 -v seed=1 -f tools/map.awk > MAP
# random: each cell is blocked with a chance (-v share=0.2). room: rooms with sides of -v size=3 cells, a door in each
# wall between two of them. maze: ways -v size=2 cells wide that part and do not meet again. warehouse: shelves of 10 x
# 2 cells with aisles between them. den: caves, by a cellular automaton. The same numbers give the same map everywhere
# (the generator is that of Park and Miller, 1988).

function random() {
    seed = (seed * 16807) % 2147483647
    return seed / 2147483647
}

function below(n) { return int(random() * n) }

function fill(x, y, wide, high, glyph,   i, j) {
    for (j = y; j < y + high && j < height; j++) for (i = x; i < x + wide && i < width; i++) cell[i, j] = glyph
}

function blocked_at_random(share,   x, y) {
    for (y = 0; y < height; y++) for (x = 0; x < width; x++) cell[x, y] = random() < share ? "@" : "."
}

# A wall after every room, and a door in the wall to the east and in that to the south of each.
function rooms(   x, y, step) {
    step = size + 1
    fill(0, 0, width, height, ".")
    for (x = size; x < width; x += step) fill(x, 0, 1, height, "@")
    for (y = size; y < height; y += step) fill(0, y, width, 1, "@")
    for (y = 0; y < height; y += step) for (x = 0; x < width; x += step) {
        if (x + step < width) cell[x + size, y + below(size)] = "."
        if (y + step < height) cell[x + below(size), y + size] = "."
    }
}

# Ways are dug from a place to one beside it at random, and back where there is none.
function maze(   step, wide, high, x, y, depth, choices, k, d) {
    step = size + 1
    wide = int((width + 1) / step)
    high = int((height + 1) / step)
    fill(0, 0, width, height, "@")
    fill(0, 0, size, size, ".")
    seen[0, 0] = 1
    depth = 1
    at_x[1] = at_y[1] = 0
    while (depth) {
        x = at_x[depth]
        y = at_y[depth]
        choices = 0
        for (k = 0; k < 4; k++) {
            next_x = x + (k == 1) - (k == 3)
            next_y = y + (k == 2) - (k == 0)
            if (next_x >= 0 && next_y >= 0 && next_x < wide && next_y < high && !((next_x, next_y) in seen)) choice[choices++] = k
        }
        if (!choices) { depth--; continue }
        d = choice[below(choices)]
        next_x = x + (d == 1) - (d == 3)
        next_y = y + (d == 2) - (d == 0)
        fill(step * (x < next_x ? x : next_x), step * (y < next_y ? y : next_y), size + step * (x != next_x), size + step * (y != next_y), ".")
        seen[next_x, next_y] = 1
        depth++
        at_x[depth] = next_x
        at_y[depth] = next_y
    }
}

function warehouse(   x, y) {
    fill(0, 0, width, height, ".")
    for (y = 3; y + 3 <= height - 2; y += 3) for (x = 8; x + 10 <= width - 8; x += 12) fill(x, y, 10, 2, "@")
}

# Rock where most of the nine cells are rock, five times over.
function den(   n, x, y, i, j, rock) {
    blocked_at_random(.45)
    for (n = 0; n < 5; n++) {
        for (y = 0; y < height; y++) for (x = 0; x < width; x++) {
            rock = 0
            for (j = y - 1; j <= y + 1; j++) for (i = x - 1; i <= x + 1; i++) rock += (i < 0 || j < 0 || i >= width || j >= height || cell[i, j] == "@")
            then[x, y] = rock >= 5 ? "@" : "."
        }
        for (y = 0; y < height; y++) for (x = 0; x < width; x++) cell[x, y] = then[x, y]
    }
}

BEGIN {
    seed = seed % 2147483646 + 1
    for (k = 0; k < 10; k++) random()
    if (share == "") share = .2
    if (!size) size = kind == "room" ? 3 : 2
    if (kind == "random") blocked_at_random(share)
    else if (kind == "room") rooms()
    else if (kind == "maze") maze()
    else if (kind == "warehouse") warehouse()
    else if (kind == "den") den()
    else { print "map: kind is random, room, maze, warehouse or den" > "/dev/stderr"; exit 1 }
    printf "type octile\nheight %d\nwidth %d\nmap\n", height, width
    for (y = 0; y < height; y++) {
        row = ""
        for (x = 0; x < width; x++) row = row cell[x, y]
        print row
    }
}
