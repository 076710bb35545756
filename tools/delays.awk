# Holds at random: in each tick an agent that is not held stops with a chance, for some ticks.
#     awk -v agents=100 -v ticks=200 -v chance=0.002 -v least=3 -v most=12 -v seed=1 -f tools/delays.awk > HOLDS
# The same numbers give the same holds everywhere (the generator is that of Park and Miller, 1988).

function random() {
    seed = (seed * 16807) % 2147483647
    return seed / 2147483647
}

BEGIN {
    if (agents !~ /^[0-9]+$/ || ticks !~ /^[0-9]+$/) {
        print "delays: agents and ticks are numbers" > "/dev/stderr"
        exit 1
    }
    seed = seed % 2147483646 + 1
    for (k = 0; k < 10; k++) random()
    for (t = 1; t <= ticks; t++) {
        line = ""
        for (i = 0; i < agents; i++) {
            if (!left[i] && random() < chance) left[i] = least + int(random() * (most - least + 1))
            if (left[i]) {
                left[i]--
                line = line (line == "" ? "" : " ") i
            }
        }
        print line == "" ? "-" : line
    }
}
