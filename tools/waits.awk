# Draws who goes, is held and waits, as SVG:
#     awk -f tools/run.awk -f tools/waits.awk TRACE [HOLDS] > CHART
# A row for each agent, a column for each tick: blue goes, red is held, orange waits for another, white has arrived.

function label(x, y, anchor, words) {
    printf "<text x=\"%s\" y=\"%s\" text-anchor=\"%s\">%s</text>\n", x, y, anchor, words
}

# The least of 1, 2 and 5 times a power of ten at which labels stand this far apart, if each step is so long.
function spacing(apart, step,   s) {
    for (s = 1; s * 10 * step <= apart; s *= 10);
    return s * step >= apart ? s : 2 * s * step >= apart ? 2 * s : 5 * s * step >= apart ? 5 * s : 10 * s
}

# How wide so many digits are.
function digits(n) { return .65 * letter * n }

END {
    wide = 984
    letter = 18
    row = agents < 17 ? 24 : agents > 160 ? 2.5 : 400 / agents
    left = digits(length(agents - 1)) + 1.2 * letter
    top = 2.4 * letter
    below = top + agents * row
    high = below + 2 * letter
    # Right of the ticks half of the last number and the word "ticks" have room.
    tick = (wide - left - digits(length(last)) / 2 - 3.6 * letter) / (last ? last : 1)
    for (i = 0; i < agents; i++) {
        from = 1
        for (t = 1; t <= arrival[i]; t++) {
            now = state(i, t)
            if (t == arrival[i] || state(i, t + 1) != now) {
                bars[now] = bars[now] "M" from - 1 " " i "h" t - from + 1 "v.8H" from - 1 "z"
                from = t + 1
            }
        }
    }
    printf "<svg xmlns=\"http://www.w3.org/2000/svg\" viewBox=\"0 0 %d %s\" width=\"%d\" font-size=\"%d\" font-family=\"sans-serif\" role=\"img\">\n", wide, high, wide, letter
    print "<title>Who goes, is held and waits</title>"
    printf "<rect width=\"%d\" height=\"%s\" fill=\"#fff\"/>\n<g transform=\"translate(%s,%s) scale(%s,%s)\">\n", wide, high, left, top, tick, row
    printf "<path fill=\"#9bb8dd\" d=\"%s\"/>\n<path fill=\"#f0a020\" d=\"%s\"/>\n<path fill=\"#d01020\" d=\"%s\"/>\n</g>\n", bars["goes"], bars["waits"], bars["held"]
    for (i = 0; i < agents; i += spacing(1.2 * letter, row)) label(left - .5 * letter, top + (i + .4) * row + .35 * letter, "end", i)
    for (t = 0; t <= last; t += spacing(digits(length(last)) + letter, tick)) label(left + t * tick, below + 1.2 * letter, "middle", t)
    label(wide - .5 * letter, below + 1.2 * letter, "end", "ticks")
    label(left, 1.2 * letter, "start", "agents: <tspan fill=\"#5f86bb\">goes</tspan>, <tspan fill=\"#d01020\">is held</tspan>, <tspan fill=\"#d08000\">waits for another</tspan>")
    print "</svg>"
}
