# Draws a run as a film, an SVG that moves by itself:
#     awk -f tools/run.awk -f tools/film.awk MAP TRACE [HOLDS] > FILM
# Blocked cells and the edge of the map are grey. Each agent is a disc, with a ring on its goal. While it is held it is
# red and larger, with a bar; while it waits for another it is orange, with a ring round it. Below are the legend, the
# tick that is going on, and a bar that is the time. A viewer that does not move it shows one tick, in which agents are
# held and wait, if there is one. -v rate=N: N ticks a second (8).

# Hues from yellow-green to magenta: red and orange say something else.
function colour(i) { return "hsl(" 70 + int((i * 137.5) % 251) ",70%,42%)" }

function key(t) { return sprintf("%.5g", t / whole) }

function centre(i, t) { return X[i, t] + 0.5 "," Y[i, t] + 0.5 }

# An attribute that changes: its values, and the parts of the film at which they begin.
function animation(tag, rest, values, keys) {
    return "<" tag " " rest " values=\"" values "\" keyTimes=\"" keys "\" dur=\"" whole / rate "s\" repeatCount=\"indefinite\"/>"
}

# Whether the speed changes, by more than places are rounded that lie between two cells.
function bends(a, b, c) { return c - 2 * b + a > .05 || c - 2 * b + a < -.05 }

# Where agent i goes: its corners and stops.
function way(i,   t, values, keys) {
    values = centre(i, 0)
    keys = 0
    for (t = 1; t < last; t++) {
        if (bends(X[i, t - 1], X[i, t], X[i, t + 1]) || bends(Y[i, t - 1], Y[i, t], Y[i, t + 1])) {
            values = values ";" centre(i, t)
            keys = keys ";" key(t)
        }
    }
    return animation("animateTransform", "attributeName=\"transform\" type=\"translate\"", \
        values ";" centre(i, last) ";" centre(i, last), keys ";" key(last) ";1")
}

# The sign that agent i has over it while it is held or waits, whichever `sign` is.
function sign_of(i, sign,   t, is_on, was_on, values, keys) {
    values = "hidden"
    keys = 0
    for (t = 1; t <= last + 1; t++) {
        is_on = t <= last && state(i, t) == sign
        if (is_on == was_on) continue
        if (t == 1) values = "visible"
        else {
            values = values ";" (is_on ? "visible" : "hidden")
            keys = keys ";" key(t - 1)
        }
        was_on = is_on
    }
    if (values == "hidden") return ""
    return "<use href=\"#" sign "\"" (state(i, still) == sign ? "" : " visibility=\"hidden\"") ">" \
        animation("animate", "attributeName=\"visibility\" calcMode=\"discrete\"", values, keys) "</use>"
}

# The tick of the picture that does not move: one in which agents are held and wait, if there is one, and most of all go,
# are held and wait side by side.
function still_tick(   t, i, count, worth, most, best) {
    best = 1
    for (t = 1; t <= last; t++) {
        split("", count)
        for (i = 0; i < agents; i++) count[state(i, t)]++
        worth = (count["goes"] + 1) * (count["held"] + 1) * (count["waits"] + 1)
        if (count["held"] && count["waits"]) worth += (agents + 1) ^ 3
        if (worth > most) {
            most = worth
            best = t
        }
    }
    return best
}

# A form of the legend and the words behind it, at x; answers where the next one may begin.
function entry(x, form, scale, words) {
    printf "<g transform=\"translate(%s,%s) scale(%s)\">%s</g><text x=\"%s\" y=\"%s\">%s</text>\n", x + .5 * size, base - .35 * size, scale * size, form, x + 1.3 * size, base, words
    return x + (2.6 + .52 * length(words)) * size
}

# The numbers of all ticks, one below another, behind a window that shows the one that is going on.
function clock(   t, values, keys) {
    printf "<clipPath id=\"clock\"><rect x=\"0\" y=\"%s\" width=\"%d\" height=\"%s\"/></clipPath>\n", base - size, width, 1.3 * size
    printf "<text x=\"%s\" y=\"%s\" text-anchor=\"end\">tick</text>\n<g clip-path=\"url(#clock)\"><text text-anchor=\"end\" transform=\"translate(0,%s)\">", width - (.7 + .6 * length(last)) * size, base, -2 * (still - 1) * size
    for (t = 1; t <= last; t++) {
        printf "<tspan x=\"%s\" y=\"%s\">%d</tspan>", width - .3 * size, base + 2 * (t - 1) * size, t
        values = values (t == 1 ? "" : ";") "0," (-2 * (t - 1) * size)
        keys = keys (t == 1 ? "" : ";") key(t - 1)
    }
    printf "%s</text></g>\n", last ? animation("animateTransform", "attributeName=\"transform\" type=\"translate\" calcMode=\"discrete\"", values, keys) : ""
}

END {
    if (!rate) rate = 8
    whole = last + 2 * rate
    still = still_tick()
    size = width / 48
    base = height + 1.3 * size
    high = height + 3 * size
    wide = width < 80 ? 480 : width * 6
    edge = width / wide
    printf "<svg xmlns=\"http://www.w3.org/2000/svg\" viewBox=\"0 0 %d %s\" width=\"%d\" font-family=\"sans-serif\" role=\"img\">\n", width, high, wide
    printf "<title>A run of %d agents in %d ticks</title>\n", agents, last
    # Where cells are small, signs are larger than these.
    large = wide / width < 12 ? 1.6 : 1
    printf "<defs><g id=\"held\" transform=\"scale(%s)\"><circle r=\".5\" fill=\"#e00\"/><path fill=\"#fff\" d=\"M-.34-.1h.68v.2h-.68z\"/></g>\n", large
    printf "<g id=\"waits\" transform=\"scale(%s)\"><circle r=\".45\" fill=\"#fff\" stroke=\"#c60\" stroke-width=\".1\"/><circle r=\".29\" fill=\"#f90\"/></g></defs>\n", large
    printf "<rect width=\"%d\" height=\"%s\" fill=\"#fff\"/>\n<path fill=\"#b8bcc2\" d=\"%s\"/>\n", width, high, blocked
    printf "<rect x=\"%s\" y=\"%s\" width=\"%s\" height=\"%s\" fill=\"none\" stroke=\"#b8bcc2\" stroke-width=\"%s\"/>\n", edge / 2, edge / 2, width - edge, height - edge, edge
    print "<g fill=\"none\" stroke-width=\".14\">"
    for (i = 0; i < agents; i++) printf "<circle cx=\"%s\" cy=\"%s\" r=\".45\" stroke=\"%s\"/>\n", X[i, last] + 0.5, Y[i, last] + 0.5, colour(i)
    print "</g>"
    for (i = 0; i < agents; i++) printf "<g transform=\"translate(%s)\"><circle r=\".45\" fill=\"%s\"/>%s%s%s</g>\n", centre(i, last ? still - 1 : 0), colour(i), way(i), sign_of(i, "held"), sign_of(i, "waits")
    printf "<g font-size=\"%s\" fill=\"#333\">\n", size
    next_x = entry(.3 * size, "<circle r=\".45\" fill=\"" colour(1) "\"/>", 1, "goes, or has arrived")
    next_x = entry(next_x, "<circle r=\".45\" fill=\"none\" stroke=\"" colour(1) "\" stroke-width=\".14\"/>", 1, "its goal")
    next_x = entry(next_x, "<use href=\"#held\"/>", .95 / large, "is held")
    entry(next_x, "<use href=\"#waits\"/>", .95 / large, "waits for another")
    clock()
    print "</g>"
    printf "<rect y=\"%s\" height=\"%s\" width=\"%d\" fill=\"#eee\"/>\n<rect y=\"%s\" height=\"%s\" width=\"%s\" fill=\"#36c\">", base + .7 * size, .5 * size, width, base + .7 * size, .5 * size, width * (still - 1) / (last ? last : 1)
    printf "%s</rect>\n</svg>\n", animation("animate", "attributeName=\"width\"", "0;" width ";" width, "0;" key(last) ";1")
}
