# Changes a text in one byte: each byte is left out, comes twice, or is another one. Says of each changed text what the
# program answers to it of the pair of examples/:
#     od -An -v -t u1 TEXT | awk -v kind=KIND -f tests/changed.awk
# A TEXT of the kind `reports` is read by `dispatch`, one of the kind `log` by `dispatch --resume`, one of the kind
# `rest` by `rest`, one of the kind `costs` by `times --costs`, and the words of the kinds `broken` and `dead` by `times
# --broken` and `rest --without`. Each line has a changed text in octal, a `|`, and the status with the refusal's line,
# and with the number of reports, the orders that are open after a log, how many moves and awaits are left, when both
# agents arrive, which action each reaches, or the row of the map that is left. It is another reader of these texts, and
# takes nothing from the program.

{ for (k = 1; k <= NF; k++) codes[++size] = $k }

function is_number(word) {
    return word ~ /^(0|[1-9][0-9]*)$/ && length(word) <= 10 && word + 0 < 4294967296
}

# The lines of a text, and in `ended` how many have an LF. Bytes that no reader takes stand as `x`.
function split_lines(bytes, count,    k, c) {
    lines = ended = 0
    line[1] = ""
    for (k = 1; k <= count; k++) {
        c = bytes[k]
        if (c == 10) {
            sub(/\r$/, "", line[++ended])
            line[lines = ended + 1] = ""
        } else {
            lines = ended + 1
            line[lines] = line[lines] (c == 13 || (c >= 32 && c < 127) ? sprintf("%c", c) : "x")
        }
    }
    sub(/\r$/, "", line[lines])
    if (lines > ended && line[lines] == "") lines--
}

# Up to which action agent i may be told to go, one at a time, or for `rest` all: agent 1 follows agent 0.
function told_to(i,    most) {
    most = i == 0 ? 2 : done[0]
    return kind != "rest" && most > done[i] + 1 ? done[i] + 1 : most
}

function report(l,    n, k, words, pair, before, is_new) {
    if (line[l] == "?") return ""
    if (line[l] == "-") { reports++; return "" }
    n = split(line[l], words, / /)
    if (n == 0) return "dispatch 2 Form line " l
    before = -1
    for (k = 1; k <= n; k++) {
        if (split(words[k], pair, ":") != 2 || !is_number(pair[1]) || !is_number(pair[2]) || pair[1] + 0 <= before)
            return "dispatch 2 Form line " l
        before = pair[1] + 0
    }
    for (k = 1; k <= n; k++) {
        split(words[k], pair, ":")
        if (pair[1] + 0 > 1 || pair[2] + 0 > told_to(pair[1] + 0))
            return "dispatch 3 NotOrdered line " l " agent " pair[1]
    }
    for (k = 1; k <= n; k++) {
        split(words[k], pair, ":")
        if (pair[2] + 0 > done[pair[1]]) { done[pair[1]] = pair[2] + 0; is_new = 1 }
    }
    reports += is_new
    return ""
}

function answer_reports(    l, fault, i, open) {
    done[0] = done[1] = reports = 0
    for (l = 1; l <= ended && done[0] + done[1] < 4; l++) {
        fault = report(l)
        if (fault != "") return "1 " (kind == "reports" ? fault : "dispatch 7 Log line " l)
    }
    if (kind == "rest")
        return "0 moves " (4 - done[0] - done[1]) " awaits " (done[0] > done[1] ? 2 - done[0] : 2 - done[1])
    if (done[0] + done[1] == 4) return "0 reports " reports
    for (i = 0; i < 2 && kind == "log"; i++)
        if (told_to(i) > done[i]) open = open " go " i ":" (done[i] + 1)
    return "1 dispatch 4 Ended line " (kind == "log" ? 1 : ended + 1) open
}

function answer_costs(    l, words, pair, n, i, p, cost, end) {
    split("", said)
    for (l = 1; l <= lines; l++) {
        n = split(line[l], words, / /)
        i = n == 2 ? split(words[1], pair, ":") : 0
        if (i == 1) pair[2] = 1
        if (i < 1 || i > 2 || !is_number(pair[1]) || !is_number(pair[2]) || pair[1] + 0 > 1 || pair[2] + 0 < 1 || pair[2] + 0 > 2 \
                || !is_number(words[2]) || words[2] + 0 < 1 || words[2] + 0 > 1000000000)
            return "1 times 3 Cost line " l
        said[i == 1 ? pair[1] : words[1]] = words[2] + 0
    }
    for (i = 0; i < 2; i++)
        for (p = 1; p <= 2; p++)
            cost[i, p] = (i ":" p) in said ? said[i ":" p] : i in said ? said[i] : 1
    end = cost[0, 1] + cost[1, 1]
    if (cost[0, 1] + cost[0, 2] > end) end = cost[0, 1] + cost[0, 2]
    return "0 0: " (cost[0, 1] + cost[0, 2]) " 1: " (end + cost[1, 2])
}

# The actions in which robots break down: agent 1 follows agent 0.
function answer_broken(    n, k, words, pair, before, reached) {
    reached[0] = reached[1] = 2
    n = line[1] == "-" ? 0 : split(line[1], words, / /)
    if (line[1] == "") return "1 times 2 Broken"
    before = -1
    for (k = 1; k <= n; k++) {
        if (split(words[k], pair, ":") != 2 || !is_number(pair[1]) || !is_number(pair[2]) || pair[1] + 0 <= before \
                || pair[1] + 0 > 1 || pair[2] + 0 < 1 || pair[2] + 0 > 2)
            return "1 times 2 Broken"
        before = pair[1] + 0
        reached[before] = pair[2] - 1
    }
    return "0 0: " reached[0] " 1: " (reached[1] < reached[0] ? reached[1] : reached[0])
}

# A dead robot and one or two cells of the row of four.
function answer_dead(    n, k, parts, cell, row) {
    n = split(line[1], parts, ":")
    if (n < 2 || n > 3 || !is_number(parts[1]) || parts[1] + 0 > 1) return "1 times 4 Dead"
    row = "...."
    for (k = 2; k <= n; k++) {
        if (split(parts[k], cell, ",") != 2 || !is_number(cell[1]) || !is_number(cell[2]) || cell[1] + 0 > 3 || cell[2] + 0 > 0)
            return "1 times 4 Dead"
        row = substr(row, 1, cell[1]) "@" substr(row, cell[1] + 2)
    }
    return "0 " row
}

# What is answered to a word of the command line, in which no byte ends a line.
function answer_word(bytes, count,    k) {
    for (k = 1; k <= count; k++)
        if (bytes[k] == 255) return "2 error: a word of the command line is no text"
    for (k = 1; k <= count; k++)
        if (bytes[k] == 10 || bytes[k] == 13) return "1 times " (kind == "dead" ? "4 Dead" : "2 Broken")
    return kind == "dead" ? answer_dead() : answer_broken()
}

function answer(bytes, count) {
    if (kind == "broken" || kind == "dead") return answer_word(bytes, count)
    return kind == "costs" ? answer_costs() : answer_reports()
}

# The text with the byte at a place left out (-2), twice (-1), or another one.
function change(at, byte,    k, count, bytes, octal) {
    count = 0
    for (k = 1; k <= size; k++) {
        if (k == at && byte == -2) continue
        bytes[++count] = k == at && byte >= 0 ? byte : codes[k]
        if (k == at && byte == -1) bytes[++count] = codes[k]
    }
    for (k = 1; k <= count; k++) octal = octal sprintf("\\%03o", bytes[k])
    split_lines(bytes, count)
    print octal "|" answer(bytes, count)
}

END {
    n = split("-2 -1 0 9 10 13 32 45 48 49 50 51 57 58 63 120 255", others, " ")
    for (at = 1; at <= size; at++)
        for (k = 1; k <= n; k++)
            if (others[k] != codes[at] && (others[k] + 0 || kind != "broken" && kind != "dead")) change(at, others[k] + 0)
}
