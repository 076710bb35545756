# The reports of a dispatch in which robots break down, one at most of each agent:
#     awk -v dead="A:N B:M" -f tools/log.awk LIST
# LIST is what `fleet list` prints. In each line of the log all robots report their next action that may begin; those
# that are dead never report theirs. So the last line is the last report that such a fleet can make. Status 1 if LIST is
# no list.

function number_of(word) {
    sub(/.*:/, "", word)
    return word + 0
}

BEGIN {
    k = split(dead, words, " ")
    for (i = 1; i <= k; i++) is_dead[words[i]]
}

NR == 1 && !/^agent 0: / { exit }
$1 == "agent" { agents++; next }

{
    moves[$1 + 0] = number_of($1)
    for (f = 6; f <= NF; f++) awaits[$1] = awaits[$1] " " $f
}

# Whether all that an action awaits was reported before this line.
function is_ready(action,    k, words, j) {
    k = split(awaits[action], words, " ")
    for (j = 1; j <= k; j++) if (before[words[j] + 0] < number_of(words[j])) return 0
    return 1
}

END {
    if (!agents) { print "log: no list of a program" > "/dev/stderr"; exit 1 }
    do {
        line = ""
        for (i = 0; i < agents; i++) before[i] = done[i]
        for (i = 0; i < agents; i++) {
            action = i ":" (done[i] + 1)
            if (done[i] < moves[i] && !(action in is_dead) && is_ready(action)) {
                done[i]++
                line = line (line == "" ? "" : " ") action
            }
        }
        if (line != "") print line
    } while (line != "")
}
