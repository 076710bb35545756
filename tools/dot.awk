# A program as a graph for Graphviz: a box for each action with the place where it ends, a black arrow from each to the
# next of its agent, and a red one from each awaited action.
#     fleet list PROGRAM | awk -f tools/dot.awk | dot -Tsvg > program.svg
# Status 1 if it is no list.
NR == 1 && !/^agent 0: / { exit }
NR == 1 {
    print "digraph program {"
    print "  rankdir=LR"
    print "  node [shape=box, fontname=\"sans-serif\"]"
}
$1 == "agent" {
    last = $2 "0"
    printf "  \"%s\" [label=\"agent %d\\n%s\", shape=ellipse]\n", last, $2, $3
    next
}
{
    printf "  \"%s\" [label=\"%s\\n%s\"]\n  \"%s\" -> \"%s\"\n", $1, $1, $4, last, $1
    for (k = 6; k <= NF; k++) printf "  \"%s\" -> \"%s\" [color=red]\n", $k, $1
    last = $1
}
END {
    if (last == "") { print "dot: no list of a program" > "/dev/stderr"; exit 1 }
    print "}"
}
