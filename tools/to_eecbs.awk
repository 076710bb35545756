# Paths in the form of EECBS from plan text, for its viewers: awk -f to_eecbs.awk PLAN > PATHS
# Status 1 if the text is no plan.
{
    sub(/[ \t\r]*$/, "")
    path = ""
    for (i = 1; i <= NF && $i ~ /^[0-9]+,[0-9]+$/; i++) {
        split($i, at, ",")
        path = path "(" at[2] + 0 "," at[1] + 0 ")->"
    }
    if (NF == 0 || i <= NF) { wrong = 1; exit }
    printf "Agent %d: %s\n", NR - 1, path
}
END { if (wrong || !NR) { print "to_eecbs: no plan" > "/dev/stderr"; exit 1 } }
