# Plan text from a result of LaCAM, PIBT or pibt2: awk -f from_lacam.awk RESULT > PLAN
# Their lines are `T:(x,y),(x,y),..`, one for each time from 0; other lines are passed over. Status 1 if a time or an
# agent is missing or a cell is wrong.
/^[0-9]+:\(/ {
    if ($1 + 0 != times) { wrong = 1; exit }
    times++
    sub(/^[0-9]+:/, "")
    sub(/,?[ \t\r]*$/, "")
    gsub(/\),\(/, ") (")
    cells = split($0, cell, " ")
    if (times == 1) agents = cells
    if (cells != agents) { wrong = 1; exit }
    for (i = 1; i <= cells; i++) {
        if (cell[i] !~ /^\([0-9]+,[0-9]+\)$/) { wrong = 1; exit }
        paths[i] = paths[i] (times == 1 ? "" : " ") substr(cell[i], 2, length(cell[i]) - 2)
    }
}
END {
    if (wrong || !agents) { print "from_lacam: no solution of all agents at all times" > "/dev/stderr"; exit 1 }
    for (i = 1; i <= agents; i++) print paths[i]
}
