# Which plans on small maps are free of conflict, and the first fault of each that is not. A row has the rows of a map,
# a plan, whose first and last cells are the starts and goals, and the line of its refusal, if it is refused.

enter conflicts

# tasked ROW..: writes the map of these rows, and the scenario of the file plan.
script tasked <<'EOF'
#!/bin/sh
printf '%s\n' 'type octile' "height $#" "width ${#1}" map "$@" > map
awk -v width="${#1}" -v height="$#" 'BEGIN { print "version 1" } { gsub(/,/, " "); print 0, "m", width, height, $1, $2, $(NF - 1), $NF, 0 }' plan > scen
EOF
while IFS='|' read -r rows plan due; do
    command="printf '$plan\\n' > plan && tasked $rows && fleet check map scen plan > got; status=\$?; sed 1q got; exit \$status"
    if [ "$due" ]; then
        check "plan on $rows: $plan" 1 '' "$due\n" "$command"
    else
        check "plan on $rows: $plan" 0 'conflict-free\n' '' "$command"
    fi
done <<'EOF'
....|1,0 2,0 3,0\n0,0 2,0|check 5 Step agent 1 time 1
....|1,0 1,0 2,0 3,0\n0,0 1,0 2,0|check 6 Conflict Vertex time 1 i 0 j 1
..|0,0 1,0\n1,0 0,0|check 6 Conflict Swapping time 0 i 0 j 1
...|0,0 1,0\n2,0 2,0 1,0 0,0|check 6 Conflict Vertex time 2 i 0 j 1
...|0,0 1,0 0,0\n2,0 2,0 1,0|
... .@.|0,0\n1,0 2,1|check 5 Step agent 1 time 1
... .@.|2,0 2,0 3,0 2,0|check 5 Step agent 0 time 2
... .@.|0,0 2,0|check 5 Step agent 0 time 1
... .@.|0,1 0,0 1,0 2,0 2,1 2,1|
... .@.|1,0 1,1 2,1|check 5 Step agent 0 time 1
.|0,0|
.. ..|0,0 1,0\n1,0 1,1\n1,1 0,1\n0,1 0,0|check 6 Conflict Cycle time 0 least 0
.. ..|0,0 1,0\n1,0 0,0 0,1 1,1\n1,1 0,1\n0,1 0,0|check 6 Conflict Swapping time 0 i 0 j 1
.. ..|0,0 1,0\n1,0 1,1\n1,1 0,1\n0,1 0,1 0,0|check 6 Conflict Vertex time 1 i 2 j 3
.. ..|0,0 1,0\n1,0 1,1\n1,1 0,1|
........ ........ ........ ........|4,0 5,0 4,0\n1,2 2,2\n2,2 2,3\n2,3 1,3\n1,3 1,2\n5,0 6,0\n6,0 6,1\n6,1 5,1\n5,1 5,0|check 6 Conflict Cycle time 0 least 1
...... ...... ......|5,1 4,1 3,1 2,1 1,1 0,1\n2,1|check 6 Conflict Vertex time 3 i 0 j 1
...... ...... ......|2,2\n5,1 4,1 3,1 2,1 1,1 0,1\n1,0 1,1|check 6 Conflict Vertex time 4 i 1 j 2
...... ...... ......|0,0 1,0 2,0\n0,2 1,2 2,2\n2,2 1,2 1,1\n2,0 1,0 1,1 0,1|check 6 Conflict Vertex time 1 i 0 j 3
...... ...... ......|0,0 1,0 2,0 3,0 4,0 4,1 3,1 3,2\n2,1 3,1|check 6 Conflict Vertex time 6 i 0 j 1
...... ...... ......|0,1 0,1 1,1 2,1\n2,1 3,1|
...... ...... ......|0,1 0,0\n5,1 5,0\n3,0 3,0 4,0 5,0 4,0\n2,0 2,0 1,0 0,0 1,0|check 6 Conflict Vertex time 3 i 0 j 3
EOF
