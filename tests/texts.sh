# Texts and bytes that are read, and the first fault of each that is refused. A row has the text, as a format of printf,
# and what is read or refused.

enter texts
cp "$work"/worked/pair.* "$room/"

# Maps, and of those that are read the columns, rows and passable cells, and then the rows, in which `.` is passable and
# `@` is not. An agent stands on each cell that has to be passable, and they are as many as are passable.
script standing <<'EOF'
#!/bin/sh
echo "$*" | awk '{ print "version 1"
    for (y = 0; y < NF; y++) for (x = 0; x < length($1); x++)
        if (substr($(y + 1), x + 1, 1) == ".") print 0, "m", length($1), NF, x, y, x, y, 0 }'
EOF
while IFS='|' read -r text due; do
    case $due in
        map*) check "map: $text" 1 '' "$due\n" "printf '$text' > map && fleet instance map pair.scen" ;;
        *)
            rows=${due#*: }
            set -- ${due%%:*}
            check "map: $text" 0 "map $1 $2\nground $3\nagents $3\n" '' \
                "printf '$text' > map && standing $rows > scen && fleet instance map scen > got; status=\$?; head -n 3 got; exit \$status"
            ;;
    esac
done <<'EOF'
type octile\r\nheight 1\r\nwidth 7\r\nmap\r\n.G@OTSW|7 1 3: ..@@@.@
type octile \t\nheight\t003 \nwidth  0000000000000000000002\nmap \n.@\nTS\nG.\n \t\r\n\n|2 3 4: .@ @. ..
type octile\nheight 1\nwidth 3\nmap\n.S@|3 1 2: ..@
type octile\r\nheight 1\r\nwidth 3\r\nmap\r\n.S@\r\n|3 1 2: ..@
type \377\0\nheight 1\nwidth 3\nmap\n.G@\r|3 1 2: ..@
type\t \tx\t\nheight 000000000000000000000000000000000000000000000000000000000000001 \nwidth\t3\nmap\t \n.SW\n\n\n|3 1 2: ..@
type octile\nheight 1\nwidth 3\nmap\n..O\n\r\r \t\r\n \r|3 1 2: ..@
type type\nheight 1\nwidth 3\nmap\nGGT\n|3 1 2: ..@
type octile\nheight 2\nwidth 3\nmap\n...\n..\n|map 5 RowLength row 1
type octile\nheight 2\nwidth 3\nmap\n...\n|map 4 RowCount
type octile\nheight 2\nwidth 3\nmap\n...\n.x.\n|map 6 Glyph row 1 column 1
type octile\nheight 1\nwidth 3\nmap\n.x.x\n|map 5 RowLength row 0
type octile\nheight 3\nwidth 3\nmap\n...\n.x.\n....\n|map 6 Glyph row 1 column 1
type octile\nheight 3\nwidth 3\nmap\n...\n\n...\n|map 5 RowLength row 1
type octile\nheight 1\nwidth 3\nmap\n...x|map 5 RowLength row 0
type octile\nheight 1\nwidth 3\nmap\n... \n|map 5 RowLength row 0
type octile\nheight 1\nwidth 3\nmap\n ..\n|map 6 Glyph row 0 column 0
type octile\nheight 1\nwidth 3\nmap\n.\r.\n|map 6 Glyph row 0 column 1
type octile\nheight 1\nwidth 3\nmap\n...\r\r\n|map 5 RowLength row 0
type octile\nheight 1\nwidth 3\nmap\n..\r\r\n|map 6 Glyph row 0 column 2
type octile\nheight 4096\nwidth 4096\nmap\n....|map 5 RowLength row 0
type octile\nheight 4096\nwidth 4\nmap\n....\n....|map 4 RowCount
type octile\nheight 1\nwidth 3\nmap\n...\n \t\r\n x|map 7 Trailing
type octile\nheight 1\nwidth 3\nmap\n...\n...\n|map 7 Trailing
type octile\nheight 1\nwidth 3\nmap\n...\n\0|map 7 Trailing
type octile\nheight 0\nwidth 3\nmap\n|map 3 Size
type octile\nheight 3\nwidth 00\nmap\n|map 3 Size
type octile\nheight 4097\nwidth 3\nmap\n|map 3 Size
type octile\nheight 3\nwidth 4097\nmap\n|map 3 Size
type octile\nheight 4294967297\nwidth 4\nmap\n....\n|map 3 Size
type octile\nheight 18446744073709551617\nwidth 4\nmap\n....\n|map 3 Size
type octile\nheight 9999999999999999999999999999999999999999999999999999999999999999999999999999999999999999999999999999\nwidth 4\nmap\n....\n|map 3 Size
type octile\nheight 9999\nwidth 3\nmop\n|map 2 Header line 4
|map 2 Header line 1
\n|map 2 Header line 1
 type octile\nheight 1\nwidth 3\nmap\n...\n|map 2 Header line 1
Type octile\nheight 1\nwidth 3\nmap\n...\n|map 2 Header line 1
\357\273\277type octile\nheight 1\nwidth 3\nmap\n...\n|map 2 Header line 1
type octile x\nheight 1\nwidth 3\nmap\n...\n|map 2 Header line 1
type octile\nheight 1x\nwidth 3\nmap\n...\n|map 2 Header line 2
type octile\nheight\nwidth 3\nmap\n...\n|map 2 Header line 2
type octile\nheight 1\r\r\nwidth 3\nmap\n...\n|map 2 Header line 2
type octile\nheight 1\nwidth +3\nmap\n...\n|map 2 Header line 3
type octile\nheight 1\n\nwidth 3\nmap\n...\n|map 2 Header line 3
type octile\nwidth 3\nheight 1\nmap\n...\n|map 2 Header line 2
type octile\nheight 1\nwidth 3\n\tmap\n...\n|map 2 Header line 4
type octile\nheight 1\nwidth 3\nmap.\n...\n|map 2 Header line 4
x|map 2 Header line 1
type octile\nheight 1\nwidth 3\nmap\n..\n|map 5 RowLength row 0
type octile\nheight 1\nwidth 3\nmap\n..x\n|map 6 Glyph row 0 column 2
type octile\nheight 1\nwidth 3\nmap\n...\nx|map 7 Trailing
EOF

# Scenarios of the pair's map, or of one of seven cells, of which each has another glyph; how many agents are asked for,
# if a number is; and start and goal of each agent.
printf 'type octile\nheight 1\nwidth 7\nmap\n.G@OTSW\n' > "$room/glyphs.map"
while IFS='|' read -r map agents text due; do
    command="printf '$text' > scen && fleet instance $map.map scen${agents:+ --agents $agents} > got; status=\$?; tail -n +4 got; exit \$status"
    case $due in
        scen*) check "scenario: $text" 1 '' "$due\n" "$command" ;;
        *) check "scenario: $text" 0 "$due" '' "$command" ;;
    esac
done <<'EOF'
pair||version 1\n0\tm\t4\t1\t1\t0\t3\t0\t26.31370850\n0\tm\t4\t1\t0\t0\t2\t0\t26.31370850\n|0: 1,0 3,0\n1: 0,0 2,0\n
pair||version 1\n0 m 4 1 1 0 3 0 x\n0 m 4 1 0 0 2 0 x|0: 1,0 3,0\n1: 0,0 2,0\n
pair||version 1.0\n\n0 m 4 1 1 0 3 0 26.31370850\r\n \t\n  0 m\t4 1 0 0 2 0 26.31370850 \r\n|0: 1,0 3,0\n1: 0,0 2,0\n
pair||\n \nversion\t1\n0 m 4 1 1 0 3 0 x\n0 m 4 01 00 0 2 0 x|0: 1,0 3,0\n1: 0,0 2,0\n
pair|| \tversion  1.0 \r\n\r\n0 m 4 1 1 0 3 0 x\r\n0 m 4 1 0 0 2 0 x\r\n\r\n\n|0: 1,0 3,0\n1: 0,0 2,0\n
pair||version 1\n\377\0\r \376 4 1 1 0 3 0 \200\r\r\n. . 4 1 0 0 2 0 .\r\r\n|0: 1,0 3,0\n1: 0,0 2,0\n
pair||version 1\n0 m 0000000000000000000000000000000000000000000000000000000000000004 1 1 0 3 0 x\n0 m 4 1 0 0 2 0 x\n|0: 1,0 3,0\n1: 0,0 2,0\n
pair|2|version 1\n0 m 4 1 1 0 3 0 x\n0 m 4 1 0 0 2 0 x\n|0: 1,0 3,0\n1: 0,0 2,0\n
pair|1|version 1\n0 m 4 1 1 0 3 0 x\n0 m 4 1 0 0 2 0 x\n|0: 1,0 3,0\n
pair|2|version 1\n0 m 4 1 1 0 3 0 x\n0 m 4 1 0 0 2 0 x\nno agent|0: 1,0 3,0\n1: 0,0 2,0\n
pair||version 1\n0 m 4 1 1 0 3 0 x\n0 m 4 1 0 0 2 0 x\nno agent|scen 3 Fields line 4
pair|3|version 1\n0 m 4 1 1 0 3 0 x\n0 m 4 1 0 0 2 0 x\nno agent|scen 3 Fields line 4
pair|1024|version 1\n0 m 4 1 1 0 3 0 x\n0 m 4 1 0 0 2 0 x\nno agent|scen 3 Fields line 4
pair|0|version 1\n0 m 4 1 1 0 3 0 x\n0 m 4 1 0 0 2 0 x\n|scen 9 NoAgents
pair|3|version 1\n0 m 4 1 1 0 3 0 x\n0 m 4 1 0 0 2 0 x\n|scen 11 Fewer
pair|1024|version 1\n0 m 4 1 1 0 3 0 x\n0 m 4 1 0 0 2 0 x\n|scen 11 Fewer
pair|1025|version 1\n0 m 4 1 1 0 3 0 x\n0 m 4 1 0 0 2 0 x\n|scen 10 TooMany
pair|65535|version 1\n0 m 4 1 1 0 3 0 x\n0 m 4 1 0 0 2 0 x\n|scen 10 TooMany
pair|0|x|scen 9 NoAgents
pair|1025|x|scen 10 TooMany
pair|1|x|scen 2 Version
pair||version 1\n\n|scen 9 NoAgents
pair|1|version 1\n\n|scen 11 Fewer
pair||version 1\n0 m 4 1 0 0 0 0 x\n0 m 4 1 1 0 2 0 x\n0 m 4 1 2 0 1 0 x\n|0: 0,0 0,0\n1: 1,0 2,0\n2: 2,0 1,0\n
pair||version 2\n0 m 4 1 0 0 1 0 1\n|scen 2 Version
pair||version 1 x\n0 m 4 1 0 0 1 0 1\n|scen 2 Version
pair||version\n0 m 4 1 0 0 1 0 1\n|scen 2 Version
pair||version 01\n0 m 4 1 0 0 1 0 1\n|scen 2 Version
pair||Version 1\n0 m 4 1 0 0 1 0 1\n|scen 2 Version
pair||version 1\r\r\n0 m 4 1 0 0 1 0 1\n|scen 2 Version
pair||version\r1\n0 m 4 1 0 0 1 0 1\n|scen 2 Version
pair||0 m 4 1 0 0 1 0 1\nversion 1\n|scen 2 Version
pair||\r\r\nversion 1\n0 m 4 1 0 0 1 0 1\n|scen 2 Version
glyphs||version 1\n0 m 7 1 0 0 1 0|scen 3 Fields line 2
glyphs||version 1\n0 m 7 1 0 0 1 0 1 1|scen 3 Fields line 2
glyphs||version 1\n\n\n0 m 7 1 0 0 1 0|scen 3 Fields line 4
glyphs||version 1\n\r\r\n0 m 7 1 0 0 1 0 1|scen 3 Fields line 2
glyphs||version 1\n0 m 7x 1 0 0 1 0 1|scen 4 Number line 2 field 3
glyphs||version 1\n0 m 8 -1 0 0 1 0 1|scen 4 Number line 2 field 4
glyphs||version 1\n0 m 8 1 65536 0 1 0 1|scen 4 Number line 2 field 5
glyphs||version 1\n0 m 8 1 0 99999999999999999999999999999999999999999999999999999999999999999999999999999999999999999999999999999999 1 0 1|scen 4 Number line 2 field 6
glyphs||version 1\n0 m 8 1 65535 0 +1 0 1|scen 4 Number line 2 field 7
glyphs||version 1\n0 m 8 1 65535 0 1 0.0 1|scen 4 Number line 2 field 8
glyphs||version 1\n0 m 8 1 65535 0 1 18446744073709551617 1|scen 4 Number line 2 field 8
glyphs||version 1\n0 m 7 x 0 0 x 0 1|scen 4 Number line 2 field 4
glyphs||version 1\n0 m 8 1 4 0 1 0 1|scen 5 OtherMap line 2
glyphs||version 1\n0 m 7 2 4 0 1 0 1|scen 5 OtherMap line 2
glyphs||version 1\n0 m 1 7 0 0 1 0 1|scen 5 OtherMap line 2
glyphs||version 1\n0 m 7 1 4 0 0 0 1|scen 6 Blocked line 2
glyphs||version 1\n0 m 7 1 0 0 4 0 1|scen 6 Blocked line 2
glyphs||version 1\n0 m 7 1 7 0 0 0 1|scen 6 Blocked line 2
glyphs||version 1\n0 m 7 1 0 0 0 1 1|scen 6 Blocked line 2
glyphs||version 1\n0 m 7 1 0 0 1 0 1\n0 m 7 1 0 0 4 0 1|scen 6 Blocked line 3
glyphs||version 1\n0 m 7 1 0 0 1 0 1\n0 m 7 1 0 0 1 0 1|scen 7 SharedStart line 3
glyphs||version 1\n0 m 7 1 0 0 1 0 1\n0 m 7 1 1 0 1 0 1|scen 8 SharedGoal line 3
glyphs||version 1\n0 m 7 1 5 0 5 0 1\n0 m 7 1 1 0 0 0 1\n\n0 m 7 1 5 0 1 0 1|scen 7 SharedStart line 5
glyphs||version 1\n0 m 7 1 5 0 5 0 1\n\n0 m 7 1 1 0 0 0 1\n\n0 m 7 1 0 0 5 0 1|scen 8 SharedGoal line 6
glyphs||version 1\n0 m 7 1 0 0\n0 m 8 1 0 0 1 0 1|scen 3 Fields line 2
glyphs||version 1\n0 m 8 1 0 0 1 0 1\n0 m 7 1 0 0|scen 5 OtherMap line 2
pair||x|scen 2 Version
pair||version 1\nx|scen 3 Fields line 2
pair||version 1\n0 m x 1 0 0 1 0 1|scen 4 Number line 2 field 3
pair||version 1\n0 m 7 1 0 0 1 0 1|scen 5 OtherMap line 2
pair||version 1\n0 m 4 1 0 0 4 0 1|scen 6 Blocked line 2
pair||version 1\n0 m 4 1 0 0 1 0 1\n0 m 4 1 0 0 1 0 1|scen 7 SharedStart line 3
pair||version 1\n0 m 4 1 0 0 1 0 1\n0 m 4 1 1 0 1 0 1|scen 8 SharedGoal line 3
pair|0||scen 9 NoAgents
pair|1025||scen 10 TooMany
pair|1|version 1|scen 11 Fewer
EOF

# fronts FILE COMMAND..: runs a command on each front of the file, from none to all of its bytes. Prints how many agents
# or bytes it counts, or its refusal, and how often that came in a row.
script fronts <<'EOF'
#!/bin/sh
file=$1 len=0 all=$(wc -c < "$1")
shift
while [ "$len" -le "$all" ]; do
    head -c "$len" "$file" > front
    if "$@" > got 2> told; then grep -E '^(agents|bytes) ' got; else cat told; fi
    len=$((len + 1))
done | uniq -c | sed 's/^ *//'
EOF
check 'each front of a map' 0 '6 map 2 Header line 1\n14 map 2 Header line 2\n8 map 2 Header line 3\n4 map 2 Header line 4\n2 map 4 RowCount\n3 map 5 RowLength row 0\n2 agents 2\n' '' \
    'fronts pair.map fleet instance front pair.scen'
check 'each front of a scenario' 0 '9 scen 2 Version\n2 scen 9 NoAgents\n23 scen 3 Fields line 2\n11 agents 1\n23 scen 3 Fields line 3\n11 agents 2\n' '' \
    'fronts pair.scen fleet instance pair.map front'
check 'each front of a program' 0 '40 load 3 Truncated\n1 agents 2\n' '' 'fronts pair.program fleet rehearse front'
check '.. which is loaded' 0 '40 load 3 Truncated\n1 bytes 48\n' '' 'fronts pair.program fleet migrate front out'

# Plans: those that are read are that of the pair.
while IFS='|' read -r text due; do
    if [ "$due" ]; then
        check "plan: $text" 1 '' "$due\n" "printf '$text' > plan && fleet check pair.map pair.scen plan"
    else
        check "plan: $text" 0 '' '' "printf '$text' > plan && fleet compile pair.map pair.scen plan out > got && cmp out pair.program"
    fi
done <<'EOF'
1,0 2,0 3,0\n0,0 1,0 2,0\n|
1,0 2,0 3,0\n0,0 1,0 2,0|
1,0 2,0 3,0\r\n0,0 1,0 2,0\r\n|
1,0 \t 2,0  3,0 \t\r\n0,0\t1,0\t2,0 \r|
1,0 2,0 3,0\t\n00,0 01,000 2,0000000000000000000000000000000000000000|
0000000000000000000000000000000000000001,0 2,0 3,0\n0,0 1,0 2,0\r|
\n0,0\n|text 2 Form line 1
 \n0,0\n|text 2 Form line 1
\r\n\n0,0\n|text 2 Form line 1
 0,0\n0,0\n|text 2 Form line 1
\t0,0\n0,0\n|text 2 Form line 1
0\n0,0\n|text 2 Form line 1
0,\n0,0\n|text 2 Form line 1
,0\n0,0\n|text 2 Form line 1
,\n0,0\n|text 2 Form line 1
0,0,0\n0,0\n|text 2 Form line 1
0,0,\n0,0\n|text 2 Form line 1
,0,0\n0,0\n|text 2 Form line 1
0 ,0\n0,0\n|text 2 Form line 1
0, 0\n0,0\n|text 2 Form line 1
+1,0\n0,0\n|text 2 Form line 1
1,-0\n0,0\n|text 2 Form line 1
0x1,0\n0,0\n|text 2 Form line 1
1.0,0\n0,0\n|text 2 Form line 1
65536,0\n0,0\n|text 2 Form line 1
0,65536\n0,0\n|text 2 Form line 1
99999999999999999999999,0\n0,0\n|text 2 Form line 1
0,000000000000000000000000000000065536\n0,0\n|text 2 Form line 1
0,0\r\r\n\n0,0\n|text 2 Form line 1
0,0\r \n0,0\n|text 2 Form line 1
0,0;1,0\n0,0\n|text 2 Form line 1
0,0 1\n0,0\n|text 2 Form line 1
0,0 1,0 x\n0,0\n|text 2 Form line 1
0,0\0\n0,0\n|text 2 Form line 1
1,0 2,0 3,0\n\n|text 2 Form line 2
1,0 2,0 3,0\n\n0,0\n|text 2 Form line 2
1,0 2,0 3,0\n0,0\n 1,0\nx|text 2 Form line 3
|text 4 AgentCount
x|text 2 Form line 1
EOF

# Programs, in hexadecimal, and of those that are read how many agents, actions and awaits are listed. They are viewed,
# and loaded too.
counted='$1 == "agent" { agents++; next } { actions++; if (NF > 5) awaits += NF - 5 } END { print "agents", agents, "moves", actions + 0, "awaits", awaits + 0 }'
while IFS='|' read -r digits due; do
    case $due in
        load*)
            check "program: $digits" 1 '' "$due\n" "bytes $digits > program && fleet list program"
            check "loaded: $digits" 1 '' "$due\n" 'fleet migrate program out'
            ;;
        *)
            check "program: $digits" 0 "$due\n" '' "bytes $digits > program && fleet list program > got && awk '$counted' got"
            check "loaded: $digits" 0 "$due\n" '' "fleet migrate program out > got && fleet list out > got && awk '$counted' got"
            ;;
    esac
done <<'EOF'
4D504631 0002 0001 0000 0003 0000 0002 01 01 0000 0000 0002 0000 0002 10 0000 0001 01 10 0000 0002 01|agents 2 moves 4 awaits 2
4D504631 0001 0000 0000 0000 0000 0000|agents 1 moves 0 awaits 0
4D504631 0003 0001 0000 0002 0000 0001 01 0000 0002 0001 0002 0001 10 0000 0001 01 0000 0000 0001 0000 0001 10 0001 0001 01|agents 3 moves 3 awaits 2
4D504631 0001 0000 0000 0000 0000 0002 03 01|agents 1 moves 2 awaits 0
4D504631 0004 0000 0000 0000 0001 0001 02 0001 0000 0001 0001 0001 02 0002 0000 0002 0001 0001 02 0003 0000 0003 0001 0001 10 0000 0001 10 0001 0001 10 0002 FFFF 02|agents 4 moves 4 awaits 3
4E504631000200010000000300000002010100000000000200000002100000000101100000000201|load 2 Magic
4D504631000000010000000300000002010100000000000200000002100000000101100000000201|load 4 AgentCount
4D504631000200010000000300000003010100000000000200000002100000000101100000000201|load 3 Truncated
4D504631000200010000000300000002040100000000000200000002100000000101100000000201|load 6 Opcode at 16
4D504631000200010000000300000002010100000000000200000002100001000101100000000201|load 7 AwaitAgent at 28
4D504631000200010000000300000002010100000000000200000002100002000101100000000201|load 7 AwaitAgent at 28
4D504631000200010000000300000002010100000000000200000002100000000001100000000201|load 9 AwaitCount at 28
4D504631000200010000000300000002010100000000000200000002100000000105100000000201|load 6 Opcode at 33
4D504631000200010000000300000002010100000000000200000002100000000101100000000101|agents 2 moves 4 awaits 2
4D504631000200010000000300000002010100000000000200000002100000000101100000000301|agents 2 moves 4 awaits 2
4D504631000200010000000300000002010300000000000200000002100000000101100000000201|agents 2 moves 4 awaits 2
4D 51|load 2 Magic
4D504631 0401|load 4 AgentCount
4D504631 0400|load 3 Truncated
4D504631 0003 0000 0000 0001 0000 0001 10 0002 0001 10 0001 0001 01|load 8 AwaitOrder at 21
4D504631 0002 0001 0000 0003 0000 0002 01 01 0000 0000 0002 0000 0002 10 0000 0001 01 10 0000 0002 01 00|load 10 Trailing at 40
4D504633|load 2 Magic
4D51|load 2 Magic
4D5046|load 3 Truncated
4D504632 0001 0000 0000 0000 0000 000F4240|load 3 Truncated
4D504632 0001 0000 0000 0000 0000 000F4241|load 5 Total
4D504632 0001 0000 0000 0000 0000 FFFFFFFF|load 5 Total
4D504632 0001 0000 0000 0000 0000 000000|load 3 Truncated
4D504632 0001 0000 0000 0000 0000 00000001 05|load 6 Opcode at 18
4D504632 0001 0000 0000 0000 0000 00000000 00|load 10 Trailing at 18
4D504632 0000|load 4 AgentCount
4D504632 0001 0000 0000 0000 0000 00000001 10 0000|load 7 AwaitAgent at 18
4D504632 0002 0000 0000 0000 0000 00000001 10 0001 00000000|load 9 AwaitCount at 18
00|load 2 Magic
|load 3 Truncated
4D504631 0000|load 4 AgentCount
4D504631 0001 0000 0000 0000 0000 0001 05|load 6 Opcode at 16
4D504631 0001 0000 0000 0000 0000 0001 10 0000 0001 01|load 7 AwaitAgent at 16
4D504631 0002 0000 0000 0000 0000 0001 10 0001 0000 01|load 9 AwaitCount at 16
4D504631 0001 0000 0000 0000 0000 0000 00|load 10 Trailing at 16
EOF

# Hexadecimal text: each digit, in capitals and not, and blanks between any two; and what is none.
check 'hexadecimal in small letters and in capitals' 0 '0: 30874,48350 13330,61115\nagents 2\nticks 0\nheld 0\nfinished\n' '' \
    "printf '4d5 04631\\t00\\r\\n02 789a bCdE\\n 7 8 9 A BcDe 000 0 3412eEbB 3412EeBb0000' | fleet"
check 'hexadecimal of blanks alone' 1 '' 'load 3 Truncated\n' "printf ' \\r\\n\\t' | fleet"
check 'hexadecimal of nothing' 1 '' 'load 3 Truncated\n' 'fleet'
while IFS='|' read -r text due; do
    check "hexadecimal: $text" 1 '' "$due\n" "printf '$text' | fleet"
done <<'EOF'
4D5 \n|hex 3 Odd
f|hex 3 Odd
4G|hex 2 Digit at 1
 0 0 0|hex 3 Odd
4D5g|hex 2 Digit at 3
4D5G|hex 2 Digit at 3
4D5/|hex 2 Digit at 3
4D5:|hex 2 Digit at 3
4D5@|hex 2 Digit at 3
4D5`|hex 2 Digit at 3
4D5x|hex 2 Digit at 3
4D5\0|hex 2 Digit at 3
4D5\377|hex 2 Digit at 3
4D5 x y|hex 2 Digit at 4
\200|hex 2 Digit at 0
4|hex 3 Odd
EOF

# Holds of twelve agents that go three steps north each, and where all are after two ticks, if the holds are read so
# far; if not, the line that is refused.
check 'twelve agents' 0 '' '' "bytes 4D504631 000C \$(for agent in 0 1 2 3 4 5 6 7 8 9 10 11; do echo 0000 0000 0000 0000 0003 00 00 00; done) > twelve"
while IFS='|' read -r text due; do
    case $due in
        run*) check "holds: $text" 1 '' "$due\n" "printf '$text' > holds && fleet rehearse twelve --holds holds > got" ;;
        *) check "holds: $text" 0 "2: $due\n" '' "printf '$text' > holds && fleet rehearse twelve --holds holds > got && sed -n 3p got" ;;
    esac
done <<'EOF'
|0,-2 0,-2 0,-2 0,-2 0,-2 0,-2 0,-2 0,-2 0,-2 0,-2 0,-2 0,-2
0|0,-1 0,-2 0,-2 0,-2 0,-2 0,-2 0,-2 0,-2 0,-2 0,-2 0,-2 0,-2
\055\r\n0 1 11\r\n|0,-1 0,-1 0,-2 0,-2 0,-2 0,-2 0,-2 0,-2 0,-2 0,-2 0,-2 0,-1
x|run 3 Hold line 1
\n|run 3 Hold line 1
1 0|run 3 Hold line 1
0 0|run 3 Hold line 1
0  1|run 3 Hold line 1
 0|run 3 Hold line 1
0 |run 3 Hold line 1
00|run 3 Hold line 1
12|run 3 Hold line 1
\055\n1 0|run 3 Hold line 2
EOF

# Reports, logs, costs and words that are changed in one byte, and what changed.awk says of each, which reads them by
# itself.
CHANGED=$root/tests/changed.awk
export CHANGED

# changes KIND TEXT SHOWN COMMAND..: prints `each`, and before it each changed text to which the command answers
# otherwise. It reads the text as the file `changed`, or reports from standard input. SHOWN takes lines of its output.
script changes <<'EOF'
#!/bin/sh
od -An -v -t u1 "$2" | awk -v kind="$1" -f "$CHANGED" > dues
[ "$1" = reports ] && input=changed || input=/dev/null
shown=$3
shift 3
while IFS='|' read -r octal due; do
    printf "$octal" > changed
    "$@" > got 2> told < $input
    answer=$(echo $? $(cat told) $(sed -n "$shown" got))
    [ "$answer" = "$due" ] || echo "$octal: $answer, due $due"
done < dues
[ "$(wc -l < dues)" -gt 100 ] && echo each
EOF
on='pair.map pair.scen pair.program'
check 'reports are changed in a byte' 0 'each\n' '' \
    "printf '0:1\n0:2 1:1\n1:2\n' > reports && changes reports reports /^reports/p fleet dispatch $on"
check 'a log is changed in a byte' 0 'each\n' '' "changes log reports 's/^\(go [0-9:]*\) .*/\1/p; /^reports/p' fleet dispatch $on --resume changed"
check '.. of which the rest is written' 0 'each\n' '' "changes rest reports '/^moves/p; /^awaits/p' fleet rest $on changed tasks out"
check 'costs are changed in a byte' 0 'each\n' '' \
    "printf '1:2 7\n1 5\n0:1 3\n' > costs && changes costs costs '/^[01]: /p' fleet times $on --costs changed"

# with_word OPTION COMMAND..: runs it with the option and, as its value, what the file `changed` has.
script with_word <<'EOF'
#!/bin/sh
option=$1 word=$(cat changed; echo .)
shift
exec "$@" "$option=${word%.}"
EOF
check 'actions in which robots break down are changed in a byte' 0 'each\n' '' \
    "printf '0:2 1:1' > broken && changes broken broken '/^[01]: /p' with_word --broken fleet times $on"
check 'a dead robot and its cells are changed in a byte' 0 'each\n' '' \
    "printf '0:1\n' > log && printf '1:0,0:2,0' > dead && changes dead dead '/^[.@]/p' sh -c 'with_word --without fleet rest $on log tasks out --map-out left && tail -n 1 left'"

# Maps, scenarios, plans, holds, programs and hexadecimal that are changed in some places.
if has python3; then
    check 'texts and programs are changed at random' 0 'mutated: 2000 cases compared, 35 refusals\n' '' "python3 '$root/tests/mutated.py' '$fleet' 2000"
else
    skip 'texts and programs are changed at random: no python3'
fi
