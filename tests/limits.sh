# Inputs exactly as long as may be, and one byte or one line longer. The long files are holes.

enter limits
most=268435456
pair='0: 1,0 0,0\n1: 2,0 0,0\n2: 3,0 1,0\n3: 3,0 2,0\nagents 2\nticks 3\nheld 0\nfinished\n'
M=examples/pair.map S=examples/pair.scen B=examples/pair.program

# blanks N: N spaces.
script blanks <<'EOF'
#!/bin/sh
head -c "$1" /dev/zero | tr '\0' ' '
EOF

check 'hexadecimal as long as may be' 0 "$pair" '' "{ blanks \$(($most - \$(wc -c < examples/pair.hex))); cat examples/pair.hex; } | fleet"
check 'hexadecimal one byte too long' 3 '' 'file -\n' "{ blanks \$(($most + 1 - \$(wc -c < examples/pair.hex))); cat examples/pair.hex; } | fleet"
check 'a file as long as may be' 1 '' 'load 10 Trailing at 40\n' "cp $B long && truncate -s $most long && fleet rehearse long"
check 'a file one byte too long' 3 '' 'file long\n' "truncate -s $(($most + 1)) long && fleet rehearse long"
check 'the same for verify' 3 '' 'file long\n' "fleet verify $M $S long"
check 'a map as long as may be' 1 '' 'map 7 Trailing\n' "cp $M map && truncate -s $most map && fleet instance map $S"
check 'a map one byte too long' 3 '' 'file map\n' "truncate -s $(($most + 1)) map && fleet instance map $S"
check 'a scenario as long as may be' 1 '' 'scen 3 Fields line 4\n' "cp $S scen && truncate -s $most scen && fleet instance $M scen"
check 'a scenario one byte too long' 3 '' 'file scen\n' "truncate -s $(($most + 1)) scen && fleet instance $M scen"
check 'a plan one byte too long' 3 '' 'file plan\n' "cp examples/pair.plan plan && truncate -s $(($most + 1)) plan && fleet check $M $S plan"
check 'holds as long as may be' 0 'held 0\n' '' "printf '%s\n' - - - > holds && truncate -s $most holds && fleet run $M $S $B --holds holds | tail -n 1"
check 'holds one byte too long' 3 '' 'file holds\n' "truncate -s $(($most + 1)) holds && fleet run $M $S $B --holds holds"

check 'a map of 4,096 by 4,096' 0 'map 4096 4096\nground 16777216\nagents 1\n0: 0,0 4095,4095\n' '' \
    "awk 'BEGIN { r = \".\"; while (length(r) < 4096) r = r r; print \"type t\nheight 4096\nwidth 4096\nmap\"; for (y = 0; y < 4096; y++) print r }' > wide &&
    printf 'version 1\n0 m 4096 4096 0 0 4095 4095 0\n' > far && fleet instance wide far"
check 'a map of 4,097' 1 '' 'map 3 Size\n' "printf 'type t\nheight 1\nwidth 4097\nmap\n' | fleet instance /dev/stdin $S"
crowd='BEGIN { print "version 1"; for (i = 0; i < n; i++) print "0 m 1025 1", i, 0, i, 0, 0 }'
row='BEGIN { r = "."; while (length(r) < 1024) r = r r; print "type t\nheight 1\nwidth 1025\nmap\n" r "." }'
check '1,024 agents' 0 'agents 1024\nticks 0\nchain 0\nheld 0\n' '' "awk '$row' > row && awk -v n=1024 '$crowd' > crowd && fleet auto row crowd | tail -n 4"
check '1,025 agents' 1 '' 'scen 10 TooMany\n' "awk -v n=1025 '$crowd' > crowd && fleet auto row crowd"
check '.. the last of which is no agent line: it is not judged' 1 '' 'scen 10 TooMany\n' "awk -v n=1024 '$crowd' > crowd1024 && echo x >> crowd1024 && fleet auto row crowd1024"
check 'the first 1,024 of them' 0 'agents 1024\n' '' 'fleet instance row crowd --agents 1024 | grep agents'
south='BEGIN { print "version 1"; for (i = 0; i < 1024; i++) print "0 m 1024 2", i, 0, i, 1, 1 }'
wide='BEGIN { r = "."; while (length(r) < 1024) r = r r; print "type t\nheight 2\nwidth 1024\nmap\n" r "\n" r }'
orders='awk "/^go/ { n++; next } { print } END { print n, \"orders\" }"'
check 'a dispatch of 1,024 robots that report one at a time' 0 'arrived\nagents 1024\nmoves 1024\nreports 1024\n1024 orders\n' '' \
    "awk '$wide' > wide.map && awk '$south' > south && fleet plan wide.map south > plan && fleet compile wide.map south plan down > numbers && seq 0 1023 | sed s/\$/:1/ | fleet dispatch wide.map south down | $orders"
check '.. all at once' 0 'arrived\nagents 1024\nmoves 1024\nreports 1\n1024 orders\n' '' "seq 0 1023 | sed s/\$/:1/ | paste -s -d ' ' - | fleet dispatch wide.map south down | $orders"
check '.. and of one that is reported twice without a number' 1 "$(printf 'go %s' '1023 1023,0 1023,1')\n" 'dispatch 3 NotOrdered line 3 agent 7\n' "printf '%s\\n' 7 9 7 | fleet dispatch wide.map south down --unnumbered > told; status=\$?; tail -n 1 told; exit \$status"
check '.. of a number too many' 1 '' 'dispatch 3 NotOrdered line 1 agent 1024\n' 'echo 1024:1 | fleet dispatch wide.map south down > told'
check 'a horizon that just does' 0 '1,0 2,0 3,0\n0,0 1,0 2,0\n' '' "fleet plan $M $S --horizon 2"
check 'a path of 65,536 cells' 0 'conflict-free\nagents 1\nsteps 65535\n' '' \
    "awk 'BEGIN { for (t = 0; t < 65533; t++) printf \"1,0 \"; print \"1,0 2,0 3,0\" }' | fleet check $M $S /dev/stdin --agents 1"
check '1,000 lines of holds' 0 'agents 2\nticks 1003\nchain 3\nheld 1000\n' '' "yes '0 1' | head -n 1000 > thousand && fleet run $M $S $B --holds thousand | tail -n 4"
check '4,194,304 lines of holds' 0 'agents 2\nticks 4194307\nchain 3\nheld 4194304\n' '' \
    "yes 0 | head -n 4194304 > many && fleet run $M $S $B --holds many | tail -n 4"
# One agent that goes one step east, held in as many ticks as a run takes from its source, and in one more.
check 'one agent held in 4,194,304 ticks' 0 'agents 1\nticks 4194305\nchain 1\nheld 4194304\n' '' \
    "printf 'type t\nheight 1\nwidth 2\nmap\n..\n' > step.map && printf 'version 1\n0 m 2 1 0 0 1 0 1\n' > step.scen && bytes 4D504631 0001 0000 0000 0001 0000 0001 01 > step &&
    fleet run step.map step.scen step --holds many | tail -n 4"
check '.. and in one more' 1 '4194304: 0,0\n' 'run 5 HoldLimit\n' 'echo 0 >> many; fleet run step.map step.scen step --holds many > trace; status=$?; tail -n 1 trace; exit $status'
moves='BEGIN { m = "00"; while (length(m) < 131072) m = m m; print "4D504631 0041"; for (i = 0; i < 64; i++) print "0000000000000000 FFFF" substr(m, 3); print last }'
check '4,194,304 moves' 0 'agents 65\nticks 65535\nheld 0\nfinished\n' '' \
    "awk -v last=\"0000000000000000 0040 \$(awk 'BEGIN { while (n++ < 64) printf \"00\" }')\" '$moves' | fleet | tail -n 4"
far='BEGIN { m = "0103"; while (length(m) < 2000000) m = m m; printf "4D504632 0001 0000 0000 0000 0000 000F4240 %s", substr(m, 1, 2000000) }'
check '1,000,000 moves of one agent' 0 'agents 1\nticks 1000000\nheld 0\nfinished\n' '' "awk '$far' | fleet | tail -n 4"
check '1,000,001 moves of one agent' 1 '' 'load 5 Total\n' "echo '4D504632 0001 0000 0000 0000 0000 000F4241' | fleet"
# The same in bytes, and 4,194,304 moves of five agents.
script east_and_back <<'EOF'
#!/bin/sh
yes "$(printf '\1\3')" | tr -d '\n' | head -c "$1"
EOF
there="printf 'type t\nheight 1\nwidth 2\nmap\n..\n' > two.map && printf 'version 1\n0 m 2 1 0 0 0 0 0\n' > two.scen"
check '1,000,000 moves in version 2 are accepted' 0 'accepted\nagents 1\nmoves 1000000\nawaits 0\nchain 1000000\n' '' \
    "$there && { printf 'MPF2\0\1\0\0\0\0\0\0\0\0\0\17\102\100'; east_and_back 1000000; } > way && fleet verify two.map two.scen way"
check '.. and run' 0 'agents 1\nticks 1000000\nchain 1000000\nheld 0\n' '' 'fleet run two.map two.scen way | tail -n 4'
check '.. and timed' 0 '0: 1000000\nagents 1\nmoves 1000000\narrival 1000000\n' '' 'fleet times two.map two.scen way | sed -n 1,4p'
check '.. and stay as they are' 0 'bytes 1000018\n' '' 'fleet migrate way again && cmp way again'
check '65,535 moves in version 1' 0 'agents 1\nticks 65535\nchain 65535\nheld 0\n' '' \
    "printf 'version 1\n0 m 2 1 0 0 1 0 0\n' > odd.scen && { printf 'MPF1\0\1\0\0\0\0\0\1\0\0\377\377'; east_and_back 65535; } > odd && fleet run two.map odd.scen odd | tail -n 4"
check '65,536 moves in version 2' 0 'bytes 65554\n' '' \
    "{ printf 'MPF2\0\1\0\0\0\0\0\0\0\0\0\1\0\0'; east_and_back 65536; } > even && fleet migrate even again && cmp even again"
check '.. are run' 0 'agents 1\nticks 65536\nchain 65536\nheld 0\n' '' 'fleet run two.map two.scen even | tail -n 4'
check '.. and stay in version 2 when thinned' 0 'awaits 0\nawaits 0\n' '' 'fleet thin two.map two.scen even again && cmp even again'
check '4,194,304 moves in version 2' 0 'agents 5\nticks 1000000\nheld 0\nfinished\n' '' \
    "{ printf 'MPF2\0\5'; for agent in 0 1 2 3; do printf '\0\0\0\0\0\0\0\0\0\17\102\100'; east_and_back 1000000; done; printf '\0\0\0\0\0\0\0\0\0\2\367\0'; east_and_back 194304; } > most && fleet rehearse most | tail -n 4"
check '4,194,305 moves' 1 '' 'load 5 Total\n' "awk -v last='0000000000000000 0041' '$moves' | fleet"
# A plan over a large map, plans as long and as many as may be, and one more; programs with as many moves as there may
# be.
check 'a plan from corner to corner of a map of 512 by 512' 0 'conflict-free\nagents 1\nsteps 1022\n' '' \
    "awk 'BEGIN { r = \".\"; while (length(r) < 512) r = r r; print \"type t\nheight 512\nwidth 512\nmap\"; for (y = 0; y < 512; y++) print r }' > room &&
    printf 'version 1\n0 m 512 512 0 0 511 511 0\n' > corners && fleet plan room corners > plan && fleet check room corners plan"
check 'a path of 65,537 cells' 1 '' 'text 3 Length line 1\n' "awk 'BEGIN { for (t = 0; t < 65537; t++) printf \"1,0 \" }' | fleet check $M $S /dev/stdin --agents 1"
check 'a plan of 1,024 agents' 1 '' 'check 2 Agents\n' "yes 65535,65535 | head -n 1024 | fleet check $M $S /dev/stdin"
check 'a plan of 1,025 agents' 1 '' 'text 4 AgentCount\n' "yes 65535,65535 | head -n 1025 | fleet check $M $S /dev/stdin"
# shuttles N: 64 agents that go to and fro 65,535 times, and one that does so N times.
script shuttles <<'EOF'
#!/bin/sh
awk 'BEGIN { print "type t\nheight 65\nwidth 2\nmap"; for (y = 0; y < 65; y++) print ".." }' > shuttles.map
awk -v n="$1" 'BEGIN { print "version 1"; for (y = 0; y < 65; y++) print "0 m 2 65 0", y, y < 64 ? 1 : n % 2, y, 0 }' > shuttles.scen
awk -v n="$1" 'BEGIN { for (y = 0; y < 65; y++) { m = y < 64 ? 65535 : n; for (t = 0; t < m; t++) printf "%d,%d ", t % 2, y; print m % 2 "," y } }' > shuttles.plan
EOF
check '4,194,304 moves are compiled' 0 'agents 65\nmoves 4194304\nawaits 0\nbytes 4194960\n' '' 'shuttles 64 && fleet compile shuttles.map shuttles.scen shuttles.plan moves'
check '.. and one more is too many' 1 '' 'compile 2 TooLong\n' 'shuttles 65 && fleet compile shuttles.map shuttles.scen shuttles.plan moves'
# relay FREE: 1,024 agents that go one step east each, the last one to where the first has begun. Each but the first and
# agent FREE awaits the one before it.
script relay <<'EOF'
#!/bin/sh
awk 'BEGIN { r = "."; while (length(r) < 2048) r = r r; print "type t\nheight 2\nwidth 2049\nmap\n" r ".\n" r "." }' > relay.map
ends='function ends(k) { y = k > 0 && k < 1023; x = k == 0 ? 1 : k == 1023 ? 0 : 2 * k }'
awk "$ends"' BEGIN { print "version 1"; for (k = 0; k < 1024; k++) { ends(k); print "0 m 2049 2", x, y, x + 1, y, 0 } }' > relay.scen
printf "$(awk -v free="$1" "$ends"' function two(n) { return sprintf("\\%03o\\%03o", n / 256, n % 256) }
    BEGIN { printf "MPF1" two(1024); for (k = 0; k < 1024; k++) { ends(k)
        printf "%s", two(x) two(y) two(x + 1) two(y) two(1) (k > 0 && k != free ? "\\020" two(k - 1) two(1) : "") "\\001" } }')" > relay.program
EOF
check 'an order by a chain through 1,024 agents' 0 'accepted\nagents 1024\nmoves 1024\nawaits 1023\nchain 1024\n' '' 'relay 0 && fleet verify relay.map relay.scen relay.program'
check 'no order where two long chains do not meet' 1 '' 'verify 8 Unordered cell 1,0 first 0:0 second 1023:1\n' 'relay 512 && fleet verify relay.map relay.scen relay.program > holds'
rm -rf "$room"
