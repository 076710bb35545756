# Standard streams: closed, full, a folder, and read by somebody who goes away; and streams and files that fail after
# some bytes.

enter streams
M=examples/corridor.map S=examples/corridor.scen P=examples/corridor.plan B=examples/corridor.program

# unread COMMAND..: standard output is a pipe whose reader has gone.
script unread <<'EOF'
#!/bin/sh
rm -f unread.pipe
mkfifo unread.pipe
: < unread.pipe &
exec > unread.pipe
wait
exec "$@"
EOF

# A full and a closed standard output, and one that nobody reads.
grep -v '^#' "$root/tests/commands.list" > "$room/commands"
while IFS='|' read -r line words; do
    words=$(echo "$words" | sed "s/OUT/out.${words%% *}/")
    check "standard output is full: $words" 3 '' "$line\n" "fleet $words > /dev/full"
    check "standard output is closed: $words" 3 '' "$line\n" "fleet $words >&-"
    check "standard output is a pipe without a reader: $words" 3 '' "$line\n" "unread fleet $words"
done < "$room/commands"
check 'standard output is a pipe without a reader: no words' 3 '' 'run 4 Write\n' 'unread fleet < examples/corridor.hex'
check 'standard output is full: help' 3 '' 'file -\n' 'fleet --help > /dev/full'
check 'standard output is full: no words' 3 '' 'run 4 Write\n' 'fleet < examples/corridor.hex > /dev/full'
check 'standard output is closed: no words' 3 '' 'run 4 Write\n' 'fleet < examples/corridor.hex >&-'
check 'OUT stands where the numbers cannot be printed' 0 '' '' "cmp out.compile $B"
check '.. of migrate too' 0 '' '' "fleet migrate $B again > numbers && cmp out.migrate again"
check 'a refusal writes nothing to a full standard output' 1 '' 'scen 11 Fewer\n' "fleet instance $M $S --agents 9 > /dev/full"
check 'the lines before a refusal, into a full standard output' 3 '' 'run 4 Write\n' "printf '%s\n' 0 0 9 > wrong; fleet auto $M $S --holds wrong > /dev/full"
check '.. of a rehearsal' 3 '' 'run 4 Write\n' "fleet rehearse $B --holds wrong > /dev/full"
check '.. where there are none' 1 '' 'search 2 NoPath agent 0\n' "fleet auto $M $S --horizon 1 > /dev/full"
check '.. nor of a rehearsal' 1 '' 'load 2 Magic\n' "fleet rehearse $M > /dev/full"
check 'a refusal that cannot be written has its status' 1 '' '' "fleet instance $M $S --agents 9 2> /dev/full"
check 'the same of a missing file' 3 '' '' 'fleet rehearse nowhere 2>&-'
check 'the same of wrong usage' 2 '' '' 'fleet nothing 2> /dev/full'

# Standard input.
check 'standard input is closed' 3 '' 'file -\n' 'fleet <&-'
check 'standard input is a folder' 3 '' 'file -\n' 'fleet < examples'
check 'standard input is a pipe that comes in pieces' 0 'finished\n' '' '{ head -c 9 examples/pair.hex; sleep 1; tail -c +10 examples/pair.hex; } | fleet | tail -n 1'
check 'standard input is read by name' 0 'finished\n' '' "fleet rehearse /dev/stdin < $B | tail -n 1"
check 'commands do not read standard input' 0 "$(sed 1q "$room/$P")\n" '' "fleet plan $M $S < examples/warehouse.trace | head -n 1"

# A dispatch: each order comes before the report of it is waited for, and each report as it comes.
pair='examples/pair.map examples/pair.scen examples/pair.program'
check 'orders come before reports are waited for' 0 'go 0:1 1,0 2,0\ngo 0:2 2,0 3,0, go 1:1 0,0 1,0\ngo 1:2 1,0 2,0\narrived\nagents 2\nmoves 4\nreports 3\n' '' "
    mkfifo reports orders
    fleet dispatch $pair < reports > orders &
    exec 3> reports 4< orders
    read -r one <&4; echo \"\$one\"; echo 0:1 >&3
    read -r one <&4; read -r other <&4; echo \"\$one, \$other\"; echo '0:2 1:1' >&3
    read -r one <&4; echo \"\$one\"; echo 1:2 >&3
    cat <&4"
check 'a report that comes byte by byte' 0 'go 1:2 1,0 2,0\narrived\n' '' \
    "{ printf 0:; sleep 0.2; printf '1\\n0:2'; sleep 0.2; printf ' '; sleep 0.2; printf '1:1\\n1:'; sleep 0.2; printf '2\\n'; } | fleet dispatch $pair | sed -n 4,5p"
check 'a dispatch stops at its end' 0 'reports 3\n' '' "printf '%s\\n' 0:1 '0:2 1:1' 1:2 0:1 x | fleet dispatch $pair | tail -n 1"
check 'a log that is cut anywhere' 0 '17 arrived\n17 reports 3\n' '' \
    "printf '%s\\n' 0:1 '0:2 1:1' 1:2 > all; for n in \$(seq 0 16); do head -c \$n all > log; fleet dispatch $pair --resume log < all; done | grep -E '^(arrived|reports)' | sort | uniq -c | sed 's/^ *//'"
check '.. and kept on' 0 '17 arrived\n17 reports 3\n' '' \
    "for n in \$(seq 0 16); do head -c \$n all > log; fleet dispatch $pair --resume log --log log < all; cmp log all; done | grep -vE '^(go|agents|moves)' | sort | uniq -c | sed 's/^ *//'"
check 'a dispatch that is killed after each report goes on after its log' 0 '0 4\n1 4\n2 4\n3 4\n' '' "
    printf '%s\n' 0:1 0:2 1:1 1:2 > each
    exec 5>&2 2> killed
    for n in 0 1 2 3; do
        rm -f pipe
        : > kept
        mkfifo pipe
        fleet dispatch $pair --log kept < pipe > told &
        exec 6> pipe
        head -n \$n each >&6
        until [ \$(wc -l < kept) -eq \$n ]; do sleep 0.01; done
        kill -9 \$!
        wait
        exec 6>&-
        tail -n +\$((n + 1)) each | fleet dispatch $pair --resume kept --log kept > rest 2>&5
        cmp kept each >&5 && tail -n 1 rest | grep -qx 'reports 4' && echo \$n \$(cat told rest | grep '^go ' | sort -u | wc -l)
    done"

# A dispatch that is killed at times drawn by lot: its log has a front of the reports, the last one perhaps without its
# end, and the next one goes on after it. In the end all are in the log, and each order was given that is due.
script kill_loggers <<'EOF'
#!/bin/sh
W='examples/warehouse.map examples/warehouse.scen'
fleet plan $W > plan && fleet compile $W plan many > said && fleet list many | awk -f tools/log.awk | head -n 40 > all || exit
fleet dispatch $W many < all 2> /dev/null | sort > many.due
: > many.log
: > many.orders
for after in 0.001 $(awk 'BEGIN { s = 271; for (k = 0; k < 12; k++) { s = s * 16807 % 2147483647; printf "0.%05d\n", s % 6000 } }') 100; do
    tail -n "+$(($(wc -l < many.log) + 1))" all |
        timeout -s KILL "$after" fleet dispatch $W many --resume many.log --log many.log 2> /dev/null | grep '^go .* .*,.* .*,' >> many.orders
    head -c "$(wc -c < many.log)" all | cmp - many.log || exit
    cmp -s all many.log || was=killed
done
cmp all many.log && sort -u many.orders | cmp - many.due && echo $was "$(wc -l < many.due)"
EOF
check 'a log of a process that is killed' 0 'killed 3900\n' '' 'kill_loggers 2> told'
check 'a log that is a folder' 3 '' 'file examples\n' "fleet dispatch $pair --log examples < each"
check 'a log that goes to a pipe' 0 '0:1\n0:2\n1:1\n1:2\n' '' "fleet dispatch $pair --log /dev/stderr < each 2>&1 > told | cat"
check 'a log that is moved away ends a dispatch' 3 '0:1\n' 'dispatch 8 LogWrite line 2\n' \
    "rm -f live; { echo 0:1; until [ -s live ]; do sleep 0.01; done; mv live moved; tail -n 3 each; } | fleet dispatch $pair --log live > told; status=\$?; cat moved; [ ! -e live ] && exit \$status"
check 'nothing of a log is read after the end' 0 'reports 4\n' '' "{ cat each; echo 9:9; } > long && fleet dispatch $pair --resume long | tail -n 1"
check 'reports are closed' 3 'go 0:1 1,0 2,0\n' 'file -\n' "fleet dispatch $pair <&-"
check 'reports are a folder' 3 'go 0:1 1,0 2,0\n' 'file -\n' "fleet dispatch $pair < examples"

# A reader that goes away: what is longer than a pipe takes is a failed write, what is shorter is done.
check 'a long trace into head' 0 "$(sed 1q "$root/examples/warehouse.trace")\n3\nrun 4 Write\n" '' \
    '{ fleet auto examples/warehouse.map examples/warehouse.scen 2> err; echo $? > status; } | head -n 1; cat status err'
check 'a short trace into head' 0 '0: 2,0 1,0 0,0\n0\n' '' "{ fleet auto $M $S; echo \$? > status; } | head -n 1; cat status"
check 'two refusals into one file are two lines' 0 'map 2 Header line 1\nscen 11 Fewer\n' '' \
    "fleet instance $S $S 2> log; fleet instance $M $S --agents 9 2>> log; cat log"

# A file-size limit of the system ends the program by a signal, 25 of them here.
check 'a file-size limit' 0 '153\n' '' \
    'exec 2> said; (ulimit -c 0; ulimit -f 1; fleet auto examples/warehouse.map examples/warehouse.scen > big); echo $?'
check 'a file-size limit that ends no program' 3 '' 'run 4 Write\n' \
    "(trap '' XFSZ; ulimit -f 1; fleet auto examples/warehouse.map examples/warehouse.scen > big)"
check 'the file has the front of the trace' 0 '' '' \
    'fleet auto examples/warehouse.map examples/warehouse.scen > whole; n=$(wc -c < big); [ $n -ge 512 ] && head -c $n whole | cmp - big'

# Streams and files that fail after some bytes, however many (tests/streams.c).
# The loader parts its list at blanks, which the folder's name may have.
STREAMS=./streams.so
export STREAMS

# output_cut WAY LINE COMMAND..: standard output takes 0 bytes, or $from, or one more each time, and then fails in this
# way. Prints `each` and then after how many bytes it was not so that the program said the line, with status 3, and that
# the front of what it prints was taken.
script output_cut <<'EOF'
#!/bin/sh
WAY=$1 line=$2
export WAY
shift 2
"$@" > whole 2> told < "$input"
bytes=$(wc -c < whole) wrong= room=${from:-0}
while [ "$room" -lt "$bytes" ]; do
    env ROOM="$room" LD_PRELOAD="$STREAMS" "$@" > got 2> told < "$input"
    [ "$? $(cat told)" = "3 $line" ] && head -c "$room" whole | cmp -s - got || wrong="$wrong $room"
    room=$((room + 1))
done
[ "$bytes" -gt "${from:-0}" ] && echo "each$wrong"
EOF

# input_cut WAY COMMAND..: the same of standard input. Prints how many bytes it has, and after how many the program did
# not say that it cannot be read, with status 3.
script input_cut <<'EOF'
#!/bin/sh
WAY=$1
export WAY
shift
bytes=$(wc -c < "$input") heard= rest=0
while [ "$rest" -le "$bytes" ]; do
    env REST="$rest" LD_PRELOAD="$STREAMS" "$@" > got 2> told < "$input"
    [ "$? $(cat told)" = '3 file -' ] || heard="$heard $rest"
    rest=$((rest + 1))
done
echo $bytes:$heard
EOF

# told_cut WAY COMMAND..: how many lines are told then, and how often that came in a row.
script told_cut <<'EOF'
#!/bin/sh
WAY=$1
export WAY
shift
bytes=$(wc -c < "$input") rest=0
while [ "$rest" -le "$bytes" ]; do
    env REST="$rest" LD_PRELOAD="$STREAMS" "$@" 2> told < "$input" | wc -l
    rest=$((rest + 1))
done | uniq -c | awk '{ print $1, $2 }'
EOF

# files_cut WAY VARIABLE COMMAND..: the files that the program opens give (GIVES) or take (TAKES) 0 bytes, or standard
# output takes so many (ROOM), or the files are put on the disk 0 times (SYNCS), or once more each time until it is done,
# at most 1,000 times, and then fail in this way. Prints each status and line, and how often they came in a row.
script files_cut <<'EOF'
#!/bin/sh
WAY=$1 variable=$2 bytes=0 status=3
export WAY
shift 2
while [ "$status" -ne 0 ] && [ "$bytes" -lt 1000 ]; do
    env "$variable=$bytes" LD_PRELOAD="$STREAMS" "$@" > got 2> told < /dev/null
    status=$?
    echo "$status $(cat told)"
    bytes=$((bytes + 1))
done | uniq -c | sed 's/^ *//'
EOF

# killed OUTS COMMAND..: the program is killed before it writes its first byte to a file, or the next one each time,
# until it is done. Each of the files OUTS then has a front of what is due. Prints how often it was killed, and before
# that after how many bytes it was not so.
script killed <<'EOF'
#!/bin/sh
outs=$1 turn=1 status=137
shift
exec 2> died
"$@" > whole || exit
for out in $outs; do mv "$out" "due.$out"; done
echo old > old
while [ "$status" -eq 137 ]; do
    for out in $outs; do echo old > "$out"; done
    env KILL="$turn" TAKES=1000000 LD_PRELOAD="$STREAMS" "$@" > got
    status=$?
    for out in $outs; do
        cmp -s old "$out" || head -c "$(wc -c < "$out")" "due.$out" | cmp -s - "$out" || echo "$turn: $out"
    done
    turn=$((turn + 1))
done
for out in $outs; do cmp "due.$out" "$out" || exit; done
cmp whole got && echo $((turn - 2))
EOF

# killed_log COMMAND..: the same of the log of a dispatch, which begins with a report without an end, and is put on the
# disk too. The next dispatch goes on after it: in the end each report is in the log, and each order was given.
script killed_log <<'EOF'
#!/bin/sh
turn=1 status=137
exec 2> died
"$@" < lines | grep '^go ' | sort > due
while [ "$status" -eq 137 ]; do
    printf 0: > cut.log
    env KILL="$turn" TAKES=1000000 LD_PRELOAD="$STREAMS" "$@" --resume cut.log --log cut.log < lines > got
    status=$?
    head -c "$(wc -c < cut.log)" lines | cmp -s - cut.log || echo "$turn: not a front"
    tail -n "+$(($(wc -l < cut.log) + 1))" lines | "$@" --resume cut.log --log cut.log > rest || echo "$turn: status $?"
    cmp -s lines cut.log && cat got rest | grep '^go ' | sort -u | cmp -s due - || echo "$turn: not all"
    turn=$((turn + 1))
done
echo $((turn - 2))
EOF
check 'a report without an end is heard up to a length' 1 'go 0:1 1,0 2,0\n' 'dispatch 2 Form line 1\n' "head -c 20000 /dev/zero | tr '\\0' 0 | fleet dispatch $pair"
if has "${cc%% *}"; then
    $cc -shared -fPIC -o "$room/$STREAMS" "$root/tests/streams.c" -ldl || failed=$((failed + 1))
    printf '%s\n' 0:1 '0:2 1:1' 1:2 > "$room/lines"
    check 'a program that holds break' 0 '' '' "{ head -c 28 examples/pair.program; printf '\\1\\20\\0\\0\\0\\2\\1'; } > unordered"
    # 32 is a broken pipe, and 11 a write that would have to wait; in the way 0 nothing is taken, and no error answered.
    while IFS='|' read -r way line input words; do
        check "standard output is cut ($way): ${words:-no words}" 0 'each\n' '' "input=$input output_cut $way '$line' fleet $words"
    done <<EOF
32|run 4 Write|examples/pair.hex|
$(sed '/|dispatch/d; s#|#|/dev/null|#; s/OUT OUT/tasks anew/; s/OUT/anew/; s/^/32|/; s/corridor/pair/g; s/pair.holds/corridor.holds/; s/examples.pair.log/lines/' "$room/commands")
0|run 4 Write|/dev/null|rehearse examples/pair.program
0|file -|/dev/null|list examples/pair.program
32|file -|/dev/null|verify examples/pair.map examples/pair.scen unordered
32|dispatch 5 Write|lines|dispatch $pair
0|dispatch 5 Write|lines|dispatch $pair
11|dispatch 5 Write|lines|dispatch $pair
EOF
    # The numbers of the plan come after the trace, when the run is over.
    auto='auto examples/pair.map examples/pair.scen'
    trace=$(cd "$room" && fleet $auto | wc -c | tr -d ' ')
    numbers=$(cd "$room" && fleet $auto --numbers | tail -n 3 | wc -c | tr -d ' ')
    for way in 32 0; do
        check "standard output is cut ($way): the numbers of $auto" 0 'each\n' '' "input=/dev/null from=$trace output_cut $way 'file -' fleet $auto --numbers"
        check "standard output is cut ($way): the trace before them" 0 "$trace 3 run 4 Write\n$numbers 3 file -\n1 0 \n" '' "files_cut $way ROOM fleet $auto --numbers"
    done

    # 4 is an interrupted read, 5 a failed one, and 11 one that would have to wait. The last report ends a dispatch, so
    # nothing is read after it.
    bytes=$(wc -c < "$room/examples/pair.hex" | tr -d ' ')
    for way in 4 5 11; do
        check "standard input is cut ($way): no words" 0 "$bytes:\n" '' "input=examples/pair.hex input_cut $way fleet"
        check "standard input is cut ($way): dispatch" 0 '16: 16\n' '' "input=lines input_cut $way fleet dispatch $pair"
        check "standard input is cut ($way): the orders until then" 0 '4 1\n8 3\n4 4\n1 8\n' '' "input=lines told_cut $way fleet dispatch $pair"
    done

    # Each file is read to its end, which is seen once there is a byte left to give.
    printf '1 5\n' > "$room/costs"
    while read -r way words; do
        due=$(cd "$room" && for word in $words; do
            case $word in */* | costs | lines) echo "$(wc -c < "$word") 3 file $word" ;; esac
        done | awk '{ $1 += NR == 1; printf "%s\\n", $0 }')
        check "the files are cut ($way): $words" 0 "${due}1 0 \n" '' "files_cut $way GIVES fleet $words"
    done <<EOF
4 verify $pair
$(sed '/|dispatch/d; s/.*|/5 /; s/OUT OUT/tasks anew/; s/OUT/anew/; s/corridor/pair/g; s/pair.holds/corridor.holds/; s/examples.pair.log/lines/' "$room/commands")
5 times $pair --costs costs
5 dispatch $pair --resume lines
5 dispatch $pair --resume lines --log ./lines
EOF
    # 28 is a full disk.
    while read -r way bytes words; do
        check "OUT is cut ($way): $words" 0 "$bytes 3 file anew\n1 0 \n" '' "files_cut $way TAKES fleet $words"
    done <<EOF
0 48 migrate examples/pair.program anew
28 48 migrate examples/pair.program anew
28 40 compile examples/pair.map examples/pair.scen examples/pair.plan anew
28 40 thin $pair anew
EOF
    check 'a scenario and a program are left' 0 'agents 2\nmoves 3\nawaits 1\nbytes 34\n' '' "echo 0:1 > one && fleet rest $pair one tasks anew"
    check 'each of two OUTs is cut (28): rest' 0 "$(wc -c < "$room/tasks" | tr -d ' ') 3 file tasks\n34 3 file anew\n1 0 \n" '' \
        "files_cut 28 TAKES fleet rest $pair one tasks anew"
    check '.. of two OUTs of one name the last one' 0 'agents 2\nmoves 3\nawaits 1\nbytes 34\n' '' "cp anew left && fleet rest $pair one same same && cmp same left"
    dead='--without 1:0,0 --map-out left --others-out others'
    check '.. and two more around a dead robot' 0 'agents 2\nmoves 3\nawaits 1\nbytes 34\n' '' "fleet rest $pair one tasks anew $dead"
    due=$(cd "$room" && for out in tasks left others anew; do echo "$(wc -c < $out) 3 file $out"; done | awk '{ printf "%s\\n", $0 }')
    check 'each of four OUTs is cut (28): rest' 0 "${due}1 0 \n" '' "files_cut 28 TAKES fleet rest $pair one tasks anew $dead"
    while IFS='|' read -r outs words; do
        turns=$(cd "$room" && fleet $words > got && cat $outs | wc -c | tr -d ' ')
        check "OUT of a process that is killed at each byte: $words" 0 "$turns\n" '' "killed '$outs' fleet $words"
    done <<EOF
anew|migrate examples/pair.program anew
anew|compile examples/pair.map examples/pair.scen examples/pair.plan anew
anew|thin $pair anew
tasks anew left others|rest $pair one tasks anew $dead
EOF
    check 'a log of a process that is killed at each byte, and each time that it is cut or put on the disk' 0 '21\n' '' "killed_log fleet dispatch $pair"
    check 'a log is cut (28)' 0 '4 3 dispatch 8 LogWrite line 1\n8 3 dispatch 8 LogWrite line 2\n4 3 dispatch 8 LogWrite line 3\n1 0 \n' '' \
        "files_cut 28 TAKES sh -c 'rm -f cut.log; fleet dispatch $pair --log cut.log < lines'"

    check 'a log without an end cannot be made shorter' 3 '' 'file log\n' \
        "printf '0:1\n0:2' > log && cp log past && SHRINKS=0 WAY=5 LD_PRELOAD=$STREAMS fleet dispatch $pair --resume log --log log < /dev/null; status=\$?; cmp log past; exit \$status"

    # The folder of a log is put on the disk when the log is begun, which may fail, and then each report. 5 is an error
    # of the disk.
    mkdir "$room/kept.logs"
    for log in new.log kept.logs/new.log; do
        check "reports are not on the disk: $log" 0 '2 3 dispatch 8 LogWrite line 1\n1 3 dispatch 8 LogWrite line 2\n1 3 dispatch 8 LogWrite line 3\n1 0 \n' '' \
            "FOLDER=$(dirname $log) files_cut 5 SYNCS sh -c 'rm -f $log; fleet dispatch $pair --log $log < lines'"
    done

    # Two agents await each other, the second one 100,000 actions of the first.
    ring="printf 'type t\\nheight 2\\nwidth 2\\nmap\\n..\\n..\\n' > ring.map && printf 'version 1\\n0 m 2 2 0 0 0 0 0\\n0 m 2 2 0 1 1 1 0\\n' > ring.scen &&
        { bytes 4D504632 0002 0000 0000 0000 0000 000186A0 10 0001 00000001; yes \"\$(printf '\\1\\3')\" | tr -d '\\n' | head -c 100000
        bytes 0000 0001 0001 0001 00000001 10 0000 000186A0 01; } > ring"
    length=$(awk 'BEGIN { for (k = 1; k <= 100000; k++) n += length(" 0:" k); print n + length("verify 7 Cyclic 1:1\n") }')
    check 'a long refusal is written in few pieces' 1 "$length\nfew\n" '' \
        "$ring; WRITES=writes LD_PRELOAD=$STREAMS fleet verify ring.map ring.scen ring 2> told; status=\$?; wc -c < told | tr -d ' '; [ \$(cat writes) -le 200 ] && echo few; exit \$status"
else
    skip 'streams that fail after some bytes: there is no compiler of C'
fi
