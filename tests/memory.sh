# Memory: the program with each growth refused in turn, and in address spaces from too small to ample. The answer is the
# command's own, or the line `memory` with status 3, nothing on standard output, and OUT as it was.

enter memory
on='examples/pair.map examples/pair.scen'
many='examples/warehouse.map examples/warehouse.scen'

# due COMMAND..: runs a command, and keeps what is due of it. The file `out` is there, and holds $held, or `kept`.
script due <<'EOF'
echo "${held:-kept}" > out
"$@" > due.got 2> due.told < "$input"
echo $? > due.status
cp out due.out
EOF

# judged COMMAND..: runs it under $limits, and says what it did if that is neither what is due nor want of memory. `was`
# then says which: 126 and 127 are the statuses of a program that could not be started, and those above 128 of one that
# a signal ended.
script judged <<'EOF'
echo "${held:-kept}" > out
$limits "$@" > got 2> told < "$input"
status=$?
line= more= bytes=
{ read -r line; read -r more; } < told
[ -s got ] || read -r bytes < out
if [ "$status $line$more $bytes" = "3 memory ${held:-kept}" ]; then was=lacking
elif [ "$status" = "$(cat due.status)" ] && cmp -s got due.got && cmp -s told due.told && cmp -s out due.out; then was=right
elif [ "$status" -gt 128 ]; then was=killed
elif [ "$status" -ge 126 ]; then was=unstarted
else was=wrong; echo "$limits: status $status, $(wc -c < got) bytes, $line"
fi
EOF

# growths COMMAND..: with each growth refused in turn. Prints wrong answers, and `each` if memory lacked each time, or
# all but once: the room that is asked for at once for the words of the command line can be done without. A dispatch,
# and `rest`, which goes through its reports, copy the counts of the agents four times, and can do without the room that
# is asked for at once for each copy, as can a word that is no command, which is compared with each that is one: so many
# growths $spare has.
script growths <<'EOF'
#!/bin/sh
. due
n=1 lacking=0
echo "${held:-kept}" > out
GROWTHS=count LD_PRELOAD=$REFUSER "$@" > got 2>&1 < "$input"
all=$(cat count)
while [ "$n" -le "$all" ]; do
    limits="env LD_PRELOAD=$REFUSER REFUSE=$n"
    . judged 2> died
    [ "$was" != lacking ] || lacking=$((lacking + 1))
    [ "$was" != killed ] || echo "$limits: status $status"
    n=$((n + 1))
done
if [ "$lacking" -ge 10 ] && [ "$((all - lacking))" -le "$((1 + ${spare:-0}))" ]; then echo each; else echo "memory lacked in $lacking of $all"; fi
EOF

# within SPACE COMMAND..: in an address space of so many KB.
script within <<'EOF'
#!/bin/sh
program=$(command -v "$2")
ulimit -c 0
ulimit -v "$1"
shift 2
exec "$program" "$@"
EOF

# spaces STEP COMMAND..: in address spaces that grow by STEP KB, from one in which the system cannot start the program
# to one in which the answer is what is due. Prints wrong answers, and which kinds of answers came after one another.
# Until the loader has said once that it cannot start the program, a signal is the system's, which cannot even map it.
script spaces <<'EOF'
#!/bin/sh
step=$1
shift
. due
space=1024 before= order= loaded=
while [ "$before" != right ] && [ "$space" -le 262144 ]; do
    limits="within $space"
    . judged 2> died
    [ "$was" != unstarted ] || loaded=yes
    [ "$was$loaded" != killed ] || was=unstarted
    [ "$was" = "$before" ] || order="$order $was"
    before=$was
    if [ "$was" = unstarted ]; then space=$((space + 16)); else space=$((space + step)); fi
done
echo $order
EOF

# shallow COMMAND..: with a stack of 88 KB, or of $depth, and no environment on it.
script shallow <<'EOF'
#!/bin/sh
program=$(command -v "$1")
ulimit -c 0
ulimit -s "${depth:-88}"
shift
exec env -i "$program" "$@"
EOF

# stack COMMAND..: which kind of answer there is with so small a stack.
script stack <<'EOF'
#!/bin/sh
. due
limits=shallow
. judged 2> died
echo $was
EOF

# listed MAP SCEN PLAN PROGRAM: the words of each command of commands.list but `dispatch`, which reads reports, with
# these files.
script listed <<'EOF'
#!/bin/sh
grep -v -e '^#' -e '|dispatch ' "$LIST" | sed "s/.*|//; s/ --holds .*//; s/OUT OUT/tasks out/; s/OUT/out/
    s#examples/corridor.map#$1#; s#examples/corridor.scen#$2#; s#examples/corridor.plan#$3#; s#examples/corridor.program#$4#
    s#examples/corridor.log#log#"
EOF

# extra COMMAND..: how many more growths the command asks for than `instance` on the same files.
script extra <<'EOF'
#!/bin/sh
GROWTHS=count LD_PRELOAD=$REFUSER "$@" > got 2>&1 < "$input"
all=$(cat count)
GROWTHS=count LD_PRELOAD=$REFUSER fleet instance "$3" "$4" > got 2>&1 < "$input"
echo $((all - $(cat count)))
EOF
input=/dev/null
# The loader parts its list at blanks, which the folder's name may have.
REFUSER=./refuse.so
LIST=$root/tests/commands.list
export input REFUSER LIST

check 'a program that holds break' 0 '' '' "{ head -c 28 examples/pair.program; printf '\\1\\20\\0\\0\\0\\2\\1'; } > unordered"
check 'a program with implied awaits' 0 '' '' "fleet compile examples/corridor.map examples/corridor.scen examples/corridor.plan all --deps all > numbers"
check 'agents that find paths in the second order' 0 '' '' "printf 'type t\\nheight 2\\nwidth 3\\nmap\\n...\\n@.@\\n' > mouth.map && printf 'version 1\\n0 m 3 2 1 1 1 0 1\\n0 m 3 2 0 0 2 0 2\\n' > mouth.scen"
check 'agents of which the last finds no path' 0 '' '' "printf 'type t\\nheight 2\\nwidth 2\\nmap\\n..\\n..\\n' > square.map && printf 'version 1\\n0 m 2 2 0 0 1 0 1\\n0 m 2 2 1 0 1 1 1\\n0 m 2 2 1 1 0 1 1\\n0 m 2 2 0 1 0 0 1\\n' > square.scen"
check 'agents of a plan that go round in a ring, or exchange their cells' 0 '' '' "printf '0,0 1,0\n1,0 1,1\n1,1 0,1\n0,1 0,0\n' > ring.plan && printf '1,0 0,0\n0,0 1,0\n' > swap.plan && printf 'version 1\n0 m 4 1 1 0 0 0 1\n0 m 4 1 0 0 1 0 1\n' > swap.scen"
check 'a program that nobody begins' 0 '' '' "bytes 4D504631 0002 0001 0000 0003 0000 0002 10 0001 0001 01 01 0000 0000 0002 0000 0002 10 0000 0001 01 01 > deadlock"
check 'a program in version 2' 0 'bytes 48\n' '' 'fleet migrate examples/pair.program pair2'
check 'costs, and a log' 0 '' '' "printf '0 2\n1:2 3\n' > costs && printf '0:1\n' > log"
if has "${cc%% *}"; then
    $cc -shared -fPIC -o "$room/$REFUSER" "$root/tests/refuse.c" -ldl || failed=$((failed + 1))
    while read -r words; do
        case $words in rest*) spare=4 ;; fly) spare=38 ;; *) spare=0 ;; esac
        check "each growth refused: $words" 0 'each\n' '' "spare=$spare growths fleet $words"
    done <<EOF
$("$work/bin/listed" $on examples/pair.plan examples/pair.program)
check $on examples/pair.plan --numbers
check square.map square.scen ring.plan
check examples/pair.map swap.scen swap.plan
plan $on --horizon 1
plan square.map square.scen
plan mouth.map mouth.scen --tries 2
plan mouth.map mouth.scen --tries 3 --best cost
plan mouth.map mouth.scen --tries 3 --best chain
compile $on examples/pair.plan out --deps all
compile $on examples/pair.plan out --dwell 2
verify $on unordered
verify $on deadlock
run $on examples/pair.program --holds examples/corridor.holds
rehearse examples/pair.program --holds examples/corridor.holds
rehearse examples/pair.map
migrate examples/pair.map out
migrate pair2 out
auto $on --holds examples/corridor.holds
auto $on --horizon 1
auto mouth.map mouth.scen --tries 2
auto mouth.map mouth.scen --tries 3 --best chain --numbers
thin examples/corridor.map examples/corridor.scen all out
times $on examples/pair.program --costs costs
times $on examples/pair.program --broken 0:1
times $on examples/pair.program --broken 0:3
instance $on --agents 3
rest $on examples/pair.program log tasks out --without 1:0,0 --map-out map.left --others-out tasks.left
verify examples/corridor.map examples/corridor.scen examples/pair.program
--help
auto --help
auto m
fly
EOF
    check 'each growth refused: no words' 0 'each\n' '' 'input=examples/pair.hex growths fleet'
    check 'each growth refused: dispatch' 0 'each\n' '' "printf '%s\n' 0:1 '0:2 1:1' 1:2 > reports && input=reports spare=4 growths fleet dispatch $on examples/pair.program"
    check '.. which keeps a log' 0 'each\n' '' "held=0:1 input=reports spare=4 growths fleet dispatch $on examples/pair.program --resume log --log out"
    check '.. with two orders ahead' 0 'each\n' '' "input=reports spare=4 growths fleet dispatch $on examples/pair.program --ahead 2"
    check '.. without numbers' 0 'each\n' '' "printf '%s\n' 0 '0 1' 1 > counts && input=counts spare=4 growths fleet dispatch $on examples/pair.program --unnumbered"
    check '.. which stops at a report' 0 'each\n' '' "printf '%s\n' 0:1 1:1 1:3 > reports && input=reports spare=4 growths fleet dispatch $on examples/pair.program"
    # The verifier says yes to most programs from a run ahead, for which it makes no machine, and goes through all
    # others again. No contract says which.
    check 'a program that is accepted ahead' 0 'few\n' '' "test \$(extra fleet verify $on examples/pair.program) -le 30 && echo few"
    check 'a program that is gone through again' 0 'many\n' '' "test \$(extra fleet verify $on unordered) -gt 60 && echo many"
else
    skip 'each growth refused: there is no compiler of C'
fi

check 'a plan and its program' 0 '' '' "fleet plan $many > plan && fleet compile $many plan program > numbers"
while read -r step words; do
    check "small address spaces: $words" 0 'unstarted lacking right\n' '' "spaces $step fleet $words"
done <<EOF
4 instance $many
4 check $many plan
64 plan $many
16 compile $many plan out
16 verify $many program
16 list program
16 thin $many program out
16 run $many program
16 rehearse program
16 migrate program out
16 dispatch $many program
16 times $many program
16 rest $many program log tasks out
64 auto $many --holds examples/warehouse.holds
EOF
while read -r words; do
    check "a small stack: $words" 0 'right\n' '' "stack fleet $words"
done <<EOF
$("$work/bin/listed" $many plan program)
dispatch $many program
EOF
for words in --help fly; do
    check "a small stack: $words" 0 'right\n' '' "depth=128 stack fleet $words"
done
check 'a small stack: auto m' 0 'right\n' '' 'stack fleet auto m'
check 'a small stack: no words' 0 'right\n' '' 'input=examples/pair.hex stack fleet'
check 'a small stack: dispatch to its end' 0 'right\n' '' "printf '%s\\n' 0:1 '0:2 1:1' 1:2 > reports && input=reports stack fleet dispatch $on examples/pair.program"
rm -rf "$room"
