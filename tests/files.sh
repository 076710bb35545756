# Files: what is read, what is written, and what is reported of those that cannot be.

enter files
M=examples/corridor.map S=examples/corridor.scen P=examples/corridor.plan B=examples/corridor.program H=examples/corridor.holds

# Each file that a command reads is missing in turn, alone and with those that are read after it. `@` stands for the
# missing one.
echo old > "$room/kept"
grep -v '^#' "$root/tests/commands.list" | sed 's/.*|//; s/OUT/kept/g' | awk '
    { for (k = 1; k <= NF; k++) if ($k ~ /[.]/) { words = $0; $k = "@"; print; $0 = words } }' > "$room/missing"
while read -r words; do
    check "a missing file: $words" 3 '' 'file nowhere\n' "fleet $(echo "$words" | sed 's/@/nowhere/')"
    check "a missing file, and those after it: $words" 3 '' 'file nowhere\n' \
        "fleet $(echo "$words" | awk '{ for (i = 1; i <= NF; i++) { if (after && $i ~ /^examples/) $i = "none"; if ($i == "@") { $i = "nowhere"; after = 1 } } print }')"
    check "a folder: $words" 3 '' 'file examples\n' "fleet $(echo "$words" | sed 's/@/examples/')"
    check "an empty name: $words" 3 '' 'file \n' "fleet $(echo "$words" | sed "s/@/''/")"
done < "$room/missing"
check 'OUT stays as it was where a file is missing' 0 'old\n' '' 'cat kept'
check 'the first of two missing files is reported' 3 '' 'file a\n' 'fleet check a b c'
check 'files are read before any is judged' 3 '' 'file nowhere\n' "fleet auto $S $S --holds nowhere"
check 'missing costs' 3 '' 'file nowhere\n' "fleet times examples/pair.map examples/pair.scen examples/pair.program --costs nowhere"
check 'no OUT where a file is missing' 3 '' 'file nowhere\n' "fleet compile $M $S nowhere out"
check 'so there is none' 1 '' '' 'ls | grep out'

if [ "$(id -u)" = 0 ]; then
    skip 'files that may not be read or written: root may read and write all'
else
    check 'an unreadable file' 3 '' 'file shut\n' "cp $M shut && chmod 000 shut && fleet instance shut $S"
    check 'OUT may not be written' 3 '' 'file kept\n' "echo kept > kept && chmod 444 kept && fleet compile $M $S $P kept"
    check 'OUT stays as it was' 0 'kept\n' '' 'cat kept'
fi

# in_full COMMAND..: with a small file system at the folder full.
script in_full <<'EOF'
#!/bin/sh
mkdir -p full
exec unshare -rm sh -c 'mount -t tmpfs -o size=16k none full && exec "$@"' sh "$@"
EOF

# OUT.
numbers='agents 3\nmoves 6\nawaits 4\nbytes 62\n'
check 'OUT is written' 0 "$numbers" '' "fleet compile $M $S $P out"
check 'OUT has the bytes of the program' 0 '' '' "cmp out $B"
check 'OUT is written over a longer file' 0 "$numbers" '' "cat $B $B $B > out && fleet compile $M $S $P out"
check 'OUT has those bytes alone' 0 '' '' "cmp out $B"
check 'OUT is written over a shorter file' 0 "$numbers" '' "echo > out && fleet compile $M $S $P out && cmp out $B"
check 'all awaits of the corridor' 0 'agents 3\nmoves 6\nawaits 5\nbytes 67\n' '' "fleet compile $M $S $P all --deps all"
check 'OUT has them, those of agent 2 in their order' 0 ' 020 000 001 000 001 001 020 000 000 000 001 020 000 001 000 002 001\n' '' "tail -c 17 all | od -An -v -t o1 | tr -d '\\n'; echo"
check 'a refused plan' 1 '' 'check 2 Agents\n' "echo kept > out && fleet compile $M $S $P out --agents 2"
check 'OUT stays as it was where a plan is refused' 0 'kept\n' '' 'cat out'
check 'no OUT where a plan is refused' 1 '' 'check 2 Agents\n' "fleet compile $M $S $P none --agents 2"
check 'so there is none' 1 '' '' 'ls | grep none'
check 'OUT in no folder' 3 '' 'file no/out\n' "fleet compile $M $S $P no/out"
check 'OUT is a folder' 3 '' 'file examples\n' "fleet compile $M $S $P examples"
check 'OUT is full' 3 '' 'file /dev/full\n' "fleet compile $M $S $P /dev/full"
# Limits and ends of the system, on the program of the warehouse, of 59,059 bytes.
W='examples/warehouse.map examples/warehouse.scen'
check 'a plan of the warehouse' 0 '' '' "fleet plan $W > many"
check 'OUT beyond a file-size limit: the system ends the program by a signal' 0 '153\n' '' \
    "exec 2> said; (ulimit -c 0; ulimit -f 1; fleet compile $W many big); echo \$?"
check 'OUT beyond a file-size limit that ends no program' 3 '' 'file big\n' "(trap '' XFSZ; ulimit -f 1; fleet compile $W many big)"
check 'OUT has no byte beyond the limit' 0 '' '' '[ $(wc -c < big) -le 1024 ]'
if full=$(cd "$room" && in_full true 2>&1); then
    check 'OUT in a full file system' 3 '' 'file full/out\n' "in_full fleet compile $W many full/out"
    check 'a refused plan in a full file system' 1 '' 'check 2 Agents\n' "in_full fleet compile $W many full/out --agents 3"
    check 'a trace into a full file system' 3 '' 'run 4 Write\n' "in_full sh -c 'fleet auto $W > full/trace'"
    check 'a plan into a full file system' 3 '' 'file -\n' "in_full sh -c 'fleet plan $W > full/plan'"
else
    skip "a full file system: $full"
fi
check 'a program in version 2' 0 'bytes 76\n' '' "fleet migrate $B out"
check 'it runs as before' 0 '' '' "fleet rehearse out > a && fleet rehearse $B > b && cmp a b"
check 'version 2 stays as it is' 0 'bytes 76\n' '' 'fleet migrate out again && cmp out again'
check 'a program is written over itself' 0 'bytes 76\n' '' "cp $B same && fleet migrate same same && cmp same again"
check 'no program' 1 '' 'load 2 Magic\n' "echo kept > out && fleet migrate $M out"
check 'OUT stays as it was where there is no program' 0 'kept\n' '' 'cat out'
check 'OUT of a program in no folder' 3 '' 'file no/out\n' "fleet migrate $B no/out"
check 'OUT of a program is full' 3 '' 'file /dev/full\n' "fleet migrate $B /dev/full"
check 'OUT of a thinned program in no folder' 3 '' 'file no/out\n' "fleet thin $M $S $B no/out"
check '.. is full' 3 '' 'file /dev/full\n' "fleet thin $M $S $B /dev/full"
check 'OUT has a blank in its name' 0 "$numbers" '' "fleet compile $M $S $P 'a b' && cmp 'a b' $B"
check 'a name of one dash is a file' 0 "$numbers" '' "fleet compile $M $S $P - && cmp ./- $B && rm ./-"
check 'a file of one dash is missing' 3 '' 'file -\n' 'fleet rehearse -'
check 'six words reach the program' 0 'agents 3\nticks 6\nchain 4\nheld 2\n' '' "fleet run $M $S $B --holds $H | tail -n 4"
check 'eight words reach the program' 0 'agents 2\nticks 5\nchain 3\nheld 2\n' '' "fleet auto $M $S --agents 2 --deps all --holds $H | tail -n 4"
check 'bytes are read whole' 0 '' '' "fleet rehearse $B > a; fleet < examples/corridor.hex > b; cmp a b"
check 'no file of a reader is changed' 0 '' '' "diff -r examples '$root/examples'"

# A process that is killed while it writes OUT, at times drawn by lot, leaves what stood there or a front of the bytes.
# The next one writes all of them.
script kill_writers <<'EOF'
#!/bin/sh
W='examples/warehouse.map examples/warehouse.scen'
fleet plan $W > plan && fleet compile $W plan whole --deps all > said || exit
for after in 0.001 $(awk 'BEGIN { s = 271; for (k = 0; k < 40; k++) { s = s * 16807 % 2147483647; printf "0.%05d\n", s % 4000 } }'); do
    echo old > out
    timeout -s KILL "$after" fleet compile $W plan out --deps all > /dev/null 2>&1
    [ "$?" -lt 128 ] || was=killed
    [ "$(cat out | tr -d '\0')" = old ] || head -c "$(wc -c < out)" whole | cmp - out || exit
done
fleet compile $W plan out --deps all | cmp - said && cmp out whole && echo $was
EOF
check 'OUT of a process that is killed' 0 'killed\n' '' 'kill_writers 2> told'
