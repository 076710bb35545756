# libfleet, that of the folder LIBRARY: callers of it in C, C++, Rust and Python (examples/embed.*), the same random
# inputs through it and through the program, and each growth of each call refused. What needs a compiler or a tool that
# is not there is skipped.

enter library
M=examples/corridor.map S=examples/corridor.scen P=examples/corridor.plan B=examples/corridor.program
cp "$root"/tests/library/* "$room/"

# A program in C with the archive. $2: more words for the compiler.
of_c() {
    $cc -Wall -Wextra -Werror -O1 -I"$library" -I. -o "$1" "$2.c" $3 "$library/libfleet.a"
}

if [ ! -f "$library/libfleet.a" ]; then
    skip 'libfleet: no folder of make lib was given'
elif ! has "${cc%% *}"; then
    skip 'libfleet: there is no C compiler'
else
    export library
    (cd "$room" && of_c embed examples/embed && of_c depth depth && of_c differ differ && of_c growths growths '-Wl,--wrap=malloc,--wrap=realloc') || failed=$((failed + 1))
    numbers='agents 3\nmoves 6\nawaits 4\nchain 4\n'
    check 'embed.c plans, compiles and verifies' 0 "$numbers" '' "./embed $M $S"
    check '.. and says what is refused' 1 '' 'plan: part 3, number 2\n' "./embed $M $M"
    room_kb=$(sed -n 's/^ \* Stack\. No call needs as much as \([0-9]*\) KB\.$/\1/p' "$library/fleet.h")
    check 'each call on a stack as small as fleet.h says' 0 'check 0\ncompile 0\nverify 0\nthin 0\nplan 0\nrehearse 0\n' '' \
        "./depth $room_kb $M $S $P $B examples/corridor.holds"
    check '.. and a program that is refused, and is stuck' 0 'check 0\ncompile 0\nverify 1\nthin 1\nplan 0\nrehearse 4\n' '' \
        "bytes 4D504631 0002 0001 0000 0003 0000 0002 10 0001 0001 01 01 0000 0000 0002 0000 0002 10 0000 0001 01 01 > deadlock
        ./depth $room_kb examples/pair.map examples/pair.scen examples/pair.plan deadlock examples/pair.map"
    check '.. and texts that are none' 0 'check 1\ncompile 1\nverify 1\nthin 1\nplan 1\nrehearse 1\n' '' "./depth $room_kb $S $M $M $P $P"
    check 'the same random inputs through the program and through libfleet' 0 '400 of 400 alike\nanswered: check compile verify thin plan rehearse stuck\nrefused: map scen text check search compile load verify run\n' '' \
        "./differ '$work/bin/fleet' 400 1 2> /dev/null"
    check 'each growth refused' 0 'check: each growth\ncompile: each growth\nverify: each growth\nthin: each growth\nplan: each growth\nrehearse: each growth\n' '' \
        "./growths $M $S $P $B examples/corridor.holds"
    check 'no names but those of the calls' 0 'fleet_check\nfleet_compile\nfleet_plan\nfleet_rehearse\nfleet_thin\nfleet_verify\n' '' \
        "nm -g --defined-only '$library/libfleet.a' | awk 'NF == 3 { print \$3 }' | sort"
    if has valgrind; then
        clean='valgrind -q --leak-check=full --error-exitcode=99'
        check 'embed.c under valgrind' 0 "$numbers" '' "$clean ./embed $M $S"
        check 'each growth refused, under valgrind' 0 '' '' "$clean ./growths $M $S $P $B examples/corridor.holds > /dev/null"
        check 'random inputs under valgrind' 0 '20 of 20 alike\n' '' "$clean ./differ '$work/bin/fleet' 20 2 2> /dev/null > told; status=\$?; sed 1q told; exit \$status"
    else
        skip 'libfleet under valgrind'
    fi
    if has c++; then
        check 'embed.cpp checks a plan' 0 'conflict-free\nagents 3\nsteps 2\n' '' \
            "c++ -Wall -Wextra -Werror '-I$library' -o checked examples/embed.cpp '$library/libfleet.a' && ./checked $M $S $P"
        ! has valgrind || check '.. under valgrind' 0 'conflict-free\nagents 3\nsteps 2\n' '' "valgrind -q --leak-check=full --error-exitcode=99 ./checked $M $S $P"
    else
        skip 'libfleet from C++'
    fi
    if has rustc; then
        try "fleet rehearse $B" && cp "$work/out" "$work/want.out" && : > "$work/want.err"
        try "rustc -D warnings -L '$library' -l static=fleet -o rehearsed examples/embed.rs && ./rehearsed $B"
        judge 'embed.rs rehearses a program' 'examples/embed.rs' 0
        ! has valgrind || check '.. under valgrind' 0 '' '' "valgrind -q --leak-check=full --error-exitcode=99 ./rehearsed $B > told && fleet rehearse $B | cmp - told"
    else
        skip 'libfleet from Rust'
    fi
    if has python3; then
        check 'embed.py verifies and thins a program' 0 'status 0: 6 moves, 4 awaits, chain 4\nstatus 0: 6 moves, 4 awaits, chain 4\n' '' \
            "python3 examples/embed.py '$library/libfleet.so' $M $S $B"
    else
        skip 'libfleet from Python'
    fi
fi
