# The way from a map and a scenario to a trace, on the warehouse of examples/: in one command and step by step, against
# the kept trace.

enter warehouse
on='examples/warehouse.map examples/warehouse.scen'
holds='--holds examples/warehouse.holds'
check 'auto writes the kept trace' 0 '' '' "fleet auto $on $holds > auto.trace && cmp auto.trace examples/warehouse.trace"
check 'plan' 0 '' '' "fleet plan $on > plan"
check 'check' 0 'conflict-free\nagents 100\nsteps 204\n' '' "fleet check $on plan"
check 'compile' 0 'agents 100\nmoves 13198\nawaits 8971\nbytes 59059\n' '' "fleet compile $on plan program"
check 'OUT has the bytes that compile counts' 0 '59059\n' '' 'wc -c < program | tr -d " "'
check 'verify' 0 'accepted\nagents 100\nmoves 13198\nawaits 8971\nchain 204\n' '' "fleet verify $on program"
check 'list has a line for each agent and action, and a word for each await' 0 '100 13198 8971\n' '' \
    "fleet list program | awk '\$1 == \"agent\" { agents++; next } { actions++; if (NF > 5) awaits += NF - 5 } END { print agents, actions, awaits }'"
check 'listed agents end on their goals' 0 '100\n' '' \
    "fleet list program | awk '\$1 == \"agent\" { if (place == goal) n++; goal = place = \$5; next } { place = \$4 } END { print n + (place == goal) - 1 }'"
check 'its graph has an arrow for each await' 0 '8971\n' '' "fleet list program | awk -f tools/dot.awk | grep -c color=red"
check 'a list that cannot be written' 3 '' 'file -\n' 'fleet list program > /dev/full'
check 'run writes the kept trace' 0 '' '' "fleet run $on program $holds > run.trace && cmp run.trace examples/warehouse.trace"
check 'nobody held' 0 'agents 100\nticks 204\nchain 204\nheld 0\n' '' "fleet run $on program | tail -n 4"
check 'a rehearsal has the lines of the run' 0 '' '' \
    "fleet rehearse program $holds | grep : > lines && grep : examples/warehouse.trace | cmp lines -"
check 'all awaits' 0 '' '' "fleet auto $on $holds --deps all > all.trace && cmp all.trace examples/warehouse.trace"
check 'a program with all awaits' 0 '' '' "fleet compile $on plan all --deps all > numbers"
check 'what it had is told first' 0 '' '' "sed -n 3p numbers > had && fleet thin $on all thinned > told && sed -n 1p told | cmp had - && sed -n 2p told > has"
check 'it has fewer awaits' 0 '' '' "test \$(cut -d ' ' -f 2 has) -lt \$(cut -d ' ' -f 2 had)"
check 'thinned once more it is the same' 0 '' '' "fleet thin $on thinned again > told && sed -n 1p told | cmp has - && sed -n 2p told | cmp has - && cmp thinned again"
check 'of both kinds of awaits the same is left' 0 '' '' "fleet thin $on program less > told && sed -n 2p told | cmp has - && cmp thinned less"
check 'thinned it runs as before' 0 '' '' "fleet run $on thinned $holds > thinned.trace && cmp thinned.trace examples/warehouse.trace"
awk 'BEGIN { srand(7); for (t = 0; t < 300; t++) { line = ""; for (i = 0; i < 100; i++) if (rand() < 0.2) line = line (line == "" ? "" : " ") i; print line == "" ? "-" : line } }' > "$work/random.holds"
check 'and under random holds' 0 '' '' "fleet run $on all --holds '$work/random.holds' > one.trace && fleet run $on thinned --holds '$work/random.holds' > two.trace && cmp one.trace two.trace"
check 'ten agents' 0 'agents 10\n' '' "fleet auto $on --agents 10 | grep agents"
check 'holds of more agents than there are' 1 "$(sed 1q "$root/examples/warehouse.trace" | cut -d ' ' -f -11)\n" 'run 3 Hold line 1\n' "fleet auto $on $holds --agents 10"
