# The scripts of tools/: pictures and numbers of a run.

enter tools
run='examples/warehouse.trace examples/warehouse.holds'
cp "$root/docs/warehouse.svg" "$root/docs/waits.svg" "$room/"
check 'docs/warehouse.svg is the film of the warehouse' 0 '' '' "awk -f tools/run.awk -f tools/film.awk examples/warehouse.map $run | cmp warehouse.svg -"
check 'docs/waits.svg is its chart' 0 '' '' "awk -f tools/run.awk -f tools/waits.awk $run | cmp waits.svg -"
check 'a map with CR LF is drawn alike' 0 '' '' \
    "awk '{ printf \"%s\\r\\n\", \$0 }' examples/warehouse.map > crlf.map && awk -f tools/run.awk -f tools/film.awk crlf.map $run | cmp warehouse.svg -"
check 'numbers of the warehouse' 0 'sum of costs 14997\nmakespan 218\nmoves 13198\nheld 96\nwaits 1703\n' '' \
    "awk -f tools/run.awk -f tools/numbers.awk $run | tail -n 5"
check 'its moves are those of the program' 0 'moves 13198\n' '' "awk -f tools/run.awk -f tools/numbers.awk examples/warehouse.trace | grep moves.1"
check 'numbers of a plan' 0 'makespan 204\nmoves 13198\nheld 0\n' '' \
    "fleet plan examples/warehouse.map examples/warehouse.scen > plan && awk -f tools/run.awk -f tools/numbers.awk plan | grep -E '^(makespan|moves|held) '"
check 'a plan is drawn as a trace' 0 '' '' \
    "awk -f tools/run.awk -f tools/film.awk examples/corridor.map examples/corridor.plan > one && printf '0: 2,0 1,0 0,0\\n1: 3,0 2,0 1,0\\n2: 4,0 3,0 2,0\\n' > trace && awk -f tools/run.awk -f tools/film.awk examples/corridor.map trace | cmp one -"
for other in examples/corridor.scen examples/corridor.program examples/corridor.eecbs examples/README.md tools/run.awk; do
    check "numbers of $other" 1 '' "run: $other is no map, trace, plan or holds\n" "awk -f tools/run.awk -f tools/numbers.awk $other"
done
check 'numbers of nothing' 1 '' 'run: no trace or plan\n' "awk -f tools/run.awk -f tools/numbers.awk /dev/null"
check 'numbers of a plan and a trace' 1 '' 'run: more than one trace or plan\n' "awk -f tools/run.awk -f tools/numbers.awk examples/corridor.plan examples/warehouse.trace"
check 'no robot of a film is red or orange' 0 '' '' \
    "grep -o 'hsl([0-9]*' warehouse.svg | tr -d 'hsl(' | awk '\$1 < 70 || \$1 > 320'"
check 'a film that does not move shows who is held and who waits' 0 '1 2\n' '' \
    "printf '0: 2,0 1,0 0,0\\n1: 2,0 1,0 0,0\\n2: 3,0 1,0 0,0\\n3: 4,0 2,0 1,0\\n' > trace && printf '0\\n' > holds && awk -f tools/run.awk -f tools/film.awk examples/corridor.map trace holds | awk '/<animateTransform/ { held += gsub(/#held\">/, \"\"); waits += gsub(/#waits\">/, \"\") } END { print held, waits }'"
check 'a chart of many agents and few ticks keeps its numbers apart, and all in the picture' 0 'apart\n' '' \
    "awk 'BEGIN { for (t = 0; t <= 88; t++) { printf \"%d:\", t; for (i = 0; i < 200; i++) printf \" %d,%d\", t, i; print \"\" } }' > trace && awk -f tools/run.awk -f tools/waits.awk trace | awk -F '\"' '/<text/ && \$6 == \"middle\" { if (n++ && \$2 - x < 30) close_by++; x = \$2 } /<text/ && \$2 > 984 { out++ } END { if (n > 5 && !close_by && !out) print \"apart\" }'"
check 'the same seed gives the same holds' 0 '1 2\n0 1 2\n' '' "awk -v agents=3 -v ticks=2 -v chance=0.5 -v least=1 -v most=1 -v seed=1 -f tools/delays.awk"
check 'agents that are no number have no holds' 1 '' 'delays: agents and ticks are numbers\n' "awk -v agents=x -v ticks=2 -f tools/delays.awk"

# Orders ahead: how long a fleet takes whose orders and reports take time.
check 'orders ahead: a program that cannot be carried out' 1 'the program cannot be carried out\n' '' \
    "printf 'agent 0: 0,0 to 1,0\\n0:1 east to 1,0 after 1:1\\nagent 1: 3,0 to 2,0\\n1:1 west to 2,0 after 0:1\\n' | awk -f tools/ahead.awk"
check 'two orders at a time take at most three quarters of the time of one' 0 'less\n' '' \
    "fleet plan examples/warehouse.map examples/warehouse.scen > plan && fleet compile examples/warehouse.map examples/warehouse.scen plan program > numbers && fleet list program > list && for k in 1 2; do awk -v ahead=\$k -f tools/ahead.awk list; done | awk '{ t[\$2] = \$8 } END { if (0 < t[2] && t[2] <= 0.75 * t[1]) print \"less\" }'"
for tool in ahead dot log; do
    check "$tool.awk of no list" 1 '' "$tool: no list of a program\n" "awk -f tools/$tool.awk examples/corridor.plan"
done
check 'a map of no kind' 1 '' 'map: kind is random, room, maze, warehouse or den\n' 'awk -v kind=city -f tools/map.awk'
check 'agents that have no room' 1 '' 'scen: the map has 16 cells\n' 'awk -v agents=17 -v seed=1 -f tools/scen.awk examples/corridor.map'
check 'starts and goals are distinct' 0 '16 16\n' '' \
    "awk -v agents=16 -v seed=3 -f tools/scen.awk examples/corridor.map | awk 'NR > 1 { starts[\$5, \$6]; goals[\$7, \$8] } END { for (k in starts) n++; for (k in goals) m++; print n, m }'"
check 'a study of no option' 2 '' 'study: --dwel is no option\n' 'sh tools/study.sh examples/pair.map examples/pair.scen --dwel 3'
check 'a study of a plan that does not plan' 2 '' 'study: --tries 3 is of no use with a plan\n' 'sh tools/study.sh examples/pair.map examples/pair.scen --tries 3 --plan examples/pair.plan'

# Times and rests of random programs, and verdicts on changed ones, beside a plain count.
if has python3; then
    check 'times, rests and verdicts' 0 'rests: 100 cases compared, 6 verdicts\n' '' "python3 '$root/tests/rests.py' '$fleet' 100"
else
    skip 'times, rests and verdicts: no python3'
fi

# The gateway: simulated vehicles, and messages that come twice, late, in another order or not at all.
if has python3; then
    for seed in 1 2 3; do
        check "vehicles behind a gateway arrive, seed $seed" 0 'arrived\nagents 3\nmoves 6\nreports 6\n' '' \
            "python3 examples/vda5050.py examples/corridor.map examples/corridor.scen examples/corridor.program $seed"
    done
    awk '/^```python$/ { on = 1; next } /^```$/ { on = 0 } on' "$root/docs/DRIVING.md" > "$room/drive.py"
    check 'the client of the page on robots has at most 40 lines' 0 'few\n' '' "[ \$(wc -l < drive.py) -le 40 ] && echo few"
    check 'it drives the robots' 0 'arrived\nagents 3\nmoves 6\nreports 6\n' '' \
        'rm -f log && python3 drive.py examples/corridor.map examples/corridor.scen examples/corridor.program'
    check '.. and goes on after its log' 0 'arrived\nagents 3\nmoves 6\nreports 6\n' '' \
        'head -n 3 log > front && mv front log && python3 drive.py examples/corridor.map examples/corridor.scen examples/corridor.program'
else
    skip 'vehicles behind a gateway, and a client in Python: no python3'
fi
