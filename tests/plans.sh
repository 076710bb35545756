# Plans from other planners and back: tools/, on the corridor's plan in each form, and on what is none.

enter plans
P=examples/corridor.plan

# What each says of what is no plan of its planner.
refusal_of() {
    case $1 in
        from_eecbs.awk) echo 'from_eecbs: no paths of all agents' ;;
        from_lacam.awk) echo 'from_lacam: no solution of all agents at all times' ;;
        from_mrp.awk) echo 'from_mrp: no schedule of all agents at all times' ;;
        from_lorr.awk) echo 'from_lorr: no starts and actions of all robots' ;;
    esac
}

while read -r tool file; do
    check "$tool" 0 '' '' "awk -f tools/$tool $file > plan && cmp plan $P"
    check "$tool, lines with CR LF" 0 '' '' "awk '{ print \$0 \"\\r\" }' $file | awk -f tools/$tool > plan && cmp plan $P"
    check "$tool, of nothing" 1 '' "$(refusal_of "$tool")\n" "awk -f tools/$tool /dev/null"
done <<EOF
from_eecbs.awk examples/corridor.eecbs
from_lacam.awk examples/corridor.lacam
from_mrp.awk examples/corridor.yaml
from_mrp.awk examples/corridor.flow.yaml
from_lorr.awk examples/corridor.lorr.json
EOF

# A part that is missing or wrong.
while read -r tool file edit; do
    check "$tool after $edit" 1 '' "$(refusal_of "$tool")\n" "sed '$edit' $file | awk -f tools/$tool"
done <<EOF
from_eecbs.awk examples/corridor.eecbs 2d
from_eecbs.awk examples/corridor.eecbs s/Agent 2/Agent 1/
from_eecbs.awk examples/corridor.eecbs s/(0,3)/(0;3)/
from_eecbs.awk examples/corridor.eecbs 2s/:.*/:/
from_lacam.awk examples/corridor.lacam /^1:/d
from_lacam.awk examples/corridor.lacam s/^1:(3,0),/1:/
from_lacam.awk examples/corridor.lacam s/(3,0)/(3,-1)/
from_mrp.awk examples/corridor.yaml s/agent1/agent2/
from_mrp.awk examples/corridor.yaml s/t: 1/t: 2/
from_mrp.awk examples/corridor.yaml /y: 0/d
from_mrp.awk examples/corridor.flow.yaml 3s/y:/x:/
from_mrp.awk examples/corridor.flow.yaml 3s/, y: 0//
from_mrp.awk examples/corridor.flow.yaml s/t: 2/t: 3/
from_mrp.awk examples/corridor.flow.yaml s/x: 3/x: -3/
from_lorr.awk examples/corridor.lorr.json /"start"/d
from_lorr.awk examples/corridor.lorr.json /"actualPaths"/d
from_lorr.awk examples/corridor.lorr.json s/.*actualPaths.*/"actualPaths":["F,F","F,F"],/
from_lorr.awk examples/corridor.lorr.json s/F,F/F,U/
from_lorr.awk examples/corridor.lorr.json s/F,F/F,,F/
from_lorr.awk examples/corridor.lorr.json s/"E"/"X"/
from_lorr.awk examples/corridor.lorr.json s/"E"/"N"/
EOF

check 'turns, in one line or many' 0 '' '' \
    "awk -f tools/from_lorr.awk examples/turning.lorr.json > plan && tr -d '\\n ' < examples/turning.lorr.json | awk -f tools/from_lorr.awk | cmp - plan"
cat > "$room/turns.json" <<'EOF'
{"start": [[1, 1, "N"], [3, 3, "N"]], "actualPaths": ["F,R,F,R,F,R,F", "C,F,C,F,C,F,C,F"]}
EOF
check 'all four headings, round both ways' 0 '1,1 1,0 1,0 2,0 2,0 2,1 2,1 1,1\n3,3 3,3 2,3 2,3 2,4 2,4 3,4 3,4 3,3\n' '' \
    'awk -f tools/from_lorr.awk turns.json'
check 'to_planviz.awk and back' 0 '' '' "awk -f tools/to_planviz.awk $P | awk -f tools/from_lorr.awk | cmp - $P"
printf '5,5 6,5 6,6 6,6 5,6 5,5\n0,0 0,0 0,0 0,0 0,0 0,1\n' > "$room/square.plan"
check 'all five actions without turns' 0 '"actualPaths":["R,D,W,L,U","W,W,W,W,D"],\n' '' 'awk -f tools/to_planviz.awk square.plan | grep actual'
check 'and back' 0 '' '' 'awk -f tools/to_planviz.awk square.plan | awk -f tools/from_lorr.awk | cmp - square.plan'
check 'to_planviz.awk of none' 1 '' 'to_planviz: no plan\n' 'awk -f tools/to_planviz.awk examples/corridor.scen'
check 'to_planviz.awk of a jump' 1 '' 'to_planviz: no plan\n' 'echo 0,0 1,1 | awk -f tools/to_planviz.awk'
check 'scen_of_plan.awk' 0 '' '' "awk -f tools/scen_of_plan.awk examples/corridor.map $P | sed s/map/corridor.map/ | cmp - examples/corridor.scen"
check 'scen_of_plan.awk, CR LF' 0 '' '' \
    "for f in examples/corridor.map $P; do awk '{ printf \"%s\\r\\n\", \$0 }' \$f > \${f##*.}; done; awk -f tools/scen_of_plan.awk map plan | sed s/map/corridor.map/ | cmp - examples/corridor.scen"
check 'scen_of_plan.awk of no map' 1 '' 'scen_of_plan: no map and plan\n' "awk -f tools/scen_of_plan.awk $P $P"
check 'scen_of_plan.awk of a map alone' 1 '' 'scen_of_plan: no map and plan\n' 'awk -f tools/scen_of_plan.awk examples/corridor.map'
check 'to_eecbs.awk' 0 '' '' "awk -f tools/to_eecbs.awk $P | cmp - examples/corridor.eecbs"
check 'to_eecbs.awk of none' 1 '' 'to_eecbs: no plan\n' 'awk -f tools/to_eecbs.awk examples/corridor.scen'
check 'to_lacam.awk of none' 1 '' 'to_lacam: no trace\n' "awk -f tools/to_lacam.awk $P"
check 'to_lacam.awk, of a trace' 0 '' '' \
    "fleet auto examples/corridor.map examples/corridor.scen | awk -f tools/to_lacam.awk | awk -f tools/from_lacam.awk > plan && fleet check examples/corridor.map examples/corridor.scen plan | grep -c free > /dev/null"
check 'the plan of the warehouse, there and back' 0 '' '' \
    "fleet plan examples/warehouse.map examples/warehouse.scen > plan && awk -f tools/to_eecbs.awk plan | awk -f tools/from_eecbs.awk | cmp - plan"
check 'and by way of PlanViz: the same program' 0 '' '' \
    "awk -f tools/to_planviz.awk plan | awk -f tools/from_lorr.awk > again && for p in plan again; do fleet compile examples/warehouse.map examples/warehouse.scen \$p \$p.program > told; done; cmp plan.program again.program"
check 'the scenario of a plan is its own' 0 'conflict-free\n' '' \
    "awk -f tools/scen_of_plan.awk examples/warehouse.map plan > made && fleet check examples/warehouse.map made plan | head -n 1"

# `make numbers` compares 10,000 plans.
check 'the numbers of 40 plans at random' 0 '' '' "sh '$root/tests/numbers.sh' fleet 40 > compared"
