# A scenario from a plan's first and last cells: awk -f scen_of_plan.awk MAP PLAN > SCEN
# For plans that come without one. Status 1 if the one file is no map or the other no plan.
{ sub(/[ \t\r]*$/, "") }
FNR == 1 { files++ }
files == 1 && FNR == 2 && $1 == "height" { height = $2 + 0 }
files == 1 && FNR == 3 && $1 == "width" { width = $2 + 0 }
files < 2 { next }
FNR == 1 && width && height { print "version 1" }
!width || !height || $1 !~ /^[0-9]+,[0-9]+$/ || $NF !~ /^[0-9]+,[0-9]+$/ { wrong = 1; exit }
{
    split($1, start, ",")
    split($NF, goal, ",")
    printf "0\tmap\t%d\t%d\t%d\t%d\t%d\t%d\t%d\n", width, height, start[1], start[2], goal[1], goal[2], NF - 1
}
END { if (wrong || files < 2) { print "scen_of_plan: no map and plan" > "/dev/stderr"; exit 1 } }
