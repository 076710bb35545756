# The solution's lines in the form of LaCAM and PIBT from a trace, for mapf-visualizer:
#     awk -f to_lacam.awk TRACE > RESULT
# Status 1 if it is none.
/^[0-9]+:/ { line = $1; for (i = 2; i <= NF; i++) line = line "(" $i "),"; print line; times++ }
END { if (!times) { print "to_lacam: no trace" > "/dev/stderr"; exit 1 } }
