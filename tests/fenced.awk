# Takes the examples out of a document: awk -v to=FOLDER -f fenced.awk DOCUMENT
#
# An example is a line `$ COMMAND` in a fence, with the lines up to the next one: what the command prints. Each becomes
# four files in FOLDER, by its line in the document: COMMAND in .cmd, what is due on standard output in .out, on
# standard error in .err, and the status in .status.
#
# What is due follows from the text alone, by the rules of docs/REFUSALS.md and of the README's table of statuses: a
# refusal's line, and wrong usage from its line `error:` on, stand on standard error, all else on standard output; the
# status is that of the refusal, 2 after wrong usage, 1 after `stuck`, else 0. If the last command of a pipe is
# not fleet, the status is 0.

function is_refusal(line) {
    return line ~ /^(map|scen|text|check|search|hex|load|compile|verify|run|dispatch|times) [0-9]+ [A-Z]/ || line == "memory" || line ~ /^file /
}

function status_of(line) {
    return line ~ /^(run [24] |dispatch [58] |memory$|file )/ ? 3 : 1
}

function close_example() {
    if (name == "") return
    if (command ~ /\|/ && last_of(command) !~ /^ *fleet/) status = 0
    print command > (name ".cmd")
    printf "%s", out > (name ".out")
    printf "%s", err > (name ".err")
    print status > (name ".status")
    close(name ".cmd"); close(name ".out"); close(name ".err"); close(name ".status")
    name = ""
}

function last_of(text,   parts, n) {
    n = split(text, parts, "|")
    return parts[n]
}

/^```/ { close_example(); inside = !inside; next }
!inside { next }
/^\$ / {
    close_example()
    name = sprintf("%s/%06d", to, FNR)
    command = substr($0, 3); out = err = ""; status = 0; is_usage = 0
    next
}
name == "" { next }
is_refusal($0) { err = err $0 "\n"; status = status_of($0); next }
/^error: / { is_usage = 1; status = 2 }
is_usage { err = err $0 "\n"; next }
{ out = out $0 "\n"; status = ($0 == "stuck") }
# A fence that is not closed would hide all after it.
END { close_example(); exit inside }
