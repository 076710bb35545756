# What a reader has to believe of a word: the definitions of these names with all that they cite, as they stand in
# specs/, and how many lines they have. tools/believed.sh gives the files in their order, and the names as FILE.NAME.
# Status 1 if one of them is no definition.
#     awk -v names="Run.IsSafe .." -f tools/believed.awk crates/NAME/specs/FILE.antt ..

FNR == 1 {
    n = split(FILENAME, part, "/")
    file = part[n]
    sub(/\.antt$/, "", file)
    module = part[n - 2] "." file
    open = ""
    said = ""
}

/^(unfoldable )?(pub )?use Rattle\.[a-z_]*\.specs\.[A-Za-z]*\.\{/ {
    split($0, path, ".")
    list = $0
    sub(/^[^{]*\{/, "", list)
    sub(/\}.*/, "", list)
    n = split(list, one, ", ")
    for (i = 1; i <= n; i++) from[module, one[i]] = path[2] "." path[4]
    next
}

# Of several files at once: {FILE.NAME, ..}
/^(unfoldable )?(pub )?use Rattle\.[a-z_]*\.specs\.\{/ {
    split($0, path, ".")
    list = $0
    sub(/^[^{]*\{/, "", list)
    sub(/\}.*/, "", list)
    n = split(list, one, ", ")
    for (i = 1; i <= n; i++) {
        parts = split(one[i], part, ".")
        from[module, part[parts]] = path[2] "." part[parts - 1]
    }
    next
}

/^-- / {
    open = ""
    said = said $0 "\n"
    next
}

/^$/ {
    open = ""
    said = ""
    next
}

/^((unfoldable|abbrev|pub|record|data) )+[^ ]+/ {
    name = $0
    sub(/^((unfoldable|abbrev|pub|record|data) )+/, "", name)
    sub(/[ :({].*/, "", name)
    open = module SUBSEP name
    text[open] = said
    said = ""
    order[++count] = open
    is_defined[file "." name] = 1
    if (index(" " names " ", " " file "." name " ")) wanted[open] = 1
}

open != "" { text[open] = text[open] $0 "\n" }

END {
    n = split(names, one, " ")
    for (i = 1; i <= n; i++)
        if (!(one[i] in is_defined)) {
            print "believed: " one[i] " is no definition" > "/dev/stderr"
            exit 1
        }
    do {
        found = 0
        for (i = 1; i <= count; i++)
            if (wanted[order[i]] == 1) {
                cite(order[i])
                wanted[order[i]] = 2
                found = 1
            }
    } while (found)
    for (i = 1; i <= count; i++)
        if (wanted[order[i]]) show(order[i])
    print lines " lines, " definitions " definitions:" files
}

# Wants what a definition cites, of its own file and of those that it names in front.
function cite(it,    n, word, i, k, key, words) {
    split(it, at, SUBSEP)
    words = text[it]
    gsub(/-- [^\n]*\n/, "", words)
    gsub(/[^A-Za-z0-9_]+/, " ", words)
    n = split(words, word, " ")
    for (i = 1; i <= n; i++) {
        key = at[1] SUBSEP word[i]
        # A file may hand on what it names in front.
        for (k = 0; k < 2 && !(key in text) && (key in from); k++) key = from[key] SUBSEP word[i]
        if ((key in text) && !wanted[key]) wanted[key] = 1
    }
}

function show(it,    copy) {
    split(it, at, SUBSEP)
    if (at[1] != last) {
        last = at[1]
        files = files " " last
        print "==== " last "\n"
    }
    print text[it]
    definitions++
    copy = text[it]
    lines += gsub(/\n/, "", copy)
}
