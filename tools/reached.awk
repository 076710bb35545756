# Which definitions of specs/ docs/DEFINITIONS.md has: those that the contracts of the calls of tests/names.txt and of
# the exports for callers in C name, or docs/PROVED.md; and of those that these reach the ones that five others cite,
# and all of fleet_model. One that a single other definition cites, or a few, stands beside these in its file.
# tools/definitions.sh gives the files: tests/names.txt, docs/PROVED.md, each crate's src/lib.rt before its other
# sources, then specs/.
#     awk -f tools/reached.awk tests/names.txt docs/PROVED.md crates/NAME/src/lib.rt .. crates/NAME/specs/FILE.antt ..
# Writes a line CRATE.FILE NAME for each.

FILENAME ~ /names\.txt$/ {
    n = split($0, part, "::")
    if (n == 3) is_listed[part[2], part[3]] = 1
    else is_listed[part[2]] = 1
    next
}

FILENAME ~ /PROVED\.md$/ {
    n = split($0, part, "`")
    for (i = 2; i <= n; i += 2) {
        k = split(part[i], one, /[^A-Za-z0-9_]+/)
        for (; k; k--) if (one[k] ~ /^[A-Z]/) is_told_of[one[k]] = 1
    }
    next
}

FNR == 1 {
    n = split(FILENAME, part, "/")
    crate = part[2]
    file = part[n]
    sub(/\.(rt|antt)$/, "", file)
    module = FILENAME ~ /\.rt$/ ? FILENAME : crate "." file
    is_root = FILENAME ~ /src\/(lib|main)\.rt$/
    used = "" # the text of a `pub use` that is open
    shown = 0 # whether the item is handed out
    within = 0 # whether it stands in an impl or a trait that is
    open = ""
}

# What a root hands out.
is_root && (/^pub use / || used != "") {
    used = used " " $0
    if ($0 !~ /;/) next
    sub(/^.*::/, "", used)
    gsub(/[^A-Za-z0-9_]+/, " ", used)
    n = split(used, one, " ")
    for (i = 1; i <= n; i++) if (one[i] in is_listed) handed[crate, one[i]] = 1
    used = ""
    next
}

# Names that clauses and definitions bring in.
/^ *(ghost |unfoldable )?(pub )?use Rattle\.[a-z_]*\.specs\.[A-Za-z]*\.\{/ {
    path = $0
    sub(/^ */, "", path)
    split(path, at, ".")
    list = $0
    sub(/^[^{]*\{/, "", list)
    sub(/\}.*/, "", list)
    n = split(list, one, ", ")
    for (i = 1; i <= n; i++) from[module, one[i]] = at[2] "." at[4]
    next
}

# Those of several files at once: {FILE.NAME, ..}
/^ *(ghost |unfoldable )?(pub )?use Rattle\.[a-z_]*\.specs\.\{/ {
    split($0, at, ".")
    list = $0
    sub(/^[^{]*\{/, "", list)
    sub(/\}.*/, "", list)
    n = split(list, one, ", ")
    for (i = 1; i <= n; i++) {
        parts = split(one[i], part, ".")
        from[module, part[parts]] = at[2] "." part[parts - 1]
    }
    next
}

# A source: an item of the crate begins.
FILENAME ~ /\.rt$/ && /^[a-z#\/]/ {
    shown = 0
    within = 0
}

FILENAME ~ /\.rt$/ && /^(pub )?(unsafe )?(impl|trait)[ <]/ {
    is_trait = / for |trait /
    words = $0
    sub(/^.* for /, "", words)
    sub(/^(pub )?(unsafe )?(impl|trait)(<[^>]*>)? /, "", words)
    sub(/[^A-Za-z0-9_].*/, "", words)
    within = (crate, words) in handed
    type = words
    shown = 0
    next
}

# An export, which callers in C are handed.
FILENAME ~ /\.rt$/ && /^pub extern "C" fn / {
    shown = 1
    next
}

FILENAME ~ /\.rt$/ && /^ *(pub )?(const )?(unsafe )?fn [a-z_0-9]+/ {
    name = $0
    sub(/^ *(pub )?(const )?(unsafe )?fn /, "", name)
    sub(/[^a-z_0-9].*/, "", name)
    shown = /^ / ? within && (type, name) in is_listed : (crate, name) in handed
    next
}

FILENAME ~ /\.rt$/ && /^ *\{?$/ { if ($0 ~ /\{/) shown = 0 }

FILENAME ~ /\.rt$/ {
    if (shown && $0 !~ /^ *\/\//) said[module] = said[module] " " $0
    next
}

# Definitions.
/^-- / {
    open = ""
    next
}

/^$/ {
    open = ""
    next
}

/^((unfoldable|abbrev|pub|record|data) )+[^ ]+/ {
    name = $0
    sub(/^((unfoldable|abbrev|pub|record|data) )+/, "", name)
    sub(/[ :({].*/, "", name)
    open = module SUBSEP name
    text[open] = ""
    order[++count] = open
}

open != "" { text[open] = text[open] " " $0 }

END {
    for (it in said) want(it, said[it], "")
    for (i = 1; i <= count; i++) {
        split(order[i], at, SUBSEP)
        if (is_told_of[at[2]]) wanted[order[i]] = 1
        is_told_of[at[2]] = 0
    }
    for (key in wanted) is_named[key] = 1
    do {
        found = 0
        for (i = 1; i <= count; i++)
            if (wanted[order[i]] == 1) {
                split(order[i], at, SUBSEP)
                wanted[order[i]] = 2
                want(at[1], text[order[i]], order[i])
                found = 1
            }
    } while (found)
    for (i = 1; i <= count; i++) {
        key = order[i]
        split(key, at, SUBSEP)
        if (wanted[key] && (key in is_named || users[key] > 4 || at[1] ~ /^fleet_model\./)) print at[1], at[2]
    }
}

# Wants the definitions that the words of a clause, or of the definition `by`, name, and counts the definitions that
# name them.
function want(where, words, by,    n, word, i, k, key, is_told) {
    gsub(/[^A-Za-z0-9_-]+/, " ", words)
    n = split(words, word, " ")
    for (i = 1; i <= n; i++) {
        key = where SUBSEP word[i]
        for (k = 0; k < 2 && !(key in text) && (key in from); k++) key = from[key] SUBSEP word[i]
        if (!(key in text) || key == by || key in is_told) continue
        is_told[key] = 1
        users[key]++
        if (!wanted[key]) wanted[key] = 1
    }
}
