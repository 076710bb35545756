# The definitions of the crates, in plain words: the comment above each definition of a file of specs/, beside its name.
# A definition without a comment stands with the one above it, and one whose comment goes on from the one above brings
# that too. tools/definitions.sh gives the files in their order, and the file that says which definitions are wanted, a
# line `CRATE.FILE NAME` for each (tools/reached.awk).
#     awk -v reached=FILE -f tools/definitions.awk crates/NAME/specs/FILE.antt ..

BEGIN {
    width = 120
    while ((getline line < reached) > 0) wanted[line] = 1
}

FNR == 1 {
    entry()
    n = split(FILENAME, part, "/")
    heading = part[n - 2] ": " part[n]
    sub(/\.antt$/, "", heading)
    module = part[n - 2] "." part[n]
    sub(/\.antt$/, "", module)
    front_said = ""
    said = ""
    front = 1
    is_first = 1
    left = 0
}

# The comment on the whole file stands above its imports.
front && /^-- / {
    said = said (said == "" ? "" : " ") substr($0, 4)
    next
}

front {
    front = 0
    front_said = said
    said = ""
}

/^-- / {
    said = said (said == "" ? "" : " ") substr($0, 4)
    next
}

/^((unfoldable|abbrev|pub|record|data) )+[^ ]+/ {
    name = $0
    sub(/^((unfoldable|abbrev|pub|record|data) )+/, "", name)
    sub(/[ :({].*/, "", name)
    if (said != "" || is_first) {
        entry()
        text = said
        said = ""
    }
    is_first = 0
    every = every (every == "" ? "" : ", ") "**`" name "`**"
    if ((module " " name) in wanted) names = names (names == "" ? "" : ", ") "**`" name "`**"
    next
}

/^$/ { said = "" }

END { entry() }

# Writes the last definition with what is said of it, if it is wanted, and before it those that it goes on from.
function entry(    from, i) {
    if (names != "") {
        top()
        from = left + 1
        if (goes_on(text)) while (from > 1 && goes_on(left_text[from - 1])) from--
        if (goes_on(text) && from > 1) from--
        for (i = from; i <= left; i++) put(left_names[i], left_text[i])
        put(names, text)
        left = 0
    } else if (every != "") {
        left_names[++left] = every
        left_text[left] = text
    }
    names = ""
    every = ""
    text = ""
}

function goes_on(text) { return text ~ /^(\.\.|[Tt]he same|and |one of these)/ }

function put(names, text) { fold("- " names (text == "" ? "" : ": " text (text ~ /\.$/ ? "" : ".")), "  ") }

# Writes the heading of the file before its first definition.
function top() {
    if (heading == "") return
    printf "\n### %s\n", heading
    if (front_said != "") {
        printf "\n"
        fold(sentence(front_said), "")
    }
    printf "\n"
    heading = ""
}

# With a capital letter and a full stop.
function sentence(words) {
    return toupper(substr(words, 1, 1)) substr(words, 2) (words ~ /\.$/ ? "" : ".")
}

# Writes words in lines of the width, all but the first of them after the indent.
function fold(words, indent,    n, word, i, line) {
    n = split(words, word, " ")
    line = word[1]
    for (i = 2; i <= n; i++)
        if (length(line) + 1 + length(word[i]) > width) {
            print line
            line = indent word[i]
        } else
            line = line " " word[i]
    print line
}
