# The examples of the documents, and that the documents name what the program has.

document README README.md
for page in "$root"/docs/*.md; do
    name=$(basename "$page" .md)
    document "$name" "docs/$name.md"
done

# Each refusal of the program has a section in docs/REFUSALS.md, with an example that ends in that refusal, and nothing
# else has.
enter refusals
sed -n 's/.*codes "\([a-z]*\)"[^"0-9]*\([0-9][0-9]*\)[^"0-9]*codes "\([A-Z][A-Za-z]*\)".*/\1 \2 \3/p' "$root"/crates/*/specs/RefusalWords.antt |
    sed 's/^check 6 Conflict$//' | { cat; printf 'check 6 Conflict %s\n' Vertex Swapping Cycle; printf 'memory\nfile\n'; } | grep . | sort -u > "$work/want.out"

# The first words of a refusal, without its particulars.
plain='s/^\(check 6 Conflict [A-Z][a-z]*\).*/\1/; t
s/^\([a-z]* [0-9]* [A-Za-z]*\).*/\1/; s/^file .*/file/'

sed -n 's/^### `\(.*\)`$/\1/p' "$root/docs/REFUSALS.md" | sed "$plain" | sort > "$work/out"
alike 'docs/REFUSALS.md has a section for each refusal, and no other' 'sections of docs/REFUSALS.md against crates/*/specs/RefusalWords.antt'

cat "$work"/REFUSALS/*.err | sed "$plain" | sort -u > "$work/out"
grep -v '^run 2 Source$\|^dispatch 6 ReportLimit$' "$work/want.out" > "$work/want" && mv "$work/want" "$work/want.out"
alike 'docs/REFUSALS.md has an example of each refusal but run 2 and dispatch 6' 'examples of docs/REFUSALS.md'

# The program of docs/LIBRARY.md is code that the gate proves.
awk '/^```$/ { on = 0 } on; /^```rust$/ { on = 1 }' "$root/docs/LIBRARY.md" > "$work/out"
cp "$root/crates/fleet_example/src/library.rt" "$work/want.out"
alike 'docs/LIBRARY.md has the source of crates/fleet_example' 'docs/LIBRARY.md against crates/fleet_example/src/library.rt'

# docs/DEFINITIONS.md says what the comments in specs/ say.
sh "$root/tools/definitions.sh" > "$work/want.out"
cp "$root/docs/DEFINITIONS.md" "$work/out"
alike 'docs/DEFINITIONS.md is current: make definitions' 'docs/DEFINITIONS.md against the comments in crates/*/specs'

# The clauses that docs/PROVED.md quotes stand in the source, and the definitions of its table have so many lines.
# A clause goes on to the next one, a comment, or the body; its lines are joined.
clauses='/^ *(requires|ensures) / { if (clause != "") print clause; clause = ""; on = 1 }
    /^ *([{]|[{][}]|\/\/.*|```.*)?$/ { if (clause != "") print clause; clause = ""; on = 0 }
    on { sub(/^ */, ""); clause = clause (clause == "" ? "" : " ") $0 }'
awk '/^```rust$/ { on = 1 } on; /^```$/ { on = 0 }' "$root/docs/PROVED.md" | awk "$clauses" | sort -u > "$work/want.out"
awk "$clauses" "$root"/crates/*/src/*.rt | grep -Fxf "$work/want.out" | sort -u > "$work/out"
alike 'docs/PROVED.md quotes clauses of the source' 'clauses of docs/PROVED.md against crates/*/src'
awk '/^```$/ { on = 0 } on && NF; /^```antt$/ { on = 1 }' "$root/docs/PROVED.md" | sort -u > "$work/want.out"
cat "$root"/crates/*/specs/*.antt | grep -Fxf "$work/want.out" | sort -u > "$work/out"
alike 'docs/PROVED.md quotes definitions of specs/' 'definitions of docs/PROVED.md against crates/*/specs'
sed -n 's/^|[^|]*| `\([A-Z][A-Za-z. _]*\)` | \([0-9]*\) |.*/\2 \1/p' "$root/docs/PROVED.md" > "$work/want.out"
while read -r _ names; do
    # The names are words, each a FILE.NAME.
    echo "$(sh "$root/tools/believed.sh" $names | sed -n '$s/ .*//p') $names"
done < "$work/want.out" > "$work/out"
alike 'docs/PROVED.md has the lines of definitions: tools/believed.sh' 'table of docs/PROVED.md against crates/*/specs'

# The text that an edit changes stands once in its file: of the edits of the gate, and of those of `make edits` and of
# `make neutral`.
for edit in "$root"/crates/*/must-fail/*.edit "$root"/tests/must-fail/*/*.edit "$root"/tests/edits/*/*.edit "$root"/tests/neutral/*/*.edit; do
    crate=${edit%/*}
    crate=${crate%/must-fail}
    awk -v at="$root/crates/${crate##*/}" '
        sub(/^file: /, "") { path = at "/" $0 }
        sub(/^old: /, "") {
            found = 0
            while ((getline line < path) > 0)
                for (; at_old = index(line, $0); line = substr(line, at_old + length($0)))
                    found++
            close(path)
            if (found != 1)
                print FILENAME ": " $0
        }' "$edit"
done > "$work/out"
: > "$work/want.out"
alike 'each edit changes a text that stands once' 'edits of crates/*/must-fail, tests/must-fail, tests/edits and tests/neutral' none

# It says the functions that it changes, by the paths that the check prints.
for edit in "$root"/tests/must-fail/*/*.edit "$root"/tests/edits/*/*.edit "$root"/tests/neutral/*/*.edit; do
    sed -n 's/^check: //p' "$edit" > "$work/checks"
    [ -s "$work/checks" ] || echo "$edit: names none"
    while read -r path; do
        grep -rqE "fn ${path##*::}[(<]" "$root/crates/$(basename "${edit%/*}")/src" || echo "$edit: $path"
    done < "$work/checks"
done > "$work/out"
: > "$work/want.out"
alike 'each edit names functions of its crate' 'edits of tests/must-fail, tests/edits and tests/neutral against crates/*/src' none
