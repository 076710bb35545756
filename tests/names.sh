# The names that users of the library have. Each line of tests/names.txt is `CRATE::NAME`, or `CRATE::TYPE::CALL` for a
# call of a type: it is handed out by that crate, and `fleet_tests`, which the gate proves and runs, imports it from
# there and makes the call.

enter names
surface=$root/crates/fleet_tests/src

# The names that the `use` lines of Rust files bring in, a line each with the path before it. A `use` may go over many
# lines.
used='
    FNR == 1 { on = 0 }
    /^ *\/\// { next }
    !on && /^(pub )?use / { on = 1; line = "" }
    on { line = line " " $0 }
    on && /;/ {
        on = 0
        sub(/^ *(pub )?use */, "", line)
        gsub(/[ ;]/, "", line)
        path = line; names = line
        if (!sub(/::[{].*/, "", path)) sub(/::[^:]*$/, "", path)
        sub(/.*::[{]/, "", names) || sub(/.*::/, "", names)
        sub(/,*[}]$/, "", names)
        count = split(names, name, ",")
        for (k = 1; k <= count; k++) print path "::" name[k]
    }'

sort "$root/tests/names.txt" > "$room/listed"
grep -v "::.*::" "$room/listed" > "$work/want.out"
cat "$surface"/*.rt | awk "$used" | sort -u | comm -12 - "$work/want.out" > "$work/out"
alike 'fleet_tests imports each name of tests/names.txt' 'crates/fleet_tests/src against tests/names.txt'

# What a crate hands out stands in its root, as a line of `pub use` or as an item.
sed 's/::.*//' "$work/want.out" | sort -u | while read -r crate; do
    lib=$root/crates/$crate/src/lib.rt
    { awk '/^ *use /, /;/ { next } { print }' "$lib" | awk "$used" | sed 's/.*:://'
        sed -n 's/^pub \(fn\|struct\|enum\|trait\) \([A-Za-z0-9_]*\).*/\2/p' "$lib"; } | sed "s/^/$crate::/"
done | sort -u | comm -12 - "$work/want.out" > "$work/out"
alike 'each name of tests/names.txt is handed out by its crate' 'crates/*/src/lib.rt against tests/names.txt'

# A call is made by its type, or on a value: then calls of that name are made at least as often as there are such.
grep "::.*::" "$room/listed" > "$work/want.out"
while read -r line; do
    name=${line#*::}
    call=${name##*::}
    if grep -qE "(^|[^A-Za-z_])$name\(" "$surface"/*.rt ||
        [ "$(cat "$surface"/*.rt | grep -cE "(\.|::)$call\(")" -ge "$(grep -c "::$call\$" "$work/want.out")" ]; then
        echo "$line"
    fi
done < "$work/want.out" > "$work/out"
alike 'fleet_tests makes each call of tests/names.txt' 'crates/fleet_tests/src against tests/names.txt'
