#!/bin/sh
# Builds the program as it stands, with nothing proved, to count its instructions:
#     tools/unproved.sh PROGRAM
# A copy of the toolchain, of hard links where they can be made, keeps the module that `rt try` builds. The checks that
# a try puts in are taken out of it by `uncheck.awk`, and it is compiled and linked as what is proved is. So its
# instructions are those of the proved program but for a few hundredths.

[ $# -eq 1 ] || { echo 'tools/unproved.sh PROGRAM' >&2; exit 2; }
root=$(cd "$(dirname "$0")/.." && pwd) || exit 2
to=$(cd "$(dirname "$1")" && pwd)/$(basename "$1") || exit 2
kit=$(dirname "$(rt doc)")
work=$(mktemp -d "$(dirname "$kit")/unproved.XXXXXX" 2> /dev/null || mktemp -d) || exit 2
trap 'rm -rf "$work"' EXIT
trap 'exit 130' INT TERM
cp -al "$kit" "$work/kit" 2> /dev/null || cp -a "$kit" "$work/kit" || exit 2

# The linker is a link to the compiler, which goes by its name.
clang=$work/kit/toolchain/bin/clang
rm "$clang" && cat > "$clang" << END
#!/bin/sh
case \$1 in -m) exec "$kit/toolchain/bin/ld.lld" "\$@" ;; esac
case " \$* " in *fsanitize*) cp module.bc "$work/module.bc" ;; esac
exec "$kit/toolchain/bin/clang" "\$@"
END
chmod +x "$clang"
cd "$root/crates/fleet" && "$work/kit/bin/rt" try --steps 10 -- --help > "$work/said" 2>&1
cd "$work" && [ -f module.bc ] || { tail -n 20 "$work/said" >&2; exit 1; }

# A line for each function that the sources want in line, or out of line: its crate, its name, and which.
hints='
FNR == 1 { crate = FILENAME; sub(/\/src\/.*/, "", crate); sub(/.*\//, "", crate); hint = "" }
/#\[inline\(always\)\]/ { hint = "alwaysinline" }
/#\[inline\(never\)\]/ { hint = "noinline" }
/^ *(pub(\([a-z]*\))? )?(const )?(unsafe )?fn / {
    sub(/.*fn /, "")
    sub(/[^A-Za-z_0-9].*/, "")
    if (hint) print crate, $0, hint
    hint = ""
}'

compile() {
    "$kit/toolchain/bin/clang" --target=x86_64-unknown-linux-gnu --sysroot="$kit/toolchain" -march=x86-64-v2 \
        -ffunction-sections -fdata-sections --no-default-config -no-canonical-prefixes -fPIE -x ir "$@"
}
compile -S -emit-llvm -O1 -Xclang -disable-llvm-passes module.bc -o checked.ll &&
    find "$root"/crates/*/src "$kit"/rattle/*/src -name '*.rt' -exec awk "$hints" {} + > hints &&
    awk -f "$root/tools/uncheck.awk" hints checked.ll > plain.ll &&
    compile -c -O3 plain.ll -o plain.o &&
    "$kit/bin/rattle-link" --target x86_64-unknown-linux-gnu --toolchain "$kit/toolchain" -o "$to" \
        plain.o "$kit/c/libos_c.a" "$kit/c/liblibc_c.a" > said
