#!/bin/sh
# Proves and builds one of the programs of bench/programs in a copy of the repository, and prints where the program is. The merge gate
# knows nothing of these programs: their files end in .in, and become a crate's files in the copy.
#
#   bench/build.sh NAME
#
# The copy stays, so that a later call proves again only what has changed: in DIMBOETU_BENCH, or in a folder of the caller's own below the
# folder for temporary files. Libraries that are built in crates/ are taken as they stand.
set -eu
name=$1
here=$(cd "$(dirname "$0")" && pwd)
top=$(dirname "$here")
copy=${DIMBOETU_BENCH:-${TMPDIR:-/tmp}/dimboetu-bench-$(id -u)}/$name
line=$(grep "^$name:" "$here/programs/uses.txt")

# The crates below the program.
below() {
    { cat "$top/crates.txt" && echo "$line"; } | awk -F: -v top="$name" '
        /^[a-z]/ { uses[$1] = $2 }
        function visit(it,   parts, count, i) {
            if (!(it in uses) || it in seen) return
            seen[it] = 1
            count = split(uses[it], parts, " ")
            for (i = 1; i <= count; i++) visit(parts[i])
            if (it != top) print it
        }
        END { visit(top) }'
}

# Puts the sources of a crate into the copy, in place of those of an earlier call.
place() {
    from=$1 to=$2
    mkdir -p "$to"
    for part in src specs proofs; do
        rm -rf "$to/$part"
        [ ! -d "$from/$part" ] || cp -a "$from/$part" "$to/$part"
    done
}

mkdir -p "$copy/crates"
cp "$top/HANDLES" "$copy/HANDLES"
: >"$copy/crates.txt.new"
for crate in $(below); do
    place "$top/crates/$crate" "$copy/crates/$crate"
    grep "^$crate:" "$top/crates.txt" >>"$copy/crates.txt.new"
    if [ -d "$top/crates/$crate/out/rlib" ] && [ ! -d "$copy/crates/$crate/out" ]; then
        mkdir -p "$copy/crates/$crate/out"
        cp -a "$top/crates/$crate/out/rlib" "$copy/crates/$crate/out/rlib"
    fi
done
echo "$line" >>"$copy/crates.txt.new"
mv "$copy/crates.txt.new" "$copy/crates.txt"
place "$here/programs/$name" "$copy/crates/$name"
cp "$here/programs/$name/stdout" "$copy/crates/$name/stdout"
find "$copy/crates/$name" -path "$copy/crates/$name/out" -prune -o -name '*.in' -print | while read -r file; do
    mv "$file" "${file%.in}"
done
# An older program is never taken for one that could not be built. With no words it prints how it is called.
rm -f "$copy/crates/$name/out/$name"
if ! (cd "$copy/crates/$name" && nice -n 10 rt run >"$copy/log" 2>&1 </dev/null); then
    tail -n 20 "$copy/log" >&2
    exit 1
fi
echo "$copy/crates/$name/out/$name"
