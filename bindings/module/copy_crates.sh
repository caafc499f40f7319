#!/bin/sh
# Copies a crate, with what its proof has kept, and the libraries below it, with what it takes of them: by links where it can, which take no room.
# usage: copy_crates.sh TOP FOLDER CRATE
set -eu
top=$1
folder=$2
crate=$3
mkdir -p "$folder/crates"
link=-l
cp -l "$top/HANDLES" "$folder" 2> /dev/null || { cp "$top/HANDLES" "$folder" && link=; }
# The lines of the crate and of all below it.
awk -F: -v crate="$crate" '
    { split($1, words, " "); below[words[1]] = $2; line[words[1]] = $0 }
    function add(name, names, count, k) {
        if (!(name in line) || name in added) return
        added[name] = 1
        count = split(below[name], names, " ")
        for (k = 1; k <= count; k++) add(names[k])
        print line[name]
    }
    END { add(crate) }' "$top/crates.txt" > "$folder/crates.txt"
# What is kept of the C library changes while bindings/c/build.sh proves it for another machine.
if [ "$crate" = i_shape_c_calls ]; then
    flock "$top/bindings/c/out/build.lock" cp -a "$top/crates/$crate" "$folder/crates"
else
    cp -a "$top/crates/$crate" "$folder/crates"
fi
for library in $(sed -E 's/[ :].*//' "$folder/crates.txt"); do
    [ "$library" != "$crate" ] || continue
    mkdir -p "$folder/crates/$library/out"
    for part in "$top/crates/$library"/*; do
        [ "${part##*/}" = out ] || cp -a $link "$part" "$folder/crates/$library"
    done
    cp -a $link "$top/crates/$library/out/rlib" "$folder/crates/$library/out"
done
