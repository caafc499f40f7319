#!/usr/bin/env bash
# Draws the pictures of docs/pictures anew and compares them, byte by byte, by the program of `make program`, or that of the word $I_SHAPE_TOOL: examples/draw.
. "$(dirname "$0")/part.sh" || exit 1
[ -n "${I_SHAPE_TOOL-}" ] || needs pictures '`make program` builds the program' bash scripts/program/build.sh --is-built || end_part
export I_SHAPE_TOOL=${I_SHAPE_TOOL:-$PWD/crates/i_shape_tool_main/out/i_shape_tool_main}

# All that draw.py prints of the lines $1, by the words from $2 on.
drawn() { printf "$1" | "$python" examples/draw/draw.py --program "$I_SHAPE_TOOL" "${@:2}" simplify 2>&1; }

mkdir "$work/drawn" && examples/draw/draw_all.sh "$work/drawn" && diff -qr docs/pictures "$work/drawn"
count $? 'the pictures: `make pictures` draws them anew'
prints 'a line of five words' 'draw.py: a line has an odd number of words' fails drawn '0 0 4 0 4\n'
prints 'an empty line' 'draw.py: a line has no point' fails drawn '0 0 4 0 4 4\n\n'
drawn '0 0 4 0 4 4\n' --label 'a < b & c' | grep -q '>a &lt; b &amp; c</text>'
count $? 'a label'
end_part
