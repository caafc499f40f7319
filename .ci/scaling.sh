#!/usr/bin/env bash
# Tests that a text that `parallel` or `split` has parted gets the very answer of one run, for each command of the program, and what becomes of a fault in a
# part: docs/PROGRAM.md. It takes the program of `make program`, or that of the word $I_SHAPE_TOOL. Where there is none, or no parallel, it is skipped.
. "$(dirname "$0")/part.sh" && set -o pipefail || exit 1
program=${I_SHAPE_TOOL:-crates/i_shape_tool_main/out/i_shape_tool_main}
[ -n "${I_SHAPE_TOOL-}" ] || needs scaling '`make program` builds the program' bash scripts/program/build.sh --is-built || end_part
has scaling parallel || end_part

# The program on each part of standard input, as many words of parallel as are given first.
parted() { parallel --will-cite --pipe --keep-order --jobs 4 "${@:1:$#-1}" "$program" "${@: -1}"; }

# 20,000 lines of 0 to 11 points of a small square: many collapse, some are empty.
"$python" - << 'PROGRAM' > "$work/text"
import random
random.seed(1)
for _ in range(20000):
    print(*random.choices(range(5), k=2 * random.randrange(12)))
print("0 0 4 0 4 4", end="")
PROGRAM
for command in despike area canonical compact simplify; do
    "$program" $command < "$work/text" > "$work/one" && [ -s "$work/one" ] && parted --block 7k $command < "$work/text" 2>&1 | cmp "$work/one" -
    count $? "the parts of $command"
done
parted -N 1000 simplify < "$work/text" | cmp "$work/one" -
count $? 'parts of 1000 lines'
split -n l/4 "$work/text" "$work/part." &&
    parallel --will-cite "$program simplify < {} > {}.left" ::: "$work"/part.?? && cat "$work"/part.??.left | cmp "$work/one" -
count $? 'parts in files'
parted --block 100k --sshlogin 2/: simplify < "$work/text" | cmp "$work/one" -
count $? 'parts for a host'

# A fault: its part prints nothing but the line of the fault, and the other parts their results.
sed '2500s/.*/1 2 3/; 4000q' "$work/text" > "$work/faulty"
parted -N 1000 --tagstring 'part {#}:' simplify < "$work/faulty" > "$work/parts" 2> "$work/told"
[ $? = 1 ] && grep -q '^part 3:.*line 500: not a contour$' "$work/told" && sed -n '1,2000p; 3001,4000p' "$work/one" | cmp - <(sed 's/^part [0-9]*:\t//' "$work/parts")
count $? 'a fault in a part'
end_part
