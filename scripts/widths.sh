#!/usr/bin/env bash
# Makes the calls of C at 16 and at 64 bits, their proofs and their declarations, from those at 32 bits: i16.rt, i64.rt and i32.rt in
# crates/i_shape_c_calls/src/calls and its folder measures, the folders of these names in proofs/calls, and the sections of include/i_shape.h. With the word
# --check it says where what is there is something else.
set -euo pipefail
shopt -s nullglob
cd "$(dirname "$0")/.." || exit 1
crate=crates/i_shape_c_calls
modules=(calls calls/measures)
header=include/i_shape.h

# Code at 32 bits, at $1 bits, whose products have $2 bits. The codes that the tests answer stay.
at_width() {
    sed -E -e 's/(-> |rule: )i32\b/\1CODE/g; s/&mut (\[?)i64/\&mut \1WIDE/; s/\bw64\b/WIDTH/g' \
        -e "s/\bw32\b/w$1/g; s/(i|I)32/\1$1/g; s/\b32 bits/$1 bits/" -e "s/CODE/i32/g; s/WIDE/i$2/; s/WIDTH/w$2/g" |
        if [ "$2" = 128 ]; then in_halves; else cat; fi
}

# C has no whole number of 128 bits: it is given the two halves of one.
in_halves() {
    sed -E -e 's/&mut (\[?)i128/\&mut \1Halves/; s/area::area_two;/area::{Halves, area_two};/; s/= twice;/= Halves::of(twice);/' \
        -e 's/\(IsDoubleArea w128\)/AreDoubleAreaHalves/; s/IsDoubleArea( w128)?/AreDoubleAreaHalves/; s/, w128\}/}/' \
        -e 's/^use i_shape_c::measures::/use i_shape_c::area::Halves;\n&/'
}

# Makes the width $1, whose products have $2 bits, of the module $3 in the folder $4.
make_module() {
    local proof name
    mkdir -p "$4/src/$3"
    at_width "$1" "$2" < "$crate/src/$3/i32.rt" | sed '1s|\.$|, made by scripts/widths.sh from those at 32 bits.|' > "$4/src/$3/i$1.rt"
    for proof in "$crate/proofs/$3/i32"/*/*.antt; do
        name=$(dirname "${proof#"$crate/proofs/$3/i32/"}")
        mkdir -p "$4/proofs/$3/i$1/${name%i32}i$1"
        # a proof that names both widths would name one twice at 64 bits
        sed -E "1i -- Made by scripts/widths.sh from that at 32 bits.
            s/i32/i$1/g; s/\bw32\b/w$1/g; s/\{w64, w64\}/{w64}/" "$proof" > "$4/proofs/$3/i$1/${name%i32}i$1/$(basename "$proof")"
    done
}

# Makes the widths of each module in the folder $1.
make_widths() {
    local module
    for module in "${modules[@]}"; do
        make_module 16 32 "$module" "$1"
        make_module 64 128 "$module" "$1"
    done
}

# The declarations of the header at 32 bits, at $1 bits, whose areas are of the type $2. The codes that the tests answer stay.
declarations_at() {
    grep -E '^[a-z].* i_shape_[a-z_]+_i32\(.*;$' "$header" |
        sed -E -e 's/^int32_t/CODE/; s/int32_t rule/CODE rule/; s/int64_t \*area/AREA *area/' -e "s/_i32\b/_i$1/g; s/\bint32_t/int$1_t/g" -e "s/CODE/int32_t/g; s/AREA/$2/"
}

# Prints the header, its sections at 16 and at 64 bits made from that at 32 bits. A section ends at a blank line.
made_header() {
    awk -v at16="$(declarations_at 16 int32_t)" -v at64="$(declarations_at 64 i_shape_halves)" '
        /^$/ { is_made = 0 }
        !is_made
        /^\/\* The calls at 16 bits:/ { print at16; is_made = 1 }
        /^\/\* The calls at 64 bits:/ { print at64; is_made = 1 }' "$header"
}

if [ "${1-}" != --check ]; then
    for module in "${modules[@]}"; do rm -rf "$crate/proofs/$module"/i{16,64}; done
    make_widths "$crate"
    made=$(made_header)
    printf '%s\n' "$made" > "$header"
    exit
fi
. .ci/part.sh
make_widths "$work"
set +e
for folder in src/calls proofs/calls; do
    check "$crate/$folder: another width than scripts/widths.sh makes of i32" diff -r -x i32 -x i32.rt -x measures.rt "$crate/$folder" "$work/$folder"
done
check "$header: another width than scripts/widths.sh makes of 32 bits" diff "$header" <(made_header)
end_part
