#!/usr/bin/env bash
# Tests the cargo workspace of rust/: the erased source is the source, what cargo builds does what its tests say, and the C library that it builds passes the tests of C.
# With --quick all but what takes minutes and rarely fails, and with --rest that alone: lints, documentation, the checks of the check of erased text, i_shape.hpp, the
# address sanitizer, valgrind, and more of the answers beside those of the kit's library.
. "$(dirname "$0")/part.sh" || exit 1
export CARGO_NET_OFFLINE=true CARGO_PROFILE_DEV_DEBUG=0

in_workspace() { (cd rust && "$@"); }

# cargo with these words succeeds, and has nothing to warn of.
is_quiet() { in_workspace nice -n 5 cargo "$@" > "$work/told" 2>&1 && [ ! -s "$work/told" ] || { cat "$work/told" && false; }; }

# The folder that cargo has given the build script of the package in the folder $1.
built_by() { sed -nE "/\"build-script-executed\"/s|.*rust/$1#.*\"out_dir\":\"([^\"]*)\".*|\1|p" "$work/built" | tail -n 1; }

# Where cargo has built each package, and a copy of what the C library is built of.
find_built() {
    local words
    for words in "$tests" "$libraries" "$programs"; do in_workspace cargo $words --message-format json; done > "$work/built"
    cp -R "$(built_by c_library)" "$work/i_shape_c"
}

# What each package is built of is its source without contracts, and is what the eraser writes by itself.
test_erased() {
    local package
    for package in c_library i_shape i_shape_tests i_shape_tool; do
        add "the erased source of $package" python3 .ci/erased.py "$(built_by $package)" rust/$package/build.rs
    done
    check 'the eraser writes i_shape_c_calls' rust/target/debug/erase . i_shape_c_calls "$work/alone"
    check 'the eraser writes what cargo builds' diff -r -x lending.rs -x mod.rs "$work/alone/erased" "$work/i_shape_c/erased"
}

# Takes the line $2 from the erased file $1, and says that it was cut as what $3 names.
cut_line() {
    python3 - "$work/changed" "$@" << 'PROGRAM'
import json, sys
from pathlib import Path
folder, place, line, what = Path(sys.argv[1]), sys.argv[2], f"{sys.argv[3]}\n".encode(), sys.argv[4]
erased, kept = folder / "erased" / f"{place}.rs", folder / "cuts" / f"{place}.json"
text = erased.read_bytes()
at = text.index(line)
erased.write_bytes(text.replace(line, b"", 1))
source, *cuts = map(json.loads, kept.read_text().splitlines())
cuts = [cut | {"at": cut["at"] - len(line) * (cut["at"] > at)} for cut in cuts] + [{"at": at, "length": 0, "what": what, "cut": line.decode()}]
kept.write_text("".join(json.dumps(row) + "\n" for row in (source, *sorted(cuts, key=lambda cut: cut["at"]))))
PROGRAM
}

# Leaves the module $2 of the file $1 out.
leave_out() { cut_line "$1" "mod $2;" module && rm "$work/changed/erased/$1/$2.rs"; }

swap() {
    mv "$work/changed/$1" "$work/kept"
    mv "$work/changed/$2" "$work/changed/$1"
    mv "$work/kept" "$work/changed/$2"
}

swap_files() { swap "erased/$1.rs" "erased/$2.rs" && swap "cuts/$1.json" "cuts/$2.json"; }

# A change of an erased file is found: $1 says which, and the words from $2 on make it.
test_change() {
    rm -rf "$work/changed"
    cp -R "$work/i_shape_c" "$work/changed"
    "${@:2}"
    check "a change of an erased file is found: $1" fails python3 .ci/erased.py "$work/changed"
}

test_changes() {
    local ring=$work/changed/erased/i_shape_core/clean/place_ring.rs
    test_change 'a statement is gone' sed -i '0,/;$/{/;$/d}' "$ring"
    test_change 'a doc comment is gone' sed -i '0,/^ *\/\/\/ /{/^ *\/\/\/ /d}' "$ring"
    test_change 'another operator' sed -i '0,/ + 1/s// + 2/' "$ring"
    test_change 'more is said to be a clause' sed -i '0,/"what": "ghost item"/s//"what": "clauses"/' "$work/changed/cuts/i_shape_core/clean/place_ring.json"
    test_change 'a module is left out' leave_out i_shape_core/clean place_ring
    test_change 'a public import is gone' cut_line i_shape_core 'pub use turn::{Turn, triangle};' import
    test_change 'two files lie in the place of each other' swap_files i_shape_core/clean/place_ring i_shape_core/turn/triangle
    cp -R "$(built_by i_shape_tests)" "$work/of_tests"
    sed -i '0,/HostRuntime::new()/s//HostRuntime/' "$work/of_tests/erased/i_shape_tool_tests/shapes.rs"
    check 'a change of an erased test is found' fails python3 .ci/erased.py "$work/of_tests" rust/i_shape_tests/build.rs
    mkdir -p "$work/empty/erased"
    check 'a folder without an erased file is found' fails python3 .ci/erased.py "$work/empty"
}

# Hashes of more answers of each call of the library $1 than are recorded.
hashes_of() { "${CC:-cc}" -std=c11 -O2 -Iinclude bindings/c/check/hashes.c "$1" -o "$work/hashes" && "$work/hashes" 2 5000; }

# The recorded hashes find that the call $1 takes contours of seven points for what they aren't.
test_wrong_call() {
    local wrong="#include <i_shape.h>
        int8_t __real_$1(const i_shape_point_i32 *points, size_t count);
        int8_t __wrap_$1(const i_shape_point_i32 *points, size_t count) { return (int8_t)(__real_$1(points, count) ^ (count == 7)); }"
    echo "$wrong" | "${CC:-cc}" -Iinclude -c -x c - -o "$work/wrong.o"
    compare_hashes "$library/libi_shape.a" "${CC:-cc}" "-Wl,--wrap=$1" "$work/wrong.o" > "$work/log"
    [ $? = 1 ] && grep -q "^failed: [0-9a-f]* $1: " "$work/log" && grep -qx "$(($(wc -l < bindings/c/check/hashes.txt) - 1)) passed, 1 failed" "$work/log" || { cat "$work/log" && false; }
    count $? "the recorded hashes: wrong answers of $1"
}

# What the library asks of the program that it is linked into.
asks() { nm -D --undefined-only "$library/libi_shape.so" | awk '$1 == "U" { sub(/@.*/, "", $2); print $2 }' | sort | tr '\n' ' '; }

# The calls that it defines.
defined() { nm -D --defined-only "$library/libi_shape.so" | awk '{ print $3 }' | sort; }

test_library() {
    local c=("${CC:-cc}" -std=c11) tests=bindings/c/test.c plain=(-O0 -g0)
    prints 'the C library of cargo: what it asks for' 'abort free malloc memcpy memmove memset realloc ' asks
    prints 'the C library of cargo: its calls' "$(declared)" defined
    prints 'the C library of cargo: its name' "[libi_shape.so.$(scripts/version.sh --soname)]" bash -c "readelf -d '$library/libi_shape.so' | grep -o '\[libi_shape.*\]'"
    check 'the C library of cargo: it binds all names at its start' bash -c "readelf -dW '$library/libi_shape.so' | grep -qE '\(FLAGS_1\).*NOW'"
    check 'the C library of cargo: its build-id' bash -c "readelf -nW '$library/libi_shape.so' | grep -q 'Build ID: '"
    check 'the recorded hashes: their calls' diff <(declared) <(cut -d ' ' -f 2- bindings/c/check/hashes.txt | sort)
    test_hashes 'the C library of cargo' "$library/libi_shape.a" "${CC:-cc}"
    test_wrong_call i_shape_is_convex_i32
    # without the kit it is the library of `make c`, which c_library.sh tests
    command -v rt > /dev/null || return
    ln -sf libi_shape.so "$library/libi_shape.so.$(scripts/version.sh --soname)"
    test_as 'the C library of cargo' "${c[@]}" $tests "$library/libi_shape.a"
    test_as 'the C library of cargo, shared' "${c[@]}" $tests "$library/libi_shape.so" "-Wl,-rpath,$library"
    test_as 'the C library of cargo, each growth failing' "${c[@]}" -DOWN_ALLOCATOR $tests "$library/libi_shape.a"
}

# The same for what takes longer.
test_library_longer() {
    needs "the kit's C library beside it" "it isn't built" bash bindings/c/build.sh --is-built &&
        prints 'the C library of cargo: the hashes of more of its answers' "$(hashes_of bindings/c/out/libi_shape.a)" hashes_of "$library/libi_shape.a"
    command -v rt > /dev/null || return
    test_as 'the C library of cargo, i_shape.hpp' "${CXX:-c++}" -std=c++17 -O0 bindings/c/test.cpp "$library/libi_shape.a"
    test_hardened 'the C library of cargo, ' "$library/libi_shape.a"
}

ends_with() { "${@:2}" 2> /dev/null; [ $? = "$1" ]; }

# The program's status by its standard streams: those that are closed or can't be read or written end it by 4.
test_streams() {
    local tool=$program
    echo '0 0' > "$work/text"
    check 'the program: a closed input' ends_with 4 "$tool" area <&-
    check 'the program: an input that can only be written' ends_with 4 "$tool" area 0> "$work/written"
    check 'the program: an input without a byte' ends_with 0 "$tool" area < /dev/null
    check 'the program: a closed input that is not read' ends_with 2 "$tool" <&-
    check 'the program: a closed output' ends_with 4 bash -c '"$1" area >&-' . "$tool" < "$work/text"
    check 'the program: an output that can only be read' ends_with 4 bash -c '"$1" area 1< /dev/null' . "$tool" < "$work/text"
    check 'the program: an output that is full' ends_with 4 bash -c '"$1" area > /dev/full' . "$tool" < "$work/text"
    check 'the program: no stream at all' ends_with 4 bash -c '"$1" area <&- >&- 2>&-' . "$tool"
    check 'the program: no memory for its input' ends_with 4 bash -c 'ulimit -v 50000; yes "" | head -c 80000000 | "$1" area' . "$tool"
}

# Clippy has nothing to say of the crate for Rust, nor has rustfmt of any package.
test_lints() {
    local words
    for words in 'clippy -p i_shape --all-targets --locked --quiet -- -D warnings -D clippy::incompatible_msrv' 'fmt --all --check'; do
        needs "the crate for Rust, cargo $words" 'there is no such command' cargo "${words%% *}" --help &&
            check "the crate for Rust, cargo $words" in_workspace cargo $words
    done
}

# The crate for serde, over Debian's copies of serde. It is outside the workspace, and its lock names what is on this machine.
test_serde() {
    local registry=/usr/share/cargo/registry words
    needs 'the crate for serde' "there is no librust-serde-derive-dev or librust-serde-json-dev" ls $registry/serde_{derive,json}-1.* || return
    words=(--manifest-path rust/i_shape_serde/Cargo.toml --config 'source.crates-io.replace-with="debian"' --config "source.debian.directory='$registry'")
    check 'the crate for serde, its lock' cargo generate-lockfile --quiet "${words[@]}"
    add 'the crate for serde' test_crate "${words[@]}" --target-dir rust/target/serde
    needs 'the crate for serde, cargo clippy' 'there is no such command' cargo clippy --help &&
        check 'the crate for serde, cargo clippy' cargo clippy --quiet --all-targets "${words[@]}" --target-dir rust/target/serde -- -D warnings -D clippy::incompatible_msrv
    needs 'the crate for serde, cargo fmt' 'there is no such command' cargo fmt --help &&
        check 'the crate for serde, cargo fmt' cargo fmt --check --manifest-path rust/i_shape_serde/Cargo.toml
}

needs 'cargo' 'there is no cargo from 1.85 on' bash -c '[[ $(cargo --version) =~ ^cargo\ 1\.([0-9]+) ]] && [ "${BASH_REMATCH[1]}" -ge 85 ]' || end_part
machine=$(cargo --version --verbose | sed -n 's/^host: //p')
library=$PWD/rust/target/$machine/release
program=$PWD/rust/target/$machine/program/i_shape_tool
tests='test --no-run --locked --quiet'
libraries="build --release --target $machine -p i_shape -p i_shape_c_library --locked --quiet"
programs="build --profile program --target $machine -p i_shape_tool --locked --quiet"
for words in "$tests" "$libraries" "$programs"; do
    check "cargo $words" is_quiet $words
done
find_built
if [ "${1-}" != --rest ]; then
    prints 'the folder for this machine, whatever target is named' "${program%/*}" \
        env CARGO_BUILD_TARGET=wasm32-unknown-unknown bash scripts/by_cargo.sh i_shape_tool program
    test_erased
    test_library
    add 'the tests of the workspace' in_workspace test_crate
    prints 'examples/clean.rs' "$(shown docs/C.md examples/clean.c)" in_workspace cargo run --locked --quiet -p i_shape --example clean
    test_streams
    prints 'cargo run -p i_shape_tool' '0 0 4 0 4 4 0 4' bash -c "echo 0 0 2 0 4 0 4 4 0 4 | '$program' simplify"
fi
if [ -z "$is_quick" ]; then
    words='doc --no-deps --locked --quiet'
    check "cargo $words" is_quiet $words
    test_changes
    test_library_longer
    test_lints
    test_serde
fi
end_part
