#!/usr/bin/env bash
# Builds the WebAssembly module by cargo and runs the tests of the package for JavaScript and of examples/page by Node: beside the native library, where there is a C
# compiler, and without --quick in browsers, with esbuild and tsc, and those of C as a module. It takes Node from 20.6 on: Debian 12's own is older, and one from
# NodeSource or nodejs.org serves.
. "$(dirname "$0")/part.sh" || exit 1
package=bindings/js

# Node counts what it has run. A group of tests that is skipped counts as one.
test_by_node() {
    [ -z "$is_quick" ] || export QUICK_TESTS=1
    timeout 1200 node --test --test-reporter=tap $package/test/*.test.js examples/page/test/*.test.js > "$work/told" 2>&1
    local status=$?
    [ "$status" = 0 ] || grep -A 25 '^ *not ok ' "$work/told" | head -n 200
    sed -nE 's/^ *ok [0-9]+ - .* # SKIP (.*)$/skipped: \1/p' "$work/told" | sort | uniq -c
    awk '/^# (pass|fail|cancelled) [0-9]+$/ { counts[$2] = $3; lines++ }
        /^ *ok .* # SKIP / { skipped++ }
        END { if (lines == 3) print counts["pass"] " passed, " counts["fail"] + counts["cancelled"] " failed, " skipped + 0 " skipped" }' "$work/told"
    return $status
}

has_node javascript && needs javascript 'there is no Rust for WebAssembly: `make wasm` says what to install' bash $package/build.sh --can-build || end_part
check 'the module' bash $package/build.sh
[ "$failed" = 0 ] || end_part
has 'the tests beside the native library' "${CC:-cc}" && has_c_library 'the tests beside the native library' && for bits in 16 32 64; do
    check "the native library at $bits bits" compile_answers $bits bindings/c/out/libi_shape.a "$work/answers$bits" "${CC:-cc}" && export I_SHAPE_ANSWERS=$work/answers
done
[ -z "$is_quick" ] && has 'the tests of C as a module' clang wasm-ld &&
    check 'the tests of C as a module' sh $package/test/c/build.sh "$work/c_tests.wasm" && export I_SHAPE_C_TESTS=$work/c_tests.wasm
add 'the tests by Node' test_by_node
[ -z "$is_quick" ] && has 'the types' tsc && check 'the types' tsc --noEmit --strict --target es2022 --lib es2022,dom --module node16 --moduleResolution node16 $package/test/types.ts
end_part
