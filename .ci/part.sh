# For the scripts of the parts, which source this first: they run at the top of the checkout, have a folder $work, and count in $passed, $failed and $skipped.
# $is_quick holds where the script's word is --quick, as `make test` gives it: each test runs once, over a plain build of what is built. $only_built holds where nothing
# that would be proved is to be built: then, or because there is no rt.
set -u
cd "$(dirname "${BASH_SOURCE[0]}")/.." || exit 1
export LC_ALL=C PYTHONDONTWRITEBYTECODE=1
unset PYTHONPATH PYTHONHOME
part=$(basename "$0" .sh | tr _ ' ')
is_quick='' plain=()
[ "${1-}" != --quick ] || { is_quick=yes && plain=(-O0 -g0); }
only_built=$is_quick
command -v rt > /dev/null || only_built=yes
python=${PYTHON:-/usr/bin/python3}
corners=$'0 0\n4 0\n4 4\n0 4'
warnings=(-Wall -Wextra -Wpedantic -Wconversion -Werror)
runner=()
passed=0 failed=0 skipped=0
work=$(mktemp -d) || exit 1
trap 'rm -rf "$work"' EXIT

# Counts the test $2, which ended with status $1.
count() {
    if [ "$1" = 0 ]; then passed=$((passed + 1)); else failed=$((failed + 1)) && echo "failed: $2"; fi
}

# Counts the test $1: the words from $2 on, whose output is printed where they fail.
check() {
    "${@:2}" > "$work/log" 2>&1
    local status=$?
    [ "$status" = 0 ] || cat "$work/log"
    count "$status" "$1"
}

fails() { ! "$@"; }

# Counts the test $1: the words from $3 on succeed, and print $2.
prints() {
    local printed
    printed=$("${@:3}") && [ -n "$2" ] && [ "$printed" = "$2" ] || { echo "$1 prints: $printed" && false; }
    count $? "$1"
}

# Adds up what the tests $1, the words from $2 on, count in their last line. If they count nothing, or fail and count no failure, one failure is counted.
add() {
    local its_passed its_failed its_skipped status
    "${@:2}" > "$work/log" 2>&1
    status=$?
    read -r its_passed its_failed its_skipped <<< "$(sed -nE 's/^([a-z. ]+: )?([0-9]+) passed, ([0-9]+) failed(, ([0-9]+) skipped)?$/\2 \3 \5/p' "$work/log" | tail -n 1)"
    if [ $((its_passed + its_failed + its_skipped)) = 0 ] || { [ "$status" != 0 ] && [ "$its_failed" = 0 ]; }; then
        echo "$1: it ended with status $status"
        its_failed=1
    fi
    grep -v ' passed, ' "$work/log"
    [ "$its_failed" = 0 ] || echo "failed: $1: $its_failed"
    passed=$((passed + its_passed))
    failed=$((failed + its_failed))
    skipped=$((skipped + its_skipped))
}

# Counts the tests $1, which are skipped for the reason $2, as one.
skip() { echo "skipped: $1: $2" && skipped=$((skipped + 1)); }

# Whether the words from $3 on succeed. Where they don't, the tests $1 are skipped for the reason $2.
needs() { "${@:3}" > /dev/null 2>&1 || { skip "$1" "$2" && return 1; }; }

# Whether the programs from $2 on are there for the tests $1.
has() {
    local tool
    for tool in "${@:2}"; do
        needs "$1" "there is no $tool" "$tool" --version || return
    done
}

# Whether there are a Python that builds and installs the package, and a Node that runs the one for JavaScript, for the tests $1.
has_python() { needs "$1" "$python has no numpy, setuptools, wheel or venv" "$python" -c 'import numpy.typing, setuptools, wheel, venv, ensurepip'; }
has_node() { needs "$1" 'there is no Node from 20.6 on' node --input-type=module -e 'import.meta.resolve("node:fs")'; }

# Whether cargo builds what the script and its words build, since there is no rt, which would prove it.
takes_cargo() { [ "$*" = bindings/c/build.sh ] && ! command -v rt > /dev/null && command -v cargo > /dev/null; }

# Whether the script $2, with the words from $3 on, builds what the tests $1 need, or has built it. They are skipped where it may not, and fail where it can't.
has_built() {
    [ -z "$only_built" ] || takes_cargo "${@:2}" || needs "$1" "$2 has not built what it needs" bash "$2" --is-built "${@:3}" || return
    bash "$2" "${@:3}" > "$work/log" 2>&1 || { cat "$work/log" && count 1 "$1: what it needs isn't built" && return 1; }
}

# Whether the C library of `make c` is built for the tests $1; where there is no rt, cargo builds it first.
has_c_library() {
    ! takes_cargo bindings/c/build.sh || bash bindings/c/build.sh > "$work/log" 2>&1 || cat "$work/log"
    needs "$1" '`make c` builds the library that it takes' bash bindings/c/build.sh --is-built
}

# Ends the part with the line that counts its tests.
end_part() {
    echo "$part: $passed passed, $failed failed$([ "$skipped" = 0 ] || echo ", $skipped skipped")"
    [ "$failed" = 0 ]
    exit
}

# Whether the compiler makes programs with these flags that run here.
compiles_with() { { echo 'int main(void) { return 0; }' | "${CC:-cc}" -x c "$@" -o "$work/probe" - && "$work/probe"; } > /dev/null 2>&1; }

compile_and_run() { "$1" -O1 -g "${warnings[@]}" -Iinclude -pthread -o "$work/tests" "${@:2}" "${plain[@]}" && "${runner[@]}" "$work/tests"; }

# Compiles the tests $1 of the C library with the command from $2 on, and runs them with the command in the array runner.
test_as() {
    echo "$1"
    add "$1" compile_and_run "${@:2}"
}

# Compares what the library $1 returns with what is recorded. The command from $2 on compiles the program that compares, and the one in the array runner runs it.
compare_hashes() {
    "${@:2}" -std=c11 -O2 "${warnings[@]}" "${plain[@]}" -Iinclude bindings/c/check/hashes.c "$1" -o "$work/hashes" && "${runner[@]}" "$work/hashes" -c "$PWD/bindings/c/check/hashes.txt"
}

test_hashes() { add "$1, the hashes of its answers" compare_hashes "${@:2}"; }

# Runs the tests of C and C++ over the archive $2 under the address sanitizer and valgrind, with other allocators than the archive's. $1 comes before their names.
test_hardened() {
    local tests=("${CC:-cc}" -std=c11 bindings/c/test.c) runner=() sanitizers=(-fsanitize=address,undefined -fno-sanitize-recover=undefined)
    if needs "$1address sanitizer" 'the compiler has none that runs here' compiles_with "${sanitizers[@]}"; then
        test_as "$1address sanitizer" "${tests[@]}" bindings/c/allocator.c "${sanitizers[@]}" "$2"
        test_as "$1address sanitizer, each growth failing" "${tests[@]}" "${sanitizers[@]}" -DOWN_ALLOCATOR "$2"
        test_as "$1address sanitizer, i_shape.hpp" "${CXX:-c++}" -std=c++17 "${sanitizers[@]}" bindings/c/test.cpp "$2"
        test_hashes "$1address sanitizer" "$2" "${CC:-cc}" "${sanitizers[@]}"
    fi
    if has "${1}valgrind" valgrind; then
        runner=(valgrind -q --error-exitcode=9 --leak-check=full)
        test_as "${1}valgrind" "${tests[@]}" -DOWN_ALLOCATOR "$2"
    fi
}

# Compiles the program $3, which prints what the library $2 returns at the width $1, with the command from $4 on.
compile_answers() {
    "${@:4}" -std=c11 -O2 -Wall -Wextra -Werror "-DWIDTH=$1" "-DWIDTH_TWICE=$((2 * $1))" -Iinclude bindings/js/test/native/answers.c "$2" -o "$3"
}

# Prints the names of the calls that the header declares.
declared() {
    "${CC:-cc}" -E -Iinclude include/i_shape.h | grep -v '^static inline' | grep -oE '\bi_shape_[a-z0-9_]+ ?\(' | tr -d ' (' | sort
}

# Prints the output that the page $1 shows for the command with $2 in it.
shown() { awk -v name="$2" '/^```$/ || /^\$ / { is_its = 0 } is_its { print } /^\$ / && index($0, name) { is_its = 1 }' "$1"; }

# Runs the tests of the crate or workspace in this folder. The words are those of cargo test.
test_crate() {
    cargo test --offline --locked --quiet "$@" > "$work/told" 2>&1
    local status=$?
    [ "$status" = 0 ] || cat "$work/told"
    awk '/^test result:/ { passed += $4; failed += $6 } END { print passed + 0 " passed, " failed + 0 " failed" }' "$work/told"
    return $status
}
