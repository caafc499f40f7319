#!/usr/bin/env bash
# Runs the tests of the C library for other processors and systems, and under the thread sanitizer. For a thousand texts, the program for aarch64 must print the
# bytes that the one for x86-64 prints. For random calls, builds by two compilers, for two processors, and for Windows must return the same. The library that cargo
# builds is tested on a big-endian machine, at 32 bits, and for Windows.
. "$(dirname "$0")/part.sh" || exit 1
trap end EXIT
export WINEPREFIX=$work/wine
tests=bindings/c/test.c
build=bindings/c/build.sh
of_aarch64=/usr/aarch64-linux-gnu

# Removes what the tests have made. Wine leaves a server behind that keeps its folder.
end() { [ -e "$work/wine" ] && wineserver -k 2> /dev/null; rm -rf "$work"; }

# The sample over the archive $2 prints the corners of its contour, and the tests pass, also with each growth failing. The words from $3 on compile them.
test_archive() {
    "${@:3}" "${warnings[@]}" -Iinclude bindings/c/sample.c "$2" -o "$work/sample" || rm -f "$work"/sample*
    prints "$1: the sample" "$corners" "${runner[@]}" "$work/sample"
    test_as "$1" "${@:3}" $tests "$2"
    test_as "$1, each growth failing" "${@:3}" -DOWN_ALLOCATOR $tests "$2"
    test_hashes "$1" "$2" "${@:3}"
}

has_aarch64() { needs "$1" "there is no C library for it in $of_aarch64" [ -e $of_aarch64/lib/libc.so.6 ] && has "$1" aarch64-linux-gnu-gcc qemu-aarch64; }

test_aarch64() {
    local library=bindings/c/out/aarch64 c=(aarch64-linux-gnu-gcc -std=c11)
    has_aarch64 aarch64 && has_built aarch64 $build --target aarch64 || return
    runner=(qemu-aarch64 -L $of_aarch64 -E LD_LIBRARY_PATH=$library)
    test_archive 'aarch64' $library/libi_shape.a "${c[@]}"
    test_as 'aarch64, shared' "${c[@]}" $tests $library/libi_shape.so
    test_as 'aarch64, static' "${c[@]}" -static $tests $library/libi_shape.a
    has 'aarch64, C++17' aarch64-linux-gnu-g++ && test_as 'aarch64, C++17' aarch64-linux-gnu-g++ -std=c++17 -x c++ $tests -x none $library/libi_shape.a
}

# Runs the tests on a processor without the SSE4.2 of x86-64-v2, on which the default library can't run.
test_old_processor() {
    local library=bindings/c/out/x86-64 c=("${CC:-cc}" -std=c11)
    has x86-64 qemu-x86_64 && has_built x86-64 $build --cpu x86-64 || return
    runner=(qemu-x86_64 -cpu core2duo -E LD_LIBRARY_PATH=$library)
    { compile_and_run "${c[@]}" $tests bindings/c/out/libi_shape.a; } > /dev/null 2>&1
    [ $? = $((128 + $(kill -l ILL))) ]
    count $? 'x86-64: the default library dies by SIGILL'
    test_archive 'x86-64' $library/libi_shape.a "${c[@]}"
    test_as 'x86-64, shared' "${c[@]}" $tests $library/libi_shape.so
}

test_musl() { runner=() && has musl musl-gcc && test_archive musl bindings/c/out/libi_shape.a musl-gcc -std=c11 -static; }

# The sanitizer sees what the tests and the allocator do, but not the library's own accesses: no compiler has instrumented these.
test_thread_sanitizer() {
    runner=()
    needs 'the thread sanitizer' 'the compiler has none that runs here' compiles_with -fsanitize=thread &&
        test_as 'thread sanitizer' "${CC:-cc}" -std=c11 -fsanitize=thread $tests bindings/c/allocator.c bindings/c/out/libi_shape.a
}

# Builds by another compiler, and for another processor, return what the default build returns.
test_builds() {
    has_built 'two builds' $build --backend rattle && has_built 'two builds' $build --cpu x86-64 || return
    "${CXX:-c++}" -std=c++17 -O1 "${warnings[@]}" -Iinclude bindings/c/compare.cpp -o "$work/compare" -ldl
    check 'the builds by LLVM and by Rattle' "$work/compare" 20000 bindings/c/out/{,rattle/}libi_shape.so
    check 'the builds for x86-64-v2 and for each x86-64' "$work/compare" 5000 bindings/c/out/{,x86-64/}libi_shape.so
}

# For each text, and for words that are no command, the program for aarch64 writes the same to both streams as the one for x86-64, and ends with the same status.
# A fifth of the texts have a fault.
test_program() {
    has_aarch64 'the program for aarch64' && has_built 'the program for aarch64' scripts/program/build.sh --target aarch64 || return
    add 'the program for aarch64' "$python" - $of_aarch64 << 'PROGRAM'
import random, subprocess, sys
from concurrent.futures import ThreadPoolExecutor
OUT = "crates/i_shape_tool_main/out"
PROGRAMS = [f"{OUT}/i_shape_tool_main"], ["qemu-aarch64", "-L", sys.argv[1], f"{OUT}/aarch64/i_shape_tool"]
FAULTS = ("1 2 3", "x 1", "1  2 3 4", " 1 2", "1 2 ", "2147483648 0", "1073741824 0 1 1 2 3", "-1073741824 5", "+1 2", "1.5 2", "1 2\r", "\377 1")

def some_text():
    lines = []
    for _ in range(random.randrange(12)):
        reach = random.choice((2, 3, 5, 12, 1000, 1073741823))
        lines.append(" ".join(str(random.randint(-reach, reach)) for _ in range(2 * random.randrange(14))))
    if random.random() < 0.2:
        lines.insert(random.randint(0, len(lines)), random.choice(FAULTS))
    return ("\n".join(lines) + random.choice(("", "\n"))).encode("latin-1")

def is_answered(words, text):
    one, other = (subprocess.run([*program, *words], input=text, capture_output=True) for program in PROGRAMS)
    return (one.returncode, one.stdout, one.stderr) == (other.returncode, other.stdout, other.stderr)

random.seed(7)
texts = [some_text() for _ in range(1000)]
tests = [([command], texts) for command in ("simplify", "despike", "area", "canonical", "compact")] + [(words, [b""]) for words in ([], ["nothing"], ["area", "area"])]
with ThreadPoolExecutor(4) as pool:
    failed = [words for words, given in tests if not all(pool.map(is_answered, [words] * len(given), given))]
for words in failed:
    print("failed: the program for aarch64:", *words)
print(f"{len(tests) - len(failed)} passed, {len(failed)} failed")
PROGRAM
}

by_wine() { (cd "$work" && set -o pipefail && wine "$1.exe" "${@:2}" 2> /dev/null | tr -d '\r'); }

# Writes what the library $2 returns for random contours, at each width, into the folder $1. The words from $3 on compile the program that calls it.
answer_contours() {
    local bits
    mkdir "$1"
    for bits in 16 32 64; do
        compile_answers $bits "$2" "$work/answers" "${@:3}" && "${runner[@]}" "$work/answers" < "$work/contours" > "$1/$bits" && [ -s "$1/$bits" ] || return
    done
}

test_windows() {
    local library=bindings/c/out/windows c=(x86_64-w64-mingw32-gcc -std=c11 -static)
    has Windows "${c[0]}" wine && has_built Windows $build --target windows || return
    runner=(by_wine)
    cp $library/i_shape.dll "$work"
    test_archive 'Windows' $library/libi_shape.a "${c[@]}"
    test_as 'Windows, DLL' "${c[@]}" $tests $library/libi_shape.dll.a
    add 'the tests of retarget.py' python3 bindings/c/windows/test_retarget.py
    prints 'Windows: what the DLL asks for' $'KERNEL32.dll\nmsvcrt.dll' bash -c "x86_64-w64-mingw32-objdump -p $library/i_shape.dll | sed -n 's/^\s*DLL Name: //p' | sort"
    "$python" - << 'PROGRAM' > "$work/contours"
import math, random
random.seed(3)
for _ in range(10000):
    reach, count = int(math.exp(random.uniform(0, 10))), random.randrange(14)
    print(count, *(random.randint(-reach, reach) for _ in range(2 * count + 2)))
PROGRAM
    answer_contours "$work/windows" $library/libi_shape.a "${c[@]}" && runner=() && answer_contours "$work/linux" bindings/c/out/libi_shape.a "${CC:-cc}" &&
        diff -rq "$work/linux" "$work/windows"
    count $? 'Windows: the answers to random contours'
}

# Runs the words from $2 on in the workspace. Cargo uses the compiler $1, of Debian, and builds in a folder of its own.
by_debian() { (cd rust && export RUSTC=$1 CARGO_PROFILE_DEV_DEBUG=0 CARGO_TARGET_DIR=target/elsewhere && "${@:2}"); }

# Runs cargo with the words from $2 on, for the target $1. It also builds Rust's core and alloc for that target, from Debian's sources. Sums that overflow
# would abort.
build_for() {
    RUSTC_BOOTSTRAP=1 by_debian /usr/bin/rustc nice -n 5 cargo --offline --config 'source.crates-io.replace-with="debian"' --config "source.debian.directory='$rust_library/vendor'" \
        --config profile.dev.package.i_shape_c_library.opt-level=1 "${@:2}" -Zbuild-std=core,alloc --locked --quiet --target "$1"
}

# The library that cargo builds for the target $2 returns what is recorded. The C compiler $3 links the test, and the command in the array runner runs it: its
# program is $4.
test_target_hashes() {
    name="cargo for $1" library=$PWD/rust/target/elsewhere/$2/debug/libi_shape.a c=("$3" -std=c11 -static)
    has "$name" "$3" "$4" || return
    rm -f "$library"
    check "$name: the library" build_for "$2" rustc -p i_shape_c_library --lib --crate-type staticlib
    test_hashes "$name" "$library" "${c[@]}"
}

# The same, and the tests of C pass over it.
test_target() {
    local name library c
    test_target_hashes "$@" || return
    test_as "$name" "${c[@]}" $tests "$library"
    # a program can bring its own allocator only where names can be weak
    [[ $2 = *windows* ]] || test_as "$name, each growth failing" "${c[@]}" -DOWN_ALLOCATOR $tests "$library"
}

# All tests run on a big-endian machine, at 32 bits, and where names can't be weak; elsewhere only the hashes. For a target without an operating system, the crate
# for Rust must compile.
test_targets() {
    local name library c rust_library=/usr/lib/rustlib/src/rust/library
    needs 'cargo for other targets' "Debian's rustc-web and rust-web-src aren't installed" dpkg -s rustc-web rust-web-src &&
        has 'cargo for other targets' cargo /usr/bin/rustc || return
    runner=(qemu-s390x) && test_target 's390x, big-endian' s390x-unknown-linux-gnu s390x-linux-gnu-gcc qemu-s390x
    runner=(qemu-i386) && test_target 'i686, 32 bits' i686-unknown-linux-gnu i686-linux-gnu-gcc qemu-i386
    runner=(by_wine) && test_target Windows x86_64-pc-windows-gnu x86_64-w64-mingw32-gcc wine
    runner=(qemu-aarch64) && test_target_hashes aarch64 aarch64-unknown-linux-gnu aarch64-linux-gnu-gcc qemu-aarch64
    runner=(qemu-riscv64) && test_target_hashes riscv64 riscv64gc-unknown-linux-gnu riscv64-linux-gnu-gcc qemu-riscv64
    runner=(qemu-arm) && test_target_hashes 'armv7, 32 bits' armv7-unknown-linux-gnueabihf arm-linux-gnueabihf-gcc qemu-arm
    runner=() && test_target_hashes musl x86_64-unknown-linux-musl musl-gcc musl-gcc
    check 'cargo for thumbv7em: the crate for Rust' build_for thumbv7em-none-eabihf build -p i_shape
}

# The oldest Rust that the packages take compiles them, and the tests of the crate for Rust pass by it. Debian has it beside later ones, so .ci/run unpacks it.
test_oldest_rust() {
    local version its
    version=$(sed -n 's/^rust-version = "\(.*\)"/\1/p' rust/Cargo.toml)
    its=${XDG_CACHE_HOME:-$HOME/.cache}/raspochre/rust-$version/usr
    local -x LD_LIBRARY_PATH=$its/lib/$(uname -m)-linux-gnu
    needs "Rust $version" "$its/bin has none" bash -c '[[ $("$1" --version) = "rustc $2."* ]]' . "$its/bin/rustc" "$version" && has "Rust $version" cargo || return
    check "Rust $version: each package" by_debian "$its/bin/rustc" nice -n 5 cargo --offline check --workspace --lib --bins --tests --examples --locked --quiet
    add "Rust $version: the tests of the crate for Rust" by_debian "$its/bin/rustc" test_crate -p i_shape --tests
}

test_targets
test_oldest_rust
has_built elsewhere $build || end_part
test_aarch64
test_program
test_old_processor
test_musl
test_windows
test_thread_sanitizer
test_builds
end_part
