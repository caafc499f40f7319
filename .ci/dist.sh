#!/usr/bin/env bash
# Packs what a release holds, by scripts/dist.sh, and tries each archive as someone who has nothing else of the project: unpacked into an empty folder, with
# no rt on the path. Prints how long the first sample of each takes. Packed again in another time zone, and, where a namespace can be made, as another user,
# each archive has the same bytes.
. "$(dirname "$0")/part.sh" || exit 1
top=$PWD
empty="$work/an empty folder"
version=$(scripts/version.sh)
soname=$(scripts/version.sh --soname)
old_processor=(qemu-x86_64 -cpu core2duo)
aarch64=(qemu-aarch64 -L /usr/aarch64-linux-gnu -E LD_LIBRARY_PATH=lib)
unset I_SHAPE_C_DIR
# The copy that the gate tests has no commits.
git log -1 > /dev/null 2>&1 || export SOURCE_DATE_EPOCH=${SOURCE_DATE_EPOCH:-1000000000}

# The third stream is that of this script.
exec 3>&1

# Runs the words from $2 on, and says how many seconds they took.
timed() {
    local began=${EPOCHREALTIME/./} status took
    "${@:2}"
    status=$?
    took=$(((${EPOCHREALTIME/./} - began + 50000) / 100000))
    echo "$1: $((took / 10)).$((took % 10)) s" >&3
    return $status
}

is_packed() { [[ " ${parts[*]} " == *" $1 "* ]]; }

# Plans to pack the part $1, if the script $2 has built, or can build, the default and then what is for the machine $3.
plan_for() {
    local words=(--cpu x86-64)
    if [ "$3" = aarch64 ]; then
        words=(--target aarch64)
        has "$1" aarch64-linux-gnu-gcc || return
    fi
    has_built "$1" "$2" && has_built "$1" "$2" "${words[@]}" && parts+=("$1")
}

# Goes into an empty folder, whose name has a space.
go_to_empty() { rm -rf "$empty" && mkdir "$empty" && cd "$empty" || exit; }

# Unpacks the archive $2 of the part $1 into an empty folder, and goes into it. The words from $3 on are the files that it must have.
unpack() {
    go_to_empty
    tar -xzf "$work/dist/$2" && cd ./*/ || { count 1 "$1: unpacked" && return 1; }
    check "$1: its files" diff <(printf '%s\n' "${@:3}" | sort) <(find . -type f,l | sed 's|^\./||' | sort)
}

# The program that the command from $2 on compiles prints the corners, run with the command in the array runner.
prints_corners() {
    "${@:2}" -o "$work/program" > "$work/log" 2>&1 || cat "$work/log"
    prints "$1" "$corners" "${runner[@]}" "$work/program"
    rm -f "$work/program"
}

# Whether the library or program $1 needs only libc.so.6, of glibc 2.$2 or later, sets no path to look for it, and has no executable stack.
needs_glibc() {
    [ "$(readelf -dW "$1" | sed -nE 's/.*\((NEEDED|RPATH|RUNPATH)\).*\[(.*)\]/\1 \2/p')" = 'NEEDED libc.so.6' ] &&
        ! readelf --dyn-syms -W "$1" | awk -v most="$2" '$7 == "UND" && $8 != "" && ($5 != "WEAK" || $8 ~ /@/) && !(split($8, parts, /@GLIBC_2[.]/) == 2 &&
            parts[2] + 0 <= most) { print $8 }' | grep . && readelf -lW "$1" | grep -qE 'GNU_STACK .* RW +[0-9a-fx]+$'
}

# Whether the library or program $1 binds all names at its start, has a build-id, and has no symbols but the dynamic ones. rpm looks only into an executable
# library.
is_hardened() {
    readelf -dW "$1" | grep -qE '\(FLAGS_1\).*NOW' && readelf -lW "$1" | grep -q GNU_RELRO && readelf -nW "$1" | grep -q 'Build ID: ' &&
        ! readelf -SW "$1" | grep -q ' \.symtab ' && { [[ $1 != *.so* ]] || [ "$(stat -Lc %a "$1")" = 755 ]; }
}

# Whether PROOF, or the file $2, is about the crate $1, and has the sums of the sources and files that are here.
is_proof_of() {
    local file=${2-PROOF} name sum
    [ "$(head -n 1 "$file")" = "crate $1" ] && grep -q "^sources $1 " "$file" || return
    while read -r name sum; do
        [ "$(cd "$top/crates/$name" && find ../../crates.txt ../../HANDLES src specs proofs -type f 2> /dev/null | sort | xargs sha256sum | sha256sum)" = "$sum  -" ] || return
    done < <(sed -n 's/^sources //p' "$file")
    grep -q '^file ' "$file" && sha256sum --quiet -c <(sed -nE 's/^file (.*) ([0-9a-f]+)$/\2  \1/p' "$file")
}

# Each function that the header declares was proved, and so was the whole, for the machine $1.
is_proved() {
    is_proof_of i_shape_c_calls && diff <(declared) <(sed -nE 's/^fn .*::(i_shape_[a-z0-9_]+): proved$/\1/p' PROOF | sort) && grep -q '^fn .*: proved$' PROOF &&
        grep -q "^logic=proved .* target=$1-unknown-linux-gnu " PROOF && ! grep -q cpu= PROOF
}

loads_faster() { grep -q sse4_2 /proc/cpuinfo && ldd --version | grep -qE ' 2\.(3[3-9]|[4-9][0-9])$'; }

# The archive for x86-64 has a second library, for x86-64-v2, with a proof of its own. The loader takes it where it can.
test_faster() {
    local its=lib/glibc-hwcaps/x86-64-v2/libi_shape.so.$soname
    needs_glibc "$its" 17 && grep -q '^logic=proved .* cpu=x86-64-v2 ' PROOF.x86-64-v2
    count $? 'linux-x86_64: the library for x86-64-v2, and its proof'
    check 'linux-x86_64: what the second proof is of' is_proof_of i_shape_c_calls PROOF.x86-64-v2
    check 'linux-x86_64: each proof is of one crate' diff <(printf '%s\n' PROOF:1 PROOF.x86-64-v2:1) <(grep -c '^logic=' PROOF*)
    check 'linux-x86_64: the functions of both proofs' diff <(grep '^fn ' PROOF) <(grep '^fn ' PROOF.x86-64-v2)
    check 'linux-x86_64: how the library for x86-64-v2 is hardened' is_hardened "$its"
    "${CC:-cc}" -std=c11 -Iinclude sample/sample.c lib/libi_shape.so -o "$work/program"
    if needs 'linux-x86_64: the loader takes it' 'the processor is before x86-64-v2, or glibc before 2.33' loads_faster; then
        [ "$(LD_LIBRARY_PATH=lib LD_DEBUG=files "$work/program" 2> "$work/log")" = "$corners" ] && grep -q "calling init: $its$" "$work/log"
        count $? 'linux-x86_64: the loader takes it'
    fi
    has 'linux-x86_64: a processor before x86-64-v2' qemu-x86_64 || return
    prints 'linux-x86_64: the loader of an older processor takes the other' "$corners" "${old_processor[@]}" -E LD_LIBRARY_PATH=lib "$work/program"
    runner=("${old_processor[@]}")
    prints_corners 'linux-x86_64: a processor before x86-64-v2' "${CC:-cc}" -std=c11 -Iinclude sample/sample.c lib/libi_shape.a
}

# The five commands of the archive's page, each of which prints the corners at its end.
test_page() {
    local command tool found=0
    while read -r command; do
        found=$((found + 1))
        for tool in cmake pkg-config; do
            [[ $command != *"$tool "* ]] || has "linux-x86_64: $command" $tool || continue 2
        done
        timed "linux-x86_64: $command" bash -c "$command" > "$work/log" 2>&1 < /dev/null && [ "$(tail -n 4 "$work/log")" = "$corners" ] || { cat "$work/log" && false; }
        count $? "linux-x86_64: $command"
    done < <(sed -n 's/^    //p' README.md | sed '/\\$/ { N; s/\\\n *// }')
    [ $found = 5 ] || count 1 "linux-x86_64: its page has $found commands"
}

# The samples of the pages of C and C++ print what these show.
test_samples() {
    local page source compiler
    for page in C CPP; do
        compiler=("${CC:-cc}" -std=c11)
        [ $page = C ] || compiler=("${CXX:-c++}" -std=c++17)
        for source in $(sed -nE 's/^\$ (cc|c\+\+) .*-Iinclude ((bindings\/c|examples)\/[a-z]*\.(c|cpp)) .*/\2/p' "$top/docs/$page.md"); do
            # that needs Clipper's headers
            [ "$source" != bindings/c/clipper.cpp ] || continue
            "${compiler[@]}" -Iinclude "sample/${source##*/}" lib/libi_shape.a -o "$work/program" > "$work/log" 2>&1 || cat "$work/log"
            prints "linux-x86_64: sample/${source##*/}" "$(shown "$top/docs/$page.md" "$source")" "$work/program"
        done
    done
}

# The archive is installed into the folders of a machine, where CMake and pkg-config find it, and uninstalled.
test_installed_by_cmake() {
    local prefix=$work/prefix folder
    cmake -S . -B own "-DCMAKE_INSTALL_PREFIX=$prefix" -DCMAKE_INSTALL_LIBDIR=lib/x86_64-linux-gnu -DCMAKE_INSTALL_INCLUDEDIR="$1" > "$work/log" 2>&1 &&
        cmake --build own >> "$work/log" 2>&1 && cmake --install own >> "$work/log" 2>&1 || cat "$work/log"
    check "linux-x86_64: cmake --install, $1: its files" diff <(printf '%s\n' "$1"/i_shape.{h,hpp} lib/x86_64-linux-gnu/{libi_shape.{a,so{,."$soname",."$version"}},pkgconfig/i_shape.pc} \
        lib/x86_64-linux-gnu/{cmake/i_shape/i_shape-{config,config-version,targets}.cmake,glibc-hwcaps/x86-64-v2/libi_shape.so.{"$soname","$version"}} | sort) \
        <(cd "$prefix" && find . -type f,l | sed 's|^\./||' | sort)
    cmake -S sample/consumer -B installed "-DCMAKE_PREFIX_PATH=$prefix" > "$work/log" 2>&1 && cmake --build installed >> "$work/log" 2>&1 || cat "$work/log"
    prints "linux-x86_64: cmake --install, $1: CMake finds it" "$corners" installed/shared_in_cpp
    folder=$(PKG_CONFIG_PATH="$prefix/lib/x86_64-linux-gnu/pkgconfig" pkg-config --variable=includedir i_shape) && [ -e "$folder/i_shape.h" ] &&
        folder=$(PKG_CONFIG_PATH="$prefix/lib/x86_64-linux-gnu/pkgconfig" pkg-config --variable=libdir i_shape) && [ -e "$folder/libi_shape.so" ] &&
        folder=$(PKG_CONFIG_PATH="$prefix/lib/x86_64-linux-gnu/pkgconfig" pkg-config --variable=prefix i_shape) && [ "$folder" -ef "$prefix" ]
    count $? "linux-x86_64: cmake --install, $1: pkg-config finds it"
    cmake --build own --target uninstall > "$work/log" 2>&1 && [ -z "$(find "$prefix" ! -type d)" ]
    count $? "linux-x86_64: cmake --build --target uninstall, $1"
    rm -rf "$prefix" own installed
}

# Someone moves the folder of the libraries, as a package for a machine does: CMake finds the headers above it.
test_moved() {
    local root="$work/moved"
    mkdir -p "$root/usr/lib/x86_64-linux-gnu" && cp -R include "$root/usr" && cp -RP lib/* "$root/usr/lib/x86_64-linux-gnu"
    cmake -S sample/consumer -B moved "-DCMAKE_PREFIX_PATH=$root/usr" > "$work/log" 2>&1 && cmake --build moved >> "$work/log" 2>&1 || cat "$work/log"
    prints 'linux-x86_64: CMake, where the libraries were moved' "$corners" moved/static_in_c
    rm -rf "$root" moved
}

# A shared library over the static one exports none of its calls.
test_hidden() {
    local folder="$work/plugin"
    mkdir -p "$folder"
    printf '%s\n' 'cmake_minimum_required(VERSION 3.13)' 'project(plugin LANGUAGES C)' 'find_package(i_shape REQUIRED)' 'add_library(plugin SHARED plugin.c)' \
        'target_link_libraries(plugin PRIVATE i_shape::static)' > "$folder/CMakeLists.txt"
    printf '%s\n' '#include <i_shape.h>' 'uint32_t plugin(void);' 'uint32_t plugin(void) { return i_shape_version(); }' > "$folder/plugin.c"
    cmake -S "$folder" -B "$folder/build" "-DCMAKE_PREFIX_PATH=$PWD" > "$work/log" 2>&1 && cmake --build "$folder/build" >> "$work/log" 2>&1 || cat "$work/log"
    prints 'linux-x86_64: a shared library over the static one' plugin bash -c 'nm -D --defined-only "$1" | sed "s/.* //"' . "$folder/build/libplugin.so"
    rm -rf "$folder"
}

test_linux() {
    local faster=()
    [ "$1" != x86_64 ] || faster=(PROOF.x86-64-v2 lib/glibc-hwcaps/x86-64-v2/libi_shape.so.{"$soname","$version"})
    unpack "linux-$1" "i_shape-$version-linux-$1.tar.gz" CMakeLists.txt LICENSE Makefile NOTICE PROOF README.md check/{CMakeLists.txt,hashes.{c,h,txt}} include/i_shape.{h,hpp} install.cmake \
        lib/libi_shape.{a,so{,."$soname",."$version"}} lib/cmake/i_shape/i_shape-{config,config-version,targets}.cmake lib/pkgconfig/i_shape.pc \
        sample/{consumer/CMakeLists.txt,{clean,codes,polygons,sample}.c,{codes,sample}.cpp} "${faster[@]}" || return
    check "linux-$1: what the kit said of the proof" is_proved "$1"
    check "linux-$1: what its library asks for" needs_glibc lib/libi_shape.so 17
    check "linux-$1: how its library is hardened" is_hardened lib/libi_shape.so
}

# Its commands have built the project of CMake, if there is one.
test_x86_64() {
    local program
    test_linux x86_64 || return
    test_faster
    test_page
    add 'linux-x86_64: make check' make -s check
    test_samples
    has 'linux-x86_64: CMake' cmake pkg-config || return
    for program in {i_shape,static,shared}_in_{c,cpp}; do
        prints "linux-x86_64: CMake: $program" "$corners" "build/$program"
    done
    test_installed_by_cmake include
    test_installed_by_cmake include/of_its_own
    test_moved
    test_hidden
    check 'linux-x86_64: ctest' bash -c 'cmake -S . -B own && cmake --build own && ctest --test-dir own --no-tests=error'
    cmake -S sample/consumer -B fetched -DI_SHAPE_ARCHIVE="$work/dist/i_shape-$version-linux-x86_64.tar.gz" > "$work/log" 2>&1 &&
        cmake --build fetched >> "$work/log" 2>&1 || cat "$work/log"
    prints 'linux-x86_64: CMake, by FetchContent' "$corners" fetched/shared_in_c
}

test_aarch64() {
    local c=(aarch64-linux-gnu-gcc -std=c11 -Iinclude sample/sample.c)
    test_linux aarch64 && has 'linux-aarch64: C' aarch64-linux-gnu-gcc qemu-aarch64 || return
    runner=("${aarch64[@]}")
    timed 'linux-aarch64: its first sample' prints_corners 'linux-aarch64: C' "${c[@]}" lib/libi_shape.a
    prints_corners 'linux-aarch64: C, shared' "${c[@]}" lib/libi_shape.so
    make -s check CC=aarch64-linux-gnu-gcc > /dev/null 2>&1
    add 'linux-aarch64: make check' "${runner[@]}" check/hashes -c check/hashes.txt
}

# The program for the machine $1 prints the corners, as the command on its page does. The words from $2 on run it.
test_program() {
    unpack "program-$1" "i_shape_tool-$version-linux-$1.tar.gz" LICENSE NOTICE PROOF README.md bin/i_shape_tool share/man/man1/i_shape_tool.1 || return
    check "program-$1: the version of its man page" grep -q "i_shape_tool $version\"" share/man/man1/i_shape_tool.1
    check "program-$1: what it asks for" needs_glibc bin/i_shape_tool 34
    check "program-$1: it binds all names at its start" bash -c 'readelf -dW bin/i_shape_tool | grep -qE "\(FLAGS_1\).*NOW"'
    check "program-$1: what its proof is of" is_proof_of i_shape_tool_main
    check "program-$1: what the kit said of the proof" grep -q "^logic=proved .* target=$1-unknown-linux-gnu " PROOF
    has "program-$1: its answer" "$2" || return
    timed "program-$1: its answer" prints "program-$1: its answer" '0 0 4 0 4 4 0 4' "${@:2}" bin/i_shape_tool simplify < <(echo 0 0 2 0 4 0 4 4 0 4)
}

# The name and the metadata of the wheel for the machine $1 have that machine, and the wheel holds the libraries of the archive, of which its PROOFs are.
test_wheel() {
    go_to_empty
    "$python" -m zipfile -e "$work/dist/i_shape-$version-py3-none-manylinux_2_17_$1.whl" . && grep -qx "Tag: py3-none-manylinux_2_17_$1" i_shape-*.dist-info/WHEEL &&
        ! grep -q 'Purelib: true' i_shape-*.dist-info/WHEEL && [ -e i_shape/__init__.py ] && [ -e i_shape/py.typed ] && [ -e "i_shape-$version.dist-info/LICENSE" ] && [ -e "i_shape-$version.dist-info/NOTICE" ] &&
        tar -xzOf "$work/dist/i_shape-$version-linux-$1.tar.gz" "i_shape-$version-linux-$1/lib/libi_shape.so.$version" | cmp - i_shape/libi_shape.so
    count $? "wheel-$1: its tag and files"
    check "wheel-$1: what its library asks for" needs_glibc i_shape/libi_shape.so 17
    [ "$1" = x86_64 ] || return
    needs_glibc i_shape/libi_shape-v2.so 17 && ! cmp -s i_shape/libi_shape-v2.so i_shape/libi_shape.so &&
        tar -xzOf "$work/dist/i_shape-$version-linux-$1.tar.gz" "i_shape-$version-linux-$1/lib/glibc-hwcaps/x86-64-v2/libi_shape.so.$version" |
        cmp - i_shape/libi_shape-v2.so
    count $? 'wheel-x86_64: the library for x86-64-v2'
}

# The Python $1, which has the package installed, prints what the samples on the package's page show.
shows_page() {
    "$1" - << 'PROGRAM'
import doctest, importlib.metadata, re
page = re.sub("^```.*", "", importlib.metadata.metadata("i_shape").get_payload(), flags=re.MULTILINE)
told = doctest.DocTestRunner().run(doctest.DocTestParser().get_doctest(page, {}, "README.md", None, 0))
raise SystemExit(told.failed or not told.attempted)
PROGRAM
}

# pip takes the wheel of this machine, which works, and not that of another.
test_installed() {
    local own=$work/environment/bin/python wheels=$work/dist/i_shape-$version-py3-none-manylinux_2_17
    local pip=("$own" -m pip install --isolated --no-index --no-deps)
    go_to_empty
    "$python" -m venv --system-site-packages "$work/environment" > "$work/log" 2>&1 || cat "$work/log"
    timed 'wheel-x86_64: installed' "${pip[@]}" "${wheels}_x86_64.whl" > "$work/log" 2>&1 || cat "$work/log"
    timed 'wheel-x86_64: what its page shows' check 'wheel-x86_64: installed, and what its page shows' shows_page "$own"
    # that for x86-64-v2 is loaded where the processor has it, and the other one where it hasn't
    check 'wheel-x86_64: the library that the processor takes' "$own" - << 'PROGRAM'
import builtins, io, pathlib, i_shape._library as library
assert pathlib.Path(library._library._name).name == ("libi_shape-v2.so" if "sse4_2" in open("/proc/cpuinfo").read() else "libi_shape.so")
builtins.open = lambda path: io.StringIO("flags : fpu sse sse2 ssse3 popcnt cx16 lahf_lm\n")
assert library._path().name == "libi_shape.so"
PROGRAM
    is_packed wheel-aarch64 || return
    ! "${pip[@]}" "${wheels}_aarch64.whl" > "$work/log" 2>&1 && grep -q 'not a supported wheel' "$work/log"
    count $? 'wheel-aarch64: rejected on x86_64'
}

# Prints the first sample in the language $1 on the package's page, or the first of these with the word $2.
sample_of() {
    awk -v RS='\n```\n' -v opening="(^|\n)\`\`\`$1\n" -v word="${2-}" 'match($0, opening) && index($0, word) { print substr($0, RSTART + RLENGTH); exit }' node_modules/i_shape/README.md
}

# Whether the number $1, within three hundredths, is what a page says, $2.
is_near() { [ $((100 * ($1 > $2 ? $1 - $2 : $2 - $1))) -le $((3 * $1)) ]; }

# The module is as large as docs/JAVASCRIPT.md says.
test_size() {
    local said module=out/i_shape32.wasm
    read -r -a said < <(sed -nE 's/^The module has some ([0-9,]+) bytes, or ([0-9,]+) after gzip.*/\1 \2/p' "$top/docs/JAVASCRIPT.md" | tr -d ,)
    [ ${#said[@]} = 2 ] && is_near "$(stat -c %s "$module")" "${said[0]}" && is_near "$(gzip -9 < "$module" | wc -c)" "${said[1]}"
    count $? 'javascript: the size of the module, as its page says'
}

# The samples on the package's page run where the package lies as if it were installed.
test_javascript() {
    local chromium=$top/bindings/js/test/support/chromium.js has_chromium='process.exit((await import(process.argv[1])).noChromium ? 1 : 0)'
    unpack javascript "i_shape-$version-javascript.tgz" LICENSE NOTICE README.md out/i_shape32.wasm package.json src/{arrays,contacts,errors,faults,geojson,i_shape,loading,memory,options}.js \
        src/{i_shape,module}.d.ts || return
    test_size
    has 'javascript: the files that npm packs' npm &&
        check 'javascript: the files that npm packs' diff <(npm pack --dry-run --offline --json | grep -oP '"path": "\K[^"]+' | sort) <(find . -type f | sed 's|^\./||' | sort)
    has_node 'javascript: what its page shows' || return
    mkdir ../node_modules && cd .. && mv package node_modules/i_shape
    sample_of js > sample.mjs
    timed 'javascript: what its page shows' prints 'javascript: what its page shows' '0 0 4 0 4 4 0 4' node sample.mjs
    sample_of js cleanFeatures > features.mjs
    prints 'javascript: what its page shows of features' 'Berlin [[[13.1,52.3],[13.7,52.3],[13.7,52.6],[13.1,52.3]]]' node features.mjs
    sample_of html > index.html
    needs 'javascript: what its page shows in a browser' 'there is no chromium' node --input-type=module -e "$has_chromium" "$chromium" || return
    check 'javascript: what its page shows in a browser' node --input-type=module - "$chromium" << 'PROGRAM'
const { Browser, serve } = await import(process.argv[2]);
const { server, url } = await serve(".");
const browser = await Browser.open();
try {
    await browser.goTo(url);
    await browser.until("document.body?.textContent.trim() === `0 0 4 0 4 4 0 4`");
} finally {
    await browser.close();
    server.close();
}
PROGRAM
}

# Whether each of the files is a module of the file that has the name of its folder.
are_modules() {
    local file
    for file; do
        grep -qE "^(pub(\(crate\))? )?mod $(basename "$file" .rs);" "$(dirname "$file").rs" || { echo "no module: $file" && return 1; }
    done
}

# The crate passes its tests, with what its build script leaves of the proved source in place of that script.
test_rust() {
    local archive=i_shape-$version-rust.tar.gz its erased
    its=$(cd "$top/rust/i_shape" && find examples src tests -type f)$(cd "$top/rust/i_shape_serde" && find Cargo.toml src tests -type f -printf '\nserde/%p')
    erased=$(tar -tzf "$work/dist/$archive" | sed -nE 's|^[^/]*/(src/erased/.*[.]rs)$|\1|p')
    unpack rust "$archive" LICENSE README.md Cargo.{lock,toml} examples/clean.rs $its $erased && has 'rust: its tests' cargo || return
    check 'rust: each erased file is a module' are_modules $erased
    timed 'rust: its example' prints 'rust: its example' "$corners" cargo run --offline --locked --quiet --example corners
    add 'the crate for Rust' test_crate
}

# Whether the shared library in the folder $1 is executable, and the static one holds no code of LLVM.
are_as_expected() { [ "$(stat -Lc %a "$1/libi_shape.so")" = 755 ] && ! grep -q '[.]llvmbc' <(readelf -SW "$1/libi_shape.a"); }

# The flags that pkg-config gives to a system with the prefix $2 and the libraries in the folder $3 of it, installed below $1.
flags_in_system() {
    local flags
    flags=$(PKG_CONFIG_PATH=$1$2/$3/pkgconfig PKG_CONFIG_SYSTEM_INCLUDE_PATH=$2/include PKG_CONFIG_SYSTEM_LIBRARY_PATH=$2/$3 pkg-config --cflags --libs i_shape)
    echo $flags
}

# The archive of the C library in source. Cargo builds it once, for the sample of its page; the other builds take what that has built.
test_c() {
    local archive=i_shape-$version-c.tar.gz erased command folder prefix=$work/prefix root=$work/root
    erased=$(tar -tzf "$work/dist/$archive" | sed -nE 's|^[^/]*/(rust/src/erased/.*[.]rs)$|\1|p')
    unpack c "$archive" CMakeLists.txt LICENSE NOTICE README.md check/{CMakeLists.txt,hashes.{c,h,txt}} cmake/i_shape{-config.cmake.in,-config-version.cmake.in,-targets.cmake,.pc.in} \
        cmake/install.cmake include/i_shape.{h,hpp} rust/{.cargo/config.toml,Cargo.{lock,toml},build.rs,src/{erased,host,lib,wasm}.rs} \
        sample/{consumer/CMakeLists.txt,{clean,codes,polygons,sample}.c,{codes,sample}.cpp} $erased || return
    check 'c: each erased file is a module' are_modules $erased
    has 'c: its samples' cmake pkg-config "${CXX:-c++}" || return
    command=$(sed -n 's/^    \(cmake -S sample.*\)/\1/p' README.md)
    timed "c: $command" bash -c "$command" > "$work/log" 2>&1 < /dev/null && [ "$(tail -n 4 "$work/log")" = "$corners" ] || { cat "$work/log" && false; }
    count $? "c: $command"
    prints 'c: add_subdirectory, the shared library' "$corners" corners/shared_in_cpp
    folder=lib/x86_64-linux-gnu
    cmake -S . -B build "-DI_SHAPE_TARGET_DIR=$PWD/corners/i_shape/cargo" "-DCMAKE_INSTALL_PREFIX=$prefix" -DCMAKE_INSTALL_LIBDIR=$folder > "$work/log" 2>&1 &&
        cmake --build build >> "$work/log" 2>&1 && DESTDIR=$root cmake --install build >> "$work/log" 2>&1 || cat "$work/log"
    check 'c: what is installed' diff <(printf '%s\n' include/i_shape.{h,hpp} $folder/{libi_shape.{a,so{,."$soname",."$version"}},pkgconfig/i_shape.pc} share/doc/i_shape/{LICENSE,NOTICE,README.md} \
        $folder/cmake/i_shape/i_shape-{config,config-version,files,targets}.cmake | sort) <(cd "$root$prefix" && find . -type f,l | sed 's|^\./||' | sort)
    check 'c: ctest' ctest --test-dir build --no-tests=error
    mv "build/lib/libi_shape.so.$soname" . && check 'c: ctest, where the shared library is gone' fails ctest --test-dir build
    mv "libi_shape.so.$soname" build/lib
    check 'c: its libraries' are_as_expected "$root$prefix/$folder"
    check "c: its library's name" grep -q "SONAME.*\[libi_shape.so.$soname\]" <(readelf -dW "$root$prefix/$folder/libi_shape.so")
    cmake -S sample/consumer -B installed "-DCMAKE_PREFIX_PATH=$root$prefix" -DI_SHAPE_VERSION="$version" > "$work/log" 2>&1 && cmake --build installed >> "$work/log" 2>&1 || cat "$work/log"
    prints 'c: find_package, the static library' "$corners" installed/static_in_c
    prints 'c: find_package, the shared library' "$corners" installed/shared_in_cpp
    "${CC:-cc}" sample/sample.c $(PKG_CONFIG_SYSROOT_DIR=$root PKG_CONFIG_PATH="$root$prefix/$folder/pkgconfig" pkg-config --cflags --libs i_shape) \
        -o corners/by_pkg_config > "$work/log" 2>&1 || cat "$work/log"
    prints 'c: pkg-config' "$corners" env LD_LIBRARY_PATH="$root$prefix/$folder" corners/by_pkg_config
    prints 'c: pkg-config, for folders of a system' -li_shape flags_in_system "$root" "$prefix" $folder
    DESTDIR=$root cmake --build build --target uninstall > "$work/log" 2>&1 && [ -z "$(find "$root" ! -type d)" ]
    count $? 'c: what is installed is removed'
    check 'c: FetchContent' cmake -S sample/consumer -B fetched "-DI_SHAPE_ARCHIVE=$work/dist/$archive"
    ! cmake -S . -B none -DI_SHAPE_CARGO=true > "$work/log" 2>&1 && grep -q 'cargo 1.85 or later builds' "$work/log"
    count $? 'c: without cargo'
    test_c_names x86_64-pc-windows-msvc bin/i_shape.dll lib/i_shape.{dll.lib,lib}
    test_c_names x86_64-pc-windows-gnu bin/i_shape.dll lib/libi_shape.{a,dll.a}
    test_c_names aarch64-apple-darwin lib/libi_shape.{"$soname.dylib","$version.dylib",a,dylib}
}

# For the target $1 CMake installs the libraries from $2 on. In place of cargo a script writes empty files, so that only their names are tried.
test_c_names() {
    rm -rf names named
    printf '%s\n' '#!/bin/sh' '[ "$1" != --version ] || exec printf "cargo 1.85.0\nhost: none\n"' \
        'while [ "$1" != --target-dir ]; do [ "$1" != --target ] || target=$2; shift; done' 'mkdir -p "$2/$target/release" && cd "$2/$target/release" &&' \
        'touch i_shape.dll i_shape.dll.lib i_shape.lib libi_shape.a libi_shape.dll.a libi_shape.dylib' > stand_in && chmod +x stand_in
    cmake -S . -B names "-DI_SHAPE_CARGO=$PWD/stand_in" "-DI_SHAPE_RUST_TARGET=$1" "-DCMAKE_INSTALL_PREFIX=$PWD/named" -DCMAKE_INSTALL_LIBDIR=lib > "$work/log" 2>&1 &&
        cmake --build names --target i_shape_by_cargo >> "$work/log" 2>&1 && cmake -P names/cmake_install.cmake >> "$work/log" 2>&1 || cat "$work/log"
    check "c: the names for $1" diff <(printf '%s\n' "${@:2}" | sort) <(cd named && find bin lib -maxdepth 1 -type f,l 2> /dev/null | sort)
}

# pip builds the source distribution by cargo, and stops without one that is new enough. Only the names of its files are tried for other systems.
test_python() {
    local own=$work/from_source/bin/python archive=$work/dist/i_shape-$version.tar.gz pip
    pip=("$own" -m pip install --isolated --no-index --no-deps --no-build-isolation)
    go_to_empty
    "$python" -m venv --system-site-packages "$work/from_source" > "$work/log" 2>&1 || cat "$work/log"
    timed 'python: built and installed' "${pip[@]}" "$archive" > "$work/log" 2>&1 || cat "$work/log"
    check 'python: what is installed beside it' ls "$work"/from_source/lib/python3*/site-packages/i_shape-"$version".dist-info/{LICENSE,NOTICE}
    timed 'python: what its page shows' check 'python: what its page shows' shows_page "$own"
    tar -xzf "$archive" && cd ./*/ || { count 1 'python: unpacked' && return 1; }
    check 'python: each erased file is a module' are_modules $(find rust/src/erased -name '*.rs')
    add 'python: what it makes of cargo' "$own" - << 'PROGRAM'
import json, os, runpy, sys
from pathlib import Path
import setuptools
setuptools.setup = lambda **words: None
folder = Path("another").resolve()
folder.mkdir()
files = [str(folder / name) for name in ("libi_shape.a", "libi_shape.so", "libi_shape.dylib", "i_shape.dll.lib", "i_shape.dll")]
tests = {}

def library(system, version, built=files):
    """What setup.py takes for the package where a cargo of this version has built these files, or what it ends with."""
    told = json.dumps({"reason": "compiler-artifact", "filenames": built})
    (folder / "cargo").write_text(f"#!/bin/sh\ncase $1 in --version) echo '{version}' ;; *) echo '{told}' ;; esac\n")
    (folder / "cargo").chmod(0o755)
    own, sys.platform = sys.platform, system
    try:
        return str(runpy.run_path("setup.py")["library"]())
    except SystemExit as end:
        return end.code
    finally:
        sys.platform = own

os.environ |= {"PATH": f"{folder}:/usr/bin:/bin", "CARGO_BUILD_TARGET": "another"}
for system, name in ("linux", "libi_shape.so"), ("freebsd14", "libi_shape.so"), ("darwin", "libi_shape.dylib"), ("win32", "i_shape.dll"):
    tests[system] = library(system, "cargo 1.85.0 (d73d2caf9 2024-12-31)") == str(folder / name)
tests["an older cargo"] = "is cargo 1.84.1." in library("linux", "cargo 1.84.1")
tests["another target"] = "has built no libi_shape.so" in library("linux", "cargo 1.95.0", files[:1])
del os.environ["CARGO_BUILD_TARGET"]
tests["what Python can't load"] = "can't load" in library("linux", "cargo 1.95.0")
os.environ["PATH"] = "/nowhere"
tests["no cargo"] = "there is none that runs" in library("linux", "")
os.environ["I_SHAPE_C_DIR"] = str(folder)
tests["no library"] = "I_SHAPE_C_DIR is" in library("linux", "")
(folder / "libi_shape.so").touch()
tests["a built library"] = library("linux", "") == str(folder / "libi_shape.so")
failed = [name for name, passed in tests.items() if not passed]
for name in failed:
    print("failed: python:", name)
print(f"{len(tests) - len(failed)} passed, {len(failed)} failed")
PROGRAM
}

# What pages and proofs name is there, with the Rust that the crate's archive has, and cargo alone runs the program.
test_source() {
    go_to_empty
    tar -xzf "$work/dist/i_shape-$version-source.tar.gz" && cd ./*/ || { count 1 'source: unpacked' && return 1; }
    check 'source: definitions, examples and measurements' ls COMMIT NOTICE SECURITY.md crates/i_shape_{core,laws,contacts}/specs/Lib.antt examples/theorem.py bench/run.sh
    check 'source: it is released' fails grep -qi 'not released yet' CHANGELOG.md README.md
    prints 'source: its program, by cargo' '0 0 4 0 4 4 0 4' ./i_shape_tool simplify < <(echo 0 0 2 0 4 0 4 4 0 4)
    check 'source: packed from itself' bash -c 'env -u SOURCE_DATE_EPOCH bash scripts/dist.sh ../own source && cmp "../own/$1" "$2/$1"' . \
        "i_shape-$version-source.tar.gz" "$work/dist"
    mv COMMIT ..
    ! env -u SOURCE_DATE_EPOCH bash scripts/dist.sh ../none source > "$work/log" 2>&1 && grep -q 'set SOURCE_DATE_EPOCH' "$work/log"
    count $? 'source: without a commit'
    is_packed rust || return
    mkdir ../rust && tar -xzf "$work/dist/i_shape-$version-rust.tar.gz" -C ../rust --strip-components=1
    check 'source: the Rust without contracts' diff -r --exclude=mod.rs ../rust/src/erased erased
}

# The list of what a release holds has each archive with its sum.
test_list() {
    check 'the list of what is packed' diff <(grep -v 'spdx[.]json$' "$work/dist/SHA256SUMS") <("$python" - "$work/dist/i_shape-$version.spdx.json" << 'PROGRAM'
import json, sys
for its in json.load(open(sys.argv[1]))["packages"]:
    for its_sum in its.get("checksums", []):
        print(its_sum["checksumValue"], its["packageFileName"], sep="  ")
PROGRAM
    )
}

# The pages of a release say that it is one, and name no folder of a clone for what an archive has.
test_site() {
    local part
    go_to_empty
    tar -xzf "$work/dist/i_shape-$version-site.tar.gz" && cd ./*/ || { count 1 'site: unpacked' && return 1; }
    check 'site: it is released' fails grep -rliE 'not released yet' .
    check 'site: its first page' test -s index.html
    check 'site: the calls of C++' grep -q 'simplify_contours' cpp.html
    check 'site: it names no folder in which it was built' fails grep -rlF "$top" .
    # the archives of the library have the samples that the pages of C and C++ compile, except that over Clipper
    for part in linux-x86_64 c; do
        is_packed $part || continue
        check "site: the samples of its pages are in the archive of $part" diff <(grep -ohE '(bindings/c|examples)/[a-z]+\.(c|cpp)' docs/{C,CPP}.html |
            sed 's|.*/|sample/|; /clipper/d' | sort -u) <(tar -tzf "$work/dist/i_shape-$version-$part.tar.gz" | sed -nE 's,^[^/]*/(sample/[a-z]+\.(c|cpp))$,\1,p' | sort)
    done
}

parts=()
for machine in x86_64 aarch64; do
    plan_for "linux-$machine" bindings/c/build.sh $machine
    plan_for "program-$machine" scripts/program/build.sh $machine
    has_python "wheel-$machine" && needs "wheel-$machine" 'its library is not packed' is_packed "linux-$machine" && parts+=("wheel-$machine")
done
needs javascript 'there is no Rust for WebAssembly: `make wasm` says what to install' bash bindings/js/build.sh --can-build && parts+=(javascript)
# Building the site fails if a link is broken.
if [ -n "$only_built" ]; then skip site 'it is not built'; else needs site 'scripts/site.sh has not what it needs' bash scripts/site.sh --has-tools && parts+=(site); fi
needs rust 'there is no cargo from 1.85 on' cargo metadata --offline --no-deps --format-version 1 --manifest-path rust/Cargo.toml && parts+=(rust)
# Each of the other sources is built once more, which `make test` leaves to the gate.
if [ -z "$is_quick" ] && [[ " ${parts[*]} " == *' rust '* ]]; then parts+=(source c) && has_python python && parts+=(python); fi
[ ${#parts[@]} != 0 ] || end_part
bash scripts/dist.sh "$work/dist" "${parts[@]}" > "$work/log" 2>&1 || { cat "$work/log" && count 1 'scripts/dist.sh' && end_part; }
another_user=(unshare --user --map-user=1000 --map-group=1000)
"${another_user[@]}" true 2> /dev/null || another_user=()
(umask 077 && TZ=Asia/Kathmandu "${another_user[@]}" bash scripts/dist.sh "$work/again" "${parts[@]}") > "$work/log" 2>&1 || cat "$work/log"
for archive in "$work"/dist/*; do
    check "${archive##*/}: packed again" cmp "$archive" "$work/again/${archive##*/}"
done
(cd "$work/dist" && sha256sum --quiet -c SHA256SUMS && diff <(ls) <(sed 's/^[0-9a-f]*  //' SHA256SUMS | cat - <(echo SHA256SUMS) | sort))
count $? 'SHA256SUMS'
test_list
bash scripts/dist.sh "$work/again" "${parts[0]}" > "$work/log" 2>&1 && cmp "$work/dist/SHA256SUMS" "$work/again/SHA256SUMS"
count $? 'SHA256SUMS, after one part is packed again'
# without the folders that hold the kit
PATH=$(tr : '\n' <<< "$PATH" | while read -r folder; do [ -x "$folder/rt" ] || [ -x "$folder/rattle" ] || echo "$folder"; done | paste -sd :)
! command -v rt > /dev/null
count $? 'there is no rt on the path'
is_packed linux-x86_64 && test_x86_64
is_packed linux-aarch64 && test_aarch64
is_packed wheel-aarch64 && test_wheel aarch64
is_packed wheel-x86_64 && test_wheel x86_64 && test_installed
is_packed program-x86_64 && test_program x86_64 "${old_processor[@]}"
is_packed program-aarch64 && test_program aarch64 "${aarch64[@]}"
is_packed javascript && test_javascript
is_packed rust && test_rust
is_packed source && test_source
is_packed c && test_c
is_packed python && test_python
is_packed site && test_site
end_part
