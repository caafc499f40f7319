#!/bin/sh
# Writes the LLVM module that rattle makes of a static library. usage: lower.sh CRATE MODULE.bc [WORD OF rt lib..]
# `rt lib` proves the crate, over what it has kept, with a kit that is the one on the path but for its clang: this one copies what it is to compile.
# A module for x86-64 is written as text where its name ends in .ll.
set -eu
here=$(cd "$(dirname "$0")" && pwd)
crate=$1
module=$2
shift 2
clang=$(dirname "$(rt doc)")/toolchain/bin/clang
work=$(mktemp -d)
trap 'rm -rf "$work"' EXIT

sh "$here/link_kit.sh" "$work/kit" toolchain/bin/clang
cat > "$work/kit/toolchain/bin/clang" <<CLANG
#!/bin/sh
for word in "\$@"; do
    case \$word in *.bc) cp "\$word" "$work/module.bc" ;; esac
done
exec "$clang" "\$@"
CLANG
chmod +x "$work/kit/toolchain/bin/clang"

(cd "$crate" && "$work/kit/bin/rt" lib --jobs 1 "$@" < /dev/null > "$work/log" 2>&1) || {
    cat "$work/log" >&2
    exit 1
}
case $module in
*.ll) "$clang" -S -emit-llvm -Xclang -disable-llvm-passes --target=x86_64-unknown-linux-gnu -x ir "$work/module.bc" -o "$module" ;;
*) cp "$work/module.bc" "$module" ;;
esac
