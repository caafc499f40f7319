#!/usr/bin/env bash
# Lays the source archive of a release into a folder that isn't there: the files of the commit, or of the checkout where there is no git or it is such an
# archive, with the Rust that the crate for Rust takes of the proved source in `erased`, and the commit in COMMIT. Cargo builds it as it does a clone.
#
# usage: source.sh FOLDER
set -euo pipefail
top=$(cd "$(dirname "$0")/.." && pwd)
folder=${1:?the folder to lay the sources into}
mkdir "$folder"
if [ ! -e "$top/COMMIT" ] && git -C "$top" rev-parse HEAD > "$folder/COMMIT" 2> /dev/null; then
    git -C "$top" archive HEAD | tar -x -C "$folder"
else
    echo unknown > "$folder/COMMIT"
    # without what builds and tests leave, also while this is packed
    tar --create --exclude={./.git,./erased,./docs/plots,./rust/i_shape_serde/Cargo.lock,out,target,dist,environment,__pycache__} -C "$top" . | tar -x -C "$folder"
fi
work=$(mktemp -d)
trap 'rm -rf "$work"' EXIT
. "$top/scripts/erased.sh"
cp -R "$(erased_of i_shape)" "$folder/erased"
# what is in a release is released
sed -i '/^Not released yet\.$/,+1d' "$folder/CHANGELOG.md"
sed -i 's/, not released yet,/,/' "$folder/README.md"
