#!/usr/bin/env bash
# Builds the pages and a reference of the packages into docs/out, as HTML with a search box: docs/out/index.html is the first page. It needs Debian's
# python3-sphinx, python3-myst-parser, python3-breathe, furo, doxygen and what examples/draw_plots.sh takes, and cargo, but nothing that make builds. It fails if
# Sphinx warns or a link is broken.
#
# usage: site.sh [--has-tools]
set -euo pipefail
TOP=$(cd "$(dirname "$0")/.." && pwd)
export TOP
{ /usr/bin/python3 -c 'import breathe, furo, mapbox_earcut, matplotlib, myst_parser, numpy, shapely, sphinx' && doxygen --version && cargo --version &&
    command -v ncdump && ls /usr/share/gmt-gshhg/binned_GSHHS_i.nc; } > /dev/null || exit
[ "${1-}" != --has-tools ] || exit 0
cd "$TOP"
work=$(mktemp -d)
trap 'rm -rf "$work"' EXIT

doxygen - > "$work/log" 2>&1 << END
INPUT = include/i_shape.h include/i_shape.hpp
INPUT_FILTER = "perl -0p docs/site/comments.pl"
PREDEFINED = __cplusplus=201703L
EXCLUDE_SYMBOLS = i_shape::detail i_shape::PointTraits<* I_SHAPE_CALLS I_SHAPE_TAKES_OFFSETS
GENERATE_HTML = NO
GENERATE_LATEX = NO
GENERATE_XML = YES
OUTPUT_DIRECTORY = "$work/doxygen"
END

mkdir "$work/extra"
# That of a release: of Rust that lies elsewhere, the pages have that folder in their names.
top=$TOP
. scripts/erased.sh
lay_crate "$work/i_shape"
cargo doc --quiet --offline --no-deps --manifest-path "$work/i_shape/Cargo.toml" --target-dir "$work/target"
mv "$work/target/doc" "$work/extra/rust"

library=$(bash scripts/by_cargo.sh i_shape_c_library)
PYTHON=/usr/bin/python3 PYTHONPATH=bindings/python/src I_SHAPE_C_DIR=$library examples/draw_plots.sh docs/plots > "$work/log"

mkdir "$work/source"
ln -s "$TOP"/* "$TOP"/docs/site/{conf.py,*.rst} "$work/source"
/usr/bin/python3 -m sphinx -q -W --keep-going -b html -d "$work/kept" "$work/source" "$work/html"
cp "$work/html/README.html" "$work/html/index.html"
rm -rf docs/out
mv "$work/html" docs/out
/usr/bin/python3 docs/site/links.py docs/out
