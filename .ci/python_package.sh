#!/usr/bin/env bash
# Builds the wheel of the Python package, installs it into an empty virtual environment and runs its tests there, the examples of its docstrings and of
# docs/PYTHON.md among them. It takes the library of `make c`, or of the folder I_SHAPE_C_DIR, and Debian's Python, or the one that $PYTHON names. With
# --quick tests that take seconds are skipped.
. "$(dirname "$0")/part.sh" || exit 1

install_package() {
    PYTHON=$python sh bindings/python/build.sh && "$python" -m venv --system-site-packages "$work/environment" &&
        "$work/environment/bin/python" -m pip install --isolated --no-index --no-deps bindings/python/out/*.whl
}

run_tests() {
    [ -n "$is_quick" ] || export LONG_TESTS=1
    "$work/environment/bin/python" bindings/python/tests > "$work/told" 2>&1
    local status=$?
    if [ "$status" = 0 ]; then grep ' is not tested: ' "$work/told"; tail -n 1 "$work/told"; else cat "$work/told"; fi
    return $status
}

has_python 'python package' || end_part
[ -n "${I_SHAPE_C_DIR-}" ] || has_c_library 'python package' || end_part
install_package > "$work/log" 2>&1 || { cat "$work/log" && count 1 'the wheel' && end_part; }
unset I_SHAPE_C_DIR
add 'the tests' run_tests
end_part
