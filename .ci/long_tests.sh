#!/usr/bin/env bash
# Runs the test of the lists of six points of a grid in crates/i_shape_core_tests over all 46,656 of them; `rt test` runs it over one of eleven.
. "$(dirname "$0")/part.sh" || exit 1
program=crates/i_shape_core_tests/out/i_shape_core_tests_tests
test=small_grid::lists_of_six_points_are_cleaned_as_by_plain_loops

{ [ -x $program ] && [ -z "$(find crates crates.txt \( -name out -o -name wrong -o -name must-fail \) -prune -o -type f -newer $program -print -quit)" ]; } ||
    (cd crates/i_shape_core_tests && rt test) &&
    LONG_TESTS=1 timeout 300 $program $test | grep -qx 'test result: ok'
count $? $test
end_part
