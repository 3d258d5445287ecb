#!/usr/bin/env bash
# Compares an earlier commit with the present one: the time of an event that pie_book decides (and records). Both run
# in turn, RUNS times (21). Prints the least and the median of each, and their ratios. The exit status is 1 if the two
# decide differently.
# usage: bench/pie_before.sh TESTS_OF_THE_EARLIER_COMMIT TESTS [RUNS]     TESTS: crates/pie_library_tests/out/pie_library_tests
. "$(dirname "$0")/shared.sh"
runs=${3:-21}
for _ in $(seq "$runs"); do
    "$1" book | sed 's/^/before_/'
    "$2" book
done > "$work/lines"
pairs=""
for name in book_decided book_recorded_bounded book_recorded_rolling book_decided_checksum; do
    pairs="$pairs $name/before_$name"
done
python3 "$here/ratios.py" "$work/lines" $pairs
