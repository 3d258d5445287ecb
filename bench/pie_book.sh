#!/usr/bin/env bash
# Measures an event that pie_book decides (and records), compared with the same steps in C, both in turn, RUNS times
# (9); and the least that a record in C costs (bench/peer/book.h). Prints the least and the median of each, and their ratios. The exit status is 1 if their results differ.
# usage: bench/pie_book.sh TESTS [RUNS]     TESTS: crates/pie_library_tests/out/pie_library_tests
. "$(dirname "$0")/shared.sh"
tests=$1
runs=${2:-9}
${CC:-cc} -O2 -o "$work/pie_book" "$here/pie_book.c"
for _ in $(seq "$runs"); do
    "$tests" book
    "$work/pie_book"
done > "$work/lines"
pairs="book_decided_checksum/c_book_checksum"
for name in book_decided book_recorded_bounded book_recorded_rolling c_book_recorded_bounded c_book_recorded_rolling; do
    pairs="$pairs $name/c_book_decided"
done
python3 "$here/ratios.py" "$work/lines" $pairs
