#!/usr/bin/env bash
# Compares the instructions of a record, for the commands that read a text, with bench/counts.txt
# (bench/pie_text_count.sh). No command may take over 2 per cent more, and bench/peer/run.c must
# write the same bytes as `pie run`. The counts do not depend on the load. The table of
# docs/PERFORMANCE.md must have the stored numbers.
#
# usage: tests/program/text_counts.sh [PROGRAM]      PROGRAM: crates/pie/out/pie by default
# needs: program, library
set -euo pipefail
cd "$(dirname "$0")/../.."
bench/pie_text_count.sh --table | while read -r row; do
    if ! grep -qxF -- "$row" docs/PERFORMANCE.md; then
        echo "tests/program/text_counts.sh: docs/PERFORMANCE.md does not have the row: $row"
        exit 1
    fi
done
bindings/c/library.py > /dev/null
exec bench/pie_text_count.sh "${1:-crates/pie/out/pie}" --within 2
