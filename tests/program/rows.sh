#!/usr/bin/env bash
# Runs each trace of tests/rows/worked.txt and tests/rows/choices.txt.xz, and compares its history byte for byte with
# the stored one. The heads of both files explain their form. If the trace has a fault, the run must end with that
# fault and status 1. Otherwise the audit of the history must be clean, with the number of lines that are not notes.
# The audit of a stored history without a trace must print its finding.
# usage: tests/program/rows.sh [PROGRAM]      PROGRAM: crates/pie/out/pie by default
# needs: program
. "$(dirname "$0")/../shared/script.sh"
rows=$work/rows
"$top/tests/shared/rows.sh" "$rows"
tried=0
: > "$work/none"
for trace in "$rows"/*.in "$rows"/choices/*.in; do
    name=$(basename "$trace" .in)
    history=${trace%.in}.out
    fault=${trace%.in}.fault
    want=1
    [ -e "$fault" ] || { fault=$work/none want=0; }
    "$program" run < "$trace" > "$work/output" 2> "$work/errors"
    got=$?
    if [ "$got" != "$want" ] || ! cmp -s "$work/errors" "$fault" || ! cmp -s "$work/output" "$history"; then
        echo "$script: $name: status $got, or another history:"
        diff "$history" "$work/output"
        cat "$work/errors"
        failed=1
    fi
    tried=$((tried + 1))
    [ "$want" = 0 ] || continue
    events=$(grep -cvE '^(open|open2|open3|rolling|refused|folded|shown|tallied|clock),' "$history")
    found=$("$program" audit < "$history")
    if [ "$found" != "clean,$events" ]; then
        echo "$script: $name: its audit is $found, and not clean,$events"
        failed=1
    fi
done
audited=0
for history in "$rows"/*.history; do
    audited=$((audited + 1))
    name=$(basename "$history" .history)
    "$program" audit < "$history" > "$work/finding" 2>&1
    if ! cmp -s "$work/finding" "$rows/$name.finding"; then
        echo "$script: $name: its audit is another:"
        diff "$rows/$name.finding" "$work/finding"
        failed=1
    fi
done
if [ "$tried" -lt 62 ]; then
    echo "$script: $tried rows were run, and at least 62 are wanted"
    failed=1
fi
echo "$script: $tried traces, $audited histories"
exit "$failed"
