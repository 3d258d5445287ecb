#!/usr/bin/env bash
# Audits the history of the example in C, which check.sh compares with the stored one. It must be
# clean. With one answer changed, the audit must report that event. The explanations of its events
# must contain their wall-clock times. If a C compiler and the static library are there, the script
# audits random events that the library writes in the same way (events.c).
# usage: bindings/c/audit.sh [PROGRAM]      PROGRAM: crates/pie/out/pie by default
# needs: library, program
set -u
here=$(cd "$(dirname "$0")" && pwd)
program=${1:-$here/../../crates/pie/out/pie}
history=$here/example.history
work=$(mktemp -d)
trap 'rm -rf "$work"' EXIT
events=$(grep -c -E '^(arrive|depart|update|reset|params),' "$history")
found=$("$program" audit < "$history")
if [ "$found" != "clean,$events" ]; then
    echo "bindings/c/audit.sh: the example's history is not clean: $found"
    exit 1
fi
# the first marked packet, as if it had been queued without a mark
marked=$(grep -n -m 1 ',mark$' "$history" | cut -d: -f1)
sed "${marked}s/,mark\$/,enqueue/" "$history" > "$work/changed"
event=$(head -n "$marked" "$history" | grep -c -E '^(arrive|depart|update|reset|params),')
found=$("$program" audit < "$work/changed")
status=$?
if [ "$found" != "differs,$event" ] || [ "$status" != 2 ]; then
    echo "bindings/c/audit.sh: event $event was changed, and the audit answered '$found' with status $status"
    exit 1
fi
echo "bindings/c: the audit finds the example's history clean ($events events), and a changed answer in it"
times=$("$program" explain --all --csv --wall < "$history" | awk -F, 'NR == 2 { first = $NF } END { print first, $NF }')
if [ "$times" != '2026-11-24T20:00:00.000000300Z 2026-11-24T20:00:00.120000000Z' ]; then
    echo "bindings/c/audit.sh: the times of day of the example's first and last event are told as $times"
    exit 1
fi
echo "bindings/c: the example's first and last event are told at $times"
cc=${CC:-cc}
lib=$here/../../crates/pie_c/out/libpie_c.a
if ! command -v "$cc" > /dev/null || [ ! -e "$lib" ]; then
    echo "NOT RUN: bindings/c/audit.sh: no C compiler ($cc) or no static library here, so no random events were audited"
    exit 0
fi
"$cc" -O2 -std=c11 -I"$here/../../include" -o "$work/events" "$here/events.c" "$lib" || exit 1
changed=0
for seed in 1 2 3 4 5 6 7 8 9 10 11 12 13 14 15 16; do
    "$work/events" $seed 3000 > "$work/history" || exit 1
    events=$(grep -c -v -E '^(open|rolling|clock|refused)' "$work/history")
    found=$("$program" audit < "$work/history")
    if [ "$found" != "clean,$events" ]; then
        echo "bindings/c/audit.sh: the random events of seed $seed are not clean: $found"
        exit 1
    fi
    for event in 1 20 300 $((events / 2)) "$events"; do
        "$work/events" $seed 3000 "$event" > "$work/changed" 2> /dev/null
        case $? in
        0) ;;
        3) continue ;; # it is no event any more, and was not written
        *) exit 1 ;;
        esac
        changed=$((changed + 1))
        found=$("$program" audit < "$work/changed")
        if [ "$found" != "differs,$event" ]; then
            echo "bindings/c/audit.sh: of seed $seed event $event was changed, and the audit answered '$found'"
            exit 1
        fi
    done
done
if [ "$changed" -lt 20 ]; then
    echo "bindings/c/audit.sh: too few random events could be changed: $changed"
    exit 1
fi
echo "bindings/c: the audit finds the random events of 16 seeds clean, and each of $changed changed ones"
