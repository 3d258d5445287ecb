#!/usr/bin/env bash
# Builds the queue discipline and the dumbbell, and runs three simulated seconds with ECN, once with
# RFC 8033's usual elements and once with all others. Packets must be marked and dropped, the
# history must be clean, and the records of intervals must be those of `pie explain`. Each choice
# alone must open a history with its own keywords. Prints a line NOT RUN if ns-3 is not installed.
# usage: bindings/ns3/check.sh [PIE]      PIE: crates/pie/out/pie by default
# needs: program, library, an early start
set -u
here=$(cd "$(dirname "$0")" && pwd)
top=$here/../..
program=$(realpath -m "${1:-$top/crates/pie/out/pie}")
if ! missing=$("$here/../../tests/install.sh" --check bindings/ns3); then
    echo "NOT RUN: bindings/ns3: no simulation, for want of $(tr '\n' ' ' <<<"$missing")(tests/install.sh bindings/ns3)"
    exit 0
fi
work=$(mktemp -d)
trap 'rm -rf "$work"' EXIT
if ! (cd "$top/crates/pie_c" && { [ -e out/libpie_c.a ] || rt lib; } && flock "$here" make -s -C "$here") > "$work/build.log" 2>&1; then
    cat "$work/build.log"
    exit 1
fi
# a choice is read by its own attribute only: the elements in the opening
opens() {
    "$here/out/dumbbell" --queue="recorded$1" --seconds=0.001 --warm-up=0 --history="$work/opening" > /dev/null || exit 1
    grep -q "^$2,0,65536," "$work/opening" || { echo "bindings/ns3/check.sh: recorded$1 opens with $(cat "$work/opening")"; exit 1; }
}
opens '' open3,1,rate,derandomized,capped,unscaled,rolling
opens -stamp open3,1,stamp,derandomized,capped,unscaled,rolling
opens -random open3,1,rate,random,capped,unscaled,rolling
opens -uncapped open3,1,rate,derandomized,uncapped,unscaled,rolling
opens -scaled open3,1,rate,derandomized,capped,scaled,rolling
opens -half open3,1,rate,derandomized,capped,unscaled,half,rolling

# the history of a run is clean, and ns-3 counted the same marks and drops
runs() {
    local queue=$1 events found marks drops
    "$here/out/dumbbell" --queue="$queue" --ecn=1 --seconds=3 --warm-up=0 --history="$work/history" --records="$work/records" --every=0.05 \
        > "$work/record" || exit 1
    "$program" explain --every 50ms --csv "$work/history" > "$work/sums"
    if ! cmp "$work/records" "$work/sums"; then
        echo "bindings/ns3/check.sh: $queue: the records of periods are not those of pie explain"
        exit 1
    fi
    events=$(grep -c -E '^(arrive|depart|update),' "$work/history")
    found=$("$program" audit < "$work/history")
    marks=$(grep -c ',mark$' "$work/history")
    drops=$(grep -c -E ',(early|bytes)$' "$work/history")
    if [ "$found" != "clean,$events" ] || [ "$marks" = 0 ] || [ "$drops" = 0 ]; then
        echo "bindings/ns3/check.sh: $queue: $found of $events events, $marks marks, $drops drops"
        exit 1
    fi
    if ! awk -F, -v marks="$marks" -v drops="$drops" 'END { exit !($17 + $18 == drops && $19 == marks) }' "$work/record"; then
        echo "bindings/ns3/check.sh: $queue: ns-3 counted otherwise than the $marks marks and $drops drops of the history:"
        cat "$work/record"
        exit 1
    fi
    echo "bindings/ns3: the history of a simulation by $queue is clean ($events events, $marks marks, $drops drops)"
}
runs recorded
runs recorded-all
# with Flows, the file has exactly the flows of the history, with their addresses
"$here/out/dumbbell" --queue=recorded --seconds=1 --warm-up=0 --udp=0.5 --history="$work/history" --flows-file="$work/flows" > /dev/null || exit 1
told=$(sed 1d "$work/flows" | cut -d , -f 1 | sort)
found=$("$program" explain --flows 1000 --csv "$work/history" | sed 1d | cut -d , -f 3 | sort)
if [ "$(wc -l <<< "$told")" -lt 2 ] || [ "$told" != "$found" ] || ! grep -q '^0x[0-9a-f]*,udp,10\.[0-9.]*,[0-9]*,10\.[0-9.]*,[0-9]*$' "$work/flows"; then
    echo "bindings/ns3/check.sh: flows of the history: $found; the file has"
    cat "$work/flows"
    exit 1
fi
echo "bindings/ns3: the file lists each flow of the history ($(wc -l <<< "$told") flows)"
