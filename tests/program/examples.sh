#!/usr/bin/env bash
# Runs each trace of examples/. Its history must be the stored one, byte for byte, and audit clean
# with the expected number of events. The numbers of drops, marks, activations and the reset must be
# those of examples/README.md. If python3 is installed, examples/traces.py must make the same
# traces; if gnuplot is installed, each history is drawn.
# usage: tests/program/examples.sh [PROGRAM]      PROGRAM: crates/pie/out/pie by default
# needs: program
. "$(dirname "$0")/../shared/script.sh"
examples=$top/examples

# example NAME EVENTS ENQUEUED MARKED EARLY [BYTES]
example() {
    local name=$1 events=$2 verdicts="$3 enqueued, $4 marked, $5 early, ${6:-0} bytes"
    "$program" run < "$examples/$name.trace" > "$work/history" || fail "$name: the run ends with $?"
    cmp "$work/history" "$examples/$name.history" || fail "$name: another history"
    local found
    found=$("$program" audit < "$work/history")
    [ "$found" = "clean,$events" ] || fail "$name: its audit is $found, and not clean,$events"
    found=$(awk -F, '/^arrive/ { n[$8]++ } /^refused/ { n["refused"]++ }
        END { printf "%d enqueued, %d marked, %d early, %d bytes", n["enqueue"], n["mark"], n["early"], n["bytes"]
              if (n["packets"] + n["refused"]) printf " and others" }' "$work/history")
    [ "$found" = "$verdicts" ] || fail "$name: $found, and not $verdicts"
    if command -v gnuplot > /dev/null; then
        if ! PIE=$program "$examples/plot.sh" "$work/history" "$work/$name.png" 2> /dev/null || ! [ -s "$work/$name.png" ]; then
            fail "$name: no picture"
        fi
    fi
}

example burst 225 99 0 0
example overload 1033 462 0 63
example marks 835 399 5 8
example ignored_marks 1429 563 38 132 17
example off_and_on 180 54 0 0
example reset 789 431 0 19
[ "$(sed -n 's/^shown,.*,\([01]\)$/\1/p' "$examples/off_and_on.history" | tr '\n' ' ')" = '0 1 0 ' ] ||
    fail 'off_and_on: another course of on and off'
[ "$(awk -F, '/^reset/ { after = 1 } /early$/ && after' "$examples/reset.history" | wc -l)" = 0 ] || fail 'reset: a drop after it'
# With mark_ecnth at 100 per cent each pick is a mark, which the sender ignores: the queue is full, and waits are eight
# times the target. With 10 per cent, from 0.6 s on, each pick above that probability is a drop, and from 0.975 s on the
# delay is below the target.
found=$(awk -F, '/^params/ { after = 1 } /^arrive/ { n[after + 0, $8]++ } /^update/ && !after { before = $4 } /^update/ && $3 >= 975000000 && $4 > most { most = $4 }
    END { printf "%d marks, %d early, %d bytes, %d ms; %d marks, %d early, %d bytes, %d ms", n[0, "mark"], n[0, "early"], n[0, "bytes"], before / 1e6, n[1, "mark"],
          n[1, "early"], n[1, "bytes"], most / 1e6 }' "$examples/ignored_marks.history")
[ "$found" = '38 marks, 0 early, 16 bytes, 120 ms; 0 marks, 132 early, 1 bytes, 9 ms' ] || fail "ignored_marks: $found"
[ "$("$program" explain --lost < "$examples/overload.history" | grep -c 'DROPPED early')" = 63 ] || fail 'overload: not each lost packet is explained'
if command -v python3 > /dev/null; then
    mkdir "$work/made"
    python3 "$examples/traces.py" "$work/made"
    for trace in "$examples"/*.trace; do
        cmp "$trace" "$work/made/$(basename "$trace")" || fail "$(basename "$trace") is not what traces.py makes"
    done
fi
exit "$failed"
