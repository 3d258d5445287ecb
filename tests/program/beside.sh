#!/usr/bin/env bash
# Runs short scenarios in user-mode Linux (bench/uml), with this repository's link and with the kernel's queues.
#
# In real time, the link's history is clean, each queue carries traffic and has rows, and both PIEs drop packets of four
# flows that exceed 2 Mbit/s. If flent is installed, it loads the link's run and plots it.
#
# In simulated time, both bottlenecks are compared: four CUBIC flows start behind tail drop here and behind pfifo. The
# goodputs agree within 0.01 % and the waits within 0.1 ms. Two wrong bottlenecks must differ: one delivers at the end
# of a transmission, the other has 0.2 % more rate. UML_LINUX names the Linux with simulated time; if it is not set, the
# one of the user's cache is used. If it is not there, bench/uml/build.sh builds it first.
#
# Prints a line NOT RUN if something is missing.
# usage: tests/program/beside.sh [PROGRAM]      PROGRAM: crates/pie/out/pie by default
# needs: program, library, quiet
. "$(dirname "$0")/../shared/script.sh"
uml=$top/bench/uml
if ! missing=$(env -u UML_LINUX "$uml/install.sh" --check); then
    echo "NOT RUN: $script: no queue of the kernel's beside this one, for want of $(tr '\n' ' ' <<< "$missing")"
    [ -n "${UML_LINUX:-}" ] || exit 0
fi
if ! (cd "$top/crates/pie_c" && { [ -e out/libpie_c.a ] || rt lib; } && make -s -C "$top/examples/link") > "$work/build.log" 2>&1; then
    cat "$work/build.log"
    exit 1
fi
# value QUEUE FIELD: of the row of the whole run
value() {
    awk -F, -v queue="$1" -v field="$2" -v to="$seconds" 'NR == 1 { for (i = 1; i <= NF; i++) place[$i] = i; next }
        $place["queue"] == queue && $place["from"] == 0 && $place["to"] == to { print $place[field]; exit }' "$work/runs/results.csv"
}
# is_full: succeeds if each queue carried and dropped enough; on a machine so slow that they did not, the runs are made again for twice as long
is_full() {
    local queue
    for queue in stamp pie fq_codel; do
        awk -v goodput="$(value $queue goodput)" -v early="$(value $queue early)" -v tail="$(value $queue tail)" -v queue=$queue \
            'BEGIN { exit !(goodput > 0.1 && (queue == "fq_codel" || early + tail > 0)) }' || return 1
    done
}
if [ -z "$missing" ]; then
    for seconds in 4 8 16 32 64; do
        rm -rf "$work/runs"
        (unset UML_LINUX && exec "$uml/beside.py" "$program" "$work/runs" --queues stamp,pie,fq_codel --blocks 1-1 --seconds "$seconds" \
            --rate 2mbit --from 0 --late) > "$work/table" && is_full && break
    done
    cat "$work/table"
    is_full || fail "a queue carried or dropped too little"
    grep -q '"clean,' "$work/runs/results.csv" || fail "no clean history"
    if command -v flent > /dev/null; then
        "$uml/flent_file.py" "$work/runs/own/1-stamp" "$work/run.flent.gz" && (cd "$work" && env -u DISPLAY MPLBACKEND=Agg flent -p totals -o picture.png \
            run.flent.gz && env -u DISPLAY MPLBACKEND=Agg flent -f csv -p totals run.flent.gz) > "$work/flent" 2>&1
        [ -s "$work/picture.png" ] && grep -q 'TCP upload sum' "$work/flent" || fail "flent did not plot the run: $(cat "$work/flent")"
    else
        echo "NOT RUN: $script: no run was plotted, for want of flent"
    fi
fi
if [ -z "${UML_LINUX:-}" ] && ! missing=$("$uml/build.sh" --check); then
    echo "NOT RUN: $script: tail drop beside pfifo in simulated time, for want of $(tr '\n' ' ' <<< "$missing")"
    exit $failed
fi
UML_LINUX=${UML_LINUX:-$("$uml/build.sh" --kept 2> "$work/build.log")} || { tail -n 40 "$work/build.log"; exit 1; }
export UML_LINUX
"$uml/beside.py" "$program" "$work/same" --queues tail,pfifo,late,fast --blocks 1-2 --seconds 4 --from 0 > "$work/table" || fail "$(cat "$work/table")"
# agrees QUEUE: succeeds if the queue agrees with pfifo in both blocks; prints the differences of the goodput as a share, and of the wait in ms
agrees() {
    awk -F, -v ours="$1" 'NR == 1 { for (i = 1; i <= NF; i++) place[$i] = i; next }
        { key = $place["queue"] SUBSEP $place["block"]; goodput[key] = $place["goodput"]; wait[key] = $place["probe"] }
        END { for (block = 1; block <= 2; block++) {
                if (!goodput[ours, block] || !goodput["pfifo", block]) exit 2
                share = goodput[ours, block] / goodput["pfifo", block] - 1; off = wait[ours, block] - wait["pfifo", block]
                print "block " block ": " share, off
                wrong += share > 1e-4 || share < -1e-4 || off > 0.1 || off < -0.1
            }
            exit wrong > 0 }' "$work/same/results.csv" > "$work/off"
}
agrees tail || fail "tail drop here and pfifo differ: $(cat "$work/off")"
for queue in late fast; do
    agrees $queue
    [ $? = 1 ] || fail "a wrong bottleneck ($queue) passes: $(cat "$work/off")"
done
[ $failed = 0 ] && echo "$script: queues of this link and of the kernel, in a Linux in a process; the histories are clean, and both bottlenecks agree"
exit $failed
