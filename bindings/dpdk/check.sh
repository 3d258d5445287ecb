#!/usr/bin/env bash
# Builds the stage for DPDK and pie-fwd, and runs them without huge pages and network cards: the tests of the stage,
# also with the address and thread sanitizers; a slow link under overload beside rte_pie; the events and sums of
# rte_pie in C, beside those of the stage; null ports at full speed; pie-fwd with its files, its history, and its end
# by an interrupt (fwd_test.py). No mbuf may be lost, and each history must be clean or report its gaps, also each
# segment and each text of the flight recorder. Prints a line NOT RUN if libdpdk is not installed.
# usage: bindings/dpdk/check.sh
# needs: program, library, an early start
set -u
here=$(cd "$(dirname "$0")" && pwd)
cd "$here" || exit 1
if ! missing=$(../../tests/install.sh --check bindings/dpdk); then
    echo "NOT RUN: bindings/dpdk: no stage, for want of $(tr '\n' ' ' <<<"$missing")(tests/install.sh bindings/dpdk)"
    exit 0
fi
pie=../../crates/pie/out/pie
work=$(mktemp -d)
trap 'rm -rf "$work"' EXIT
# (--no-shconf allows several programs at once)
eal=(--no-huge -m 512 --no-pci --no-shconf --no-telemetry --log-level=lib.eal:error --log-level=lib.ring:critical)
cpus="(0-$(($(nproc --all) - 1)))"

# Runs a step. If the step fails, prints its output and ends.
step() {
    local name=$1
    shift
    "$@" > "$work/$name.log" 2>&1 && return
    echo "bindings/dpdk/check.sh: $name failed (status $?): $*"
    tail -40 "$work/$name.log"
    exit 1
}

# A history is clean up to its last event, or its audit ends at the first line that reports a gap. An excerpt
# contains the number of events before it.
audited() {
    local gap found wanted
    gap=$(grep -n -m 1 '^lost,' "$1" | cut -d: -f1)
    wanted="$1: clean,$(awk -F, 'NR == 1 { count = $1 == "resume" ? $(NF - 30) : 0; next } $1 !~ /^(queued|clock)$/ { count++ } END { print count }' "$1")"
    [ -z "$gap" ] || wanted="pie: $1: record $gap: unknown kind"
    found=$("$pie" audit "$1" 2>&1)
    # (one more line names the field)
    [ -z "$gap" ] || [ "${found#*$'\n'}" = "$found" ] || [[ ${found#*$'\n'} != "pie: line $gap of $1, field 1 (kind): \"lost\"; "* ]] || found=${found%%$'\n'*}
    [ "$found" = "$wanted" ] && return
    echo "bindings/dpdk/check.sh: an audit says '$found' and not '$wanted'"
    return 1
}

# The interval records of a stage are those of its history, whose parts after the first begin with a preamble; or a
# line has the number of missing records, and only these are missing. The name NAME.records contains the length of
# an interval.
summed() {
    local base=${1%.records} every part=0
    every=$(grep -oE '[0-9]{4,}' <<< "${base##*/}" | head -1)
    {
        cat "$base.history"
        while [ -e "$base-$((++part)).history" ]; do
            grep -vE '^(resume|queued),' "$base-$part.history"
        done
    } > "$work/joined"
    ! grep -q '^lost,' "$work/joined" || return 0
    "$pie" explain --every "${every}ns" --csv --wall "$work/joined" > "$work/explained"
    awk -F, 'NR == FNR { line[NR] = $0; next } $1 == "lost" { at += $2; next } $0 != line[++at] { exit 1 } END { if (at != NR - FNR) exit 1 }' \
        "$work/explained" "$1" && return
    echo "bindings/dpdk/check.sh: the records $1 are not those of its history"
    return 1
}

# (with the lock, because tests/documents/pages.py runs make too)
step build flock . make -s -j2 all out/stage_measure
step build-address make -s -j2 SANITIZE=address out/address/stage_test out/address/pie-fwd
step build-thread make -s SANITIZE=thread out/thread/stage_test
mkdir "$work/plain" "$work/address" "$work/thread"
step test timeout 1200 out/stage_test "${eal[@]}" --lcores "0@$cpus" -- "$work/plain"
step test-address timeout 1200 out/address/stage_test "${eal[@]}" --lcores "0@$cpus" -- "$work/address"
step test-thread timeout 1200 out/thread/stage_test "${eal[@]}" --lcores "0@$cpus" -- "$work/thread" threads
step peer timeout 1200 out/stage_measure "${eal[@]}" --lcores "0@$cpus" -- check
step slow timeout 1200 out/stage_measure "${eal[@]}" --lcores "0@$cpus" -- slow "$work/plain"
step null timeout 1200 out/stage_measure "${eal[@]}" --lcores "(0-1)@$cpus" --vdev=net_null0 --vdev=net_null1 -- rate 0.2 1 "$work/plain/null.history"
for history in "$work"/*/*.history; do
    step audit audited "$history"
done
count=0
for records in "$work"/*/*.records; do
    [ ! -e "${records%.records}.history" ] || { step summed summed "$records"; count=$((count + 1)); }
done
[ $count -ge 11 ] || { echo "bindings/dpdk/check.sh: records of $count stages alone"; exit 1; }
[ "$(grep -L '^lost,' "$work"/plain/*.history | wc -l)" -ge 100 ] || { echo "bindings/dpdk/check.sh: gaps in histories that have none"; exit 1; }
step address timeout 1200 out/address/pie-fwd "${eal[@]}" --vdev=net_null0 --vdev=net_ring0 --lcores "(0-2)@$cpus" -- \
    --total-num-mbufs=8192 --rate 50mbit --for 1s --history /dev/null
step pie-fwd timeout 1200 ./fwd_test.py out/pie-fwd "$pie"
grep '^NOT RUN' "$work/pie-fwd.log"
echo "bindings/dpdk: $(grep -c '^stage_test: ' "$work/test.log") groups of tests, also with sanitizers; no mbuf is lost;" \
    "$(paste -s -d ';' "$work/slow.log"); $(grep -v '^NOT RUN' "$work/pie-fwd.log")"
