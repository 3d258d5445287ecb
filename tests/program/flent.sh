#!/usr/bin/env bash
# Runs flent's own tests through the link in user space (examples/link), while four TCP flows fill
# its queue: `ping` (ICMP, and UDP by irtt) and `voip` (a packet each 20 ms, by irtt). flent must
# load and plot its data file without a display. No round trip may be below the link's delay, and
# the link's history must be clean. flent's tests of TCP need netperf, which is not free software,
# and are omitted. Prints a line NOT RUN if a requirement is missing.
# usage: tests/program/flent.sh [PROGRAM]      PROGRAM: crates/pie/out/pie by default
# needs: program, library, root
. "$(dirname "$0")/../shared/script.sh"
for command in flent irtt; do
    command -v $command > /dev/null || { echo "NOT RUN: $script: no test of flent's, for want of $command"; exit 0; }
done
. "$top/tests/shared/through_link.sh" iperf3 python3 flent irtt
export MPLBACKEND=Agg HOME=$work
unset DISPLAY

# has_server NAME: succeeds if irtt's server has its port, 2112
has_server() {
    ip netns exec "$1" grep -q ':0840 ' /proc/net/udp /proc/net/udp6
}

# one TEST SERIES: runs a test of flent with TCP. Status 1 if flent wrote fewer series: on a busy machine the first
# packets of irtt may be too late
one() {
    local test=$1
    folder=$work/$1-$try
    begin "$folder" --history "$folder/history" --rate 5mbit --rtt 10ms --limit 100p || exit 1
    (within "${names[2]}" irtt server -b "$far:2112") > "$folder/irtt" 2>&1 &
    started+=($!)
    wait_for has_server "${names[2]}" || exit 1
    send "$folder" 60 4
    (cd "$folder" && within "${names[0]}" flent "$test" --length 5 --step-size 0.2 --host "$far" --title link) > "$folder/flent" 2>&1
    kill -TERM "$process"
    wait "$process"
    clean_up
    "$program" audit < "$folder/history" | grep -q '^clean,' || fail "$test: the history is not clean"
    python3 - "$folder" > "$folder/values" <<'END'
import gzip, json, pathlib, sys
for path in pathlib.Path(sys.argv[1]).glob("*.flent.gz"):
    with gzip.open(path, "rt") as file:
        for name, values in json.load(file)["raw_values"].items():
            values = [it["val"] for it in values if it.get("val") is not None]
            if len(values) > 1:
                print(name, min(values), sep=",")
END
    [ "$(wc -l < "$folder/values")" -ge "$2" ]
}

bound=600
while read -r test plot series least; do
    for try in 1 2 3 4 5 6 7 8; do
        one "$test" "$series" && break
    done
    [ "$(wc -l < "$folder/values")" -ge "$series" ] || { fail "$test: flent wrote too few values: $(cat "$folder/flent")"; continue; }
    awk -F, -v least="$least" '/^Ping/ && $2 < least { exit 1 }' "$folder/values" || fail "$test: a time below $least ms: $(cat "$folder/values")"
    (cd "$folder" && flent -p "$plot" -o picture.png ./*.flent.gz && flent -f csv -p "$plot" ./*.flent.gz) > "$folder/loaded" 2>&1
    [ -s "$folder/picture.png" ] && grep -q "$(sed 's/,.*//; q' "$folder/values")" "$folder/loaded" ||
        fail "$test: flent did not plot its file: $(cat "$folder/loaded")"
done <<< 'ping ping 2 10
voip voip_delay 1 0'
[ $failed = 0 ] && echo "$script: flent's ping and voip tests run through the link, and flent plots them"
exit $failed
