#!/usr/bin/env bash
# Runs the scenarios over the dumbbell, each with every queue and several seeds, and appends a record of each run to
# FOLDER/results.csv. All scenarios of one seed come before those of the next, so that a stopped batch has the same
# number of runs of each. Runs with a history are skipped, so a stopped batch can be continued. The histories are in
# FOLDER/histories; audit.sh audits them, table.py makes tables. A run has 60 simulated seconds, of which the first
# 10 are the start. Tail drop, whose runs differ little, has three seeds.
# usage: bindings/ns3/scenarios.sh FOLDER [FIRST_SEED] [LAST_SEED] [PROCESSES] [RATES] [QUEUES] [SCENARIO]
#   RATES      in Mbit/s, '10 50' by default
#   QUEUES     'recorded-stamp pie-stamp' by default. Each of recorded and pie alone has the delay by the departure rate;
#              the suffixes -random, -uncapped and -all select optional elements of RFC 8033. pie-mark-stamp is
#              pie-stamp with changed marks; fifo is tail drop. +bounded behind a name: senders whose slow start ends at
#              the threshold
#   SCENARIO   one scenario alone, such as '4 40 0 0' below
set -eu
if [ $# -lt 1 ] || [ "$1" = --help ]; then
    sed -n '2,13s/^# //p' "$0"
    exit 1
fi
here=$(cd "$(dirname "$0")" && pwd)
folder=$1
first=${2:-1}
last=${3:-10}
processes=${4:-2}
rates=${5:-10 50}
queues=${6:-recorded-stamp pie-stamp}
program=$here/out/dumbbell
if [ ! -x "$program" ]; then
    echo "bindings/ns3/scenarios.sh: there is no $program; make -C bindings/ns3 builds it" >&2
    exit 1
fi
mkdir -p "$folder/histories" "$folder/windows"
results=$folder/results.csv
[ -s "$results" ] || "$program" --header=1 --seconds=0.001 --warm-up=0 | head -n 1 > "$results"

# at each rate: flows, round trip, ECN, UDP; there are few, so that each has enough runs for a
# comparison
scenarios='4 40 0 0
30 40 0 0
4 40 1 0'
scenarios=${7:-$scenarios}

one() {
    local program=$1 folder=$2 queue=$3 rate=$4 flows=$5 rtt=$6 ecn=$7 udp=$8 seed=$9
    local name=$queue-$rate-$flows-$rtt-$ecn-$udp-$seed
    [ -e "$folder/histories/$name" ] && return
    "$program" --queue="$queue" --rate="$rate" --flows="$flows" --rtt="$rtt" --ecn="$ecn" --udp="$udp" --seed="$seed" \
        --seconds=60 --warm-up=10 --history="$folder/histories/$name.part" --flows-file=/dev/null --windows="$folder/windows/$name" >> "$folder/results.csv"
    # a queue without a recorder leaves an empty file, which shows that the run was made
    touch "$folder/histories/$name.part"
    mv "$folder/histories/$name.part" "$folder/histories/$name"
}
export -f one

for seed in $(seq "$first" "$last"); do
    for rate in $rates; do
        while read -r flows rtt ecn udp; do
            for queue in $queues; do
                # a FIFO ignores ECN
                [ "$queue" = fifo ] && { [ "$ecn" = 1 ] || [ "$seed" -gt 3 ]; } && continue
                echo "$program $folder $queue $rate $flows $rtt $ecn $udp $seed"
            done
        done <<< "$scenarios"
    done
done | xargs -P "$processes" -L 1 bash -c 'one "$@"' one
