#!/usr/bin/env bash
# Measures histories per second on a Dask cluster of this machine with 1, 2 and 4 workers, compared with xargs with
# as many processes of the same two commands. Each number of workers has as many histories as xargs processes
# in about SECONDS; the whole command is timed, with the start of its Python and the writing of the table.
# usage: fleet/measure.sh PROGRAM [SECONDS EVENTS RUNS]     PROGRAM: crates/pie/out/pie; 20 s, 100000 events, 1 run; of several the least
set -eu
program=$(realpath "$1") seconds=${2:-20} events=${3:-100000} runs=${4:-1}
here=$(cd "$(dirname "$0")" && pwd)
python=python3
"$python" -c 'import distributed' 2>/dev/null || python=/usr/bin/python3
work=$(mktemp -d)
trap 'kill $(jobs -p) 2>/dev/null; wait 2>/dev/null; rm -rf "$work"' EXIT
export PATH="$(dirname "$program"):$PATH"
export DASK_CONFIG=$here/dask.yaml

# four histories, under as many names as a count of workers takes
mkdir "$work/made"
for n in 1 2 3 4; do
    "$here/../bench/trace.py" "$events" "$n" mixed | pie run > "$work/made/$n"
done
printf '%s\n' '#!/bin/sh' 'pie audit "$1" && pie explain --summary --csv "$1"' > "$work/one"
chmod +x "$work/one"

# named COUNT FOLDER: COUNT names
named() {
    mkdir "$2"
    for n in $(seq "$1"); do ln "$work/made/$((n % 4 + 1))" "$2/link$n.history"; done
}

# took COMMAND..: the least wall time of the runs, in seconds
took() {
    local best=1e9
    for _ in $(seq "$runs"); do
        local from=$(date +%s.%N)
        "$@" > /dev/null
        best=$(awk -v a="$best" -v f="$from" -v t="$(date +%s.%N)" 'BEGIN { d = t - f; print d < a ? d : a }')
    done
    echo "$best"
}

by_xargs() { find "$2" -name '*.history' -print0 | xargs -0 -n 1 -P "$1" "$work/one"; }
by_dask() { (cd "$here" && "$python" -m pie_fleet --scheduler "$1" "$2/*.history" -o "$work/table.csv" --force --quiet); }

# cluster WORKERS: begins it, and leaves its address in $address
cluster() {
    local place=$work/scheduler$1
    "$python" -m distributed.cli.dask_scheduler --host 127.0.0.1 --port 0 --no-dashboard --scheduler-file "$place" > "$work/log" 2>&1 &
    "$python" -m distributed.cli.dask_worker --scheduler-file "$place" --nworkers "$1" --nthreads 1 --no-dashboard --local-directory "$work" \
        > "$work/log$1" 2>&1 &
    until [ "$(grep -c 'Register worker' "$work/log" 2>/dev/null)" = "$1" ]; do sleep 0.2; done
    address=$(sed -n 's/.*"address": "\([^"]*\)".*/\1/p' "$place" | head -n 1)
}

named 16 "$work/first"
by_xargs 1 "$work/first" > /dev/null
each=$(awk -v t="$(took by_xargs 1 "$work/first")" 'BEGIN { print t / 16 }')
echo "histories of some $events events, some $seconds s each; $(nproc) processors, load before: $(cut -d' ' -f1 /proc/loadavg)"
echo "| workers | histories | xargs, histories a second | Dask | ratio |"
echo "|---|---|---|---|---|"
for workers in 1 2 4; do
    many=$(awk -v w="$workers" -v s="$seconds" -v e="$each" 'BEGIN { printf "%d", w * s / e + 1 }')
    named "$many" "$work/histories$workers"
    cluster "$workers"
    x=$(took by_xargs "$workers" "$work/histories$workers")
    d=$(took by_dask "$address" "$work/histories$workers")
    awk -v n="$many" -v w="$workers" -v x="$x" -v d="$d" 'BEGIN { printf "| %d | %d | %.1f | %.1f | %.2f |\n", w, n, n / x, n / d, x / d }'
    kill $(jobs -p) 2>/dev/null || true
    wait 2>/dev/null || true
done
