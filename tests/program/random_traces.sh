#!/usr/bin/env bash
# Runs the built program on random traces, and compares each history with that of tests/shared/reference.py, which looks
# back over the whole list of events and shares no code with the program. Then it audits the history, which must be
# clean, and the history with one changed verdict, which must differ at that event.
# usage: tests/program/random_traces.sh [PROGRAM [FIRST_SEED [RUNS [STEPS]]]]      PROGRAM: crates/pie/out/pie by default
# needs: program
. "$(dirname "$0")/../shared/script.sh"
first=${2:-1}
runs=${3:-16}
steps=${4:-120}
if ! command -v python3 > /dev/null; then
    echo "NOT RUN: $script: no python3 here, so no random traces were compared with the reference"
    exit 0
fi
for seed in $(seq "$first" $((first + runs - 1))); do
    python3 "$top/tests/shared/reference.py" "$work/trace" "$work/want" "$seed" "$steps" || exit 1
    if ! "$program" run < "$work/trace" > "$work/history" || ! cmp -s "$work/history" "$work/want"; then
        echo "$script: seed $seed: another history, or no status 0:"
        diff "$work/want" "$work/history" | head -10
        exit 1
    fi
    events=$(grep -c -E '^(arrive|depart|update|reset|params),' "$work/history")
    found=$("$program" audit < "$work/history")
    status=$?
    if [ "$status $found" != "0 clean,$events" ]; then
        echo "$script: seed $seed: the audit of a history of $events events: status $status, $found"
        exit 1
    fi
    # Another verdict for one of the arrivals, which the seed chooses; its event's number is counted from the records.
    arrivals=$(grep -c '^arrive,' "$work/history")
    number=$(awk -F, -v OFS=, -v chosen=$((seed % arrivals + 1)) -v changed="$work/changed" '
        /^(arrive|depart|update|reset|params),/ { event++ }
        /^arrive,/ && ++arrival == chosen { $8 = $8 == "enqueue" ? "mark" : "enqueue"; print event }
        { print > changed }' "$work/history")
    found=$("$program" audit < "$work/changed")
    status=$?
    if [ "$status $found" != "2 differs,$number" ]; then
        echo "$script: seed $seed: the verdict of event $number was changed: status $status, $found"
        exit 1
    fi
done
echo "$script: $runs random traces of $steps steps: the histories are those of the reference, each is audited clean, and with one verdict"\
    "changed it differs there"
