#!/usr/bin/env bash
# Runs run.sh several times, and prints one table: the mean of each figure over the runs, with the
# least and the greatest in brackets.
# usage: examples/link/repeat.sh RUNS PIE FOLDER [SECONDS] [FLOWS] [OPTIONS OF THE LINK..]      RUNS: the number of runs; the others as for run.sh
set -eu
here=$(cd "$(dirname "$0")" && pwd)
if [ $# -lt 3 ]; then
    sed -n '2,3s/^# //p' "$0"
    exit 1
fi
runs=$1 program=$2 folder=$3
shift 3
for run in $(seq "$runs"); do
    mkdir -p "$folder/$run"
    "$here/run.sh" "$program" "$folder/$run" "$@" > "$folder/$run/said" || { cat "$folder/$run/said"; exit 1; }
done
echo "$runs runs; $(grep -m 1 'TCP CUBIC flows' "$folder/1/said")"
echo
grep -m 1 '^| queue' "$folder/1/said" | sed 's/ *| audit |$/ |/;s/  */ /g'
echo '|---|---|---|---|---|---|---|---|---|---|---|'
cat "$folder"/[0-9]*/table | awk -F'|' '
    { sub(/ *$/, "", $2); if (!($2 in runs)) names[++queues] = $2; runs[$2]++
      for (i = 3; i <= 12; i++) { key = $2 "," i; sum[key] += $i
          if (runs[$2] == 1 || $i + 0 < least[key]) least[key] = $i + 0
          if (runs[$2] == 1 || $i + 0 > most[key]) most[key] = $i + 0 } }
    END { for (q = 1; q <= queues; q++) { printf "|%s", names[q]
        for (i = 3; i <= 12; i++) { key = names[q] "," i; form = i == 3 ? "%.2f" : "%.0f"
            printf " | " form " (" form " to " form ")", sum[key] / runs[names[q]], least[key], most[key] }
        print " |" } }'
