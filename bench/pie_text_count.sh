#!/usr/bin/env bash
# Counts by valgrind the instructions that the built program takes for a record, independent of the
# load, and compares them with the stored counts (bench/counts.txt). It runs `pie run` on a
# generated trace of RECORDS records; `audit`, `explain --all --csv`, `explain --summary`, `explain
# --flows 8` and `cut --every 1000` on its history, which has one flow; `audit` on its excerpt from
# the second event on, whose first record has 60 fields; and bench/peer/run.c, a program in C over
# the library that writes the same bytes as `pie run`. All instructions of a process count, including
# its start. The exit status is 1 if a count grew, or if the peer writes other bytes.
#
# usage: bench/pie_text_count.sh PROGRAM [--store | --within PERCENT]    after bindings/c/library.py; PROGRAM: crates/pie/out/pie
#        bench/pie_text_count.sh --table
#        --store: writes the counts to bench/counts.txt; --within: only a growth above PERCENT is a failure;
#        --table: prints the stored counts as the table of docs/PERFORMANCE.md
# If LIBRARY is set, it names the static library of the peer, in place of
# crates/pie_c/out/libpie_c.a.
set -eu
cd "$(dirname "$0")/.."
stored=bench/counts.txt
if [ "${1-}" = --table ]; then
    awk '{now[$1] = $2}
        function row(what, name, base) {printf "| %s | %d | %.2f |\n", what, now[name], now[name] / now[base]}
        END {print "| | instructions a record | ratio |\n|---|---|---|"
         row("`bench/peer/run.c`", "peer", "peer")
         row("`pie run`, to the C program", "run", "peer")
         row("`pie audit`", "audit", "audit")
         row("`pie explain --summary`, to the audit", "explain_summary", "audit")
         row("`pie explain --flows 8`, to the audit", "explain_flows", "audit")
         row("`pie explain --all --csv`, to the audit", "explain_csv", "audit")
         row("`pie cut --every 1000`, to the audit", "cut_every", "audit")}' "$stored"
    exit
fi
for tool in "${CC:-cc}" valgrind python3; do
    if ! command -v "$tool" > /dev/null; then
        echo "NOT RUN: bench/pie_text_count.sh: no $tool here, so no instructions were counted"
        exit 0
    fi
done
program=$1
records=20000
within=0
if [ "${2-}" = --within ]; then
    within=$3
fi
work=$(mktemp -d)
trap 'rm -rf "$work"' EXIT
"${CC:-cc}" -O2 -Iinclude -o "$work/peer" bench/peer/run.c "${LIBRARY:-crates/pie_c/out/libpie_c.a}"
python3 bench/trace.py $records 1 plain > "$work/trace"
"$program" run < "$work/trace" > "$work/history"
if ! "$work/peer" < "$work/trace" | cmp - "$work/history"; then
    echo "bench/pie_text_count.sh: the peer writes other bytes than pie run"
    exit 1
fi

# count NAME INPUT COMMAND..: writes the name and the instructions of a record
count() {
    local name=$1 input=$2
    shift 2
    valgrind --tool=callgrind --callgrind-out-file=/dev/null "$@" < "$input" > /dev/null 2> "$work/$name.said"
    echo "$name $(($(awk '/Collected/ {print $NF}' "$work/$name.said") / records))" > "$work/$name.count"
}
count run "$work/trace" "$program" run &
count audit "$work/history" "$program" audit &
count explain_csv "$work/history" "$program" explain --all --csv &
count explain_summary "$work/history" "$program" explain --summary &
count explain_flows "$work/history" "$program" explain --flows 8 &
count cut_every "$work/history" "$program" cut --every 1000 &
"$program" cut --event $records --around $((records - 2)) < "$work/history" > "$work/excerpt"
count audit_excerpt "$work/excerpt" "$program" audit &
count peer "$work/trace" "$work/peer" &
wait
cat "$work"/{run,audit,explain_csv,explain_summary,explain_flows,cut_every,audit_excerpt,peer}.count > "$work/counted"
if [ "${2-}" = --store ]; then
    cp "$work/counted" "$stored"
fi
awk -v within="$within" 'NR == FNR {before[$1] = $2; next}
    {has_grown = $1 != "peer" && $2 * 100 > before[$1] * (100 + within); grew += has_grown; now[$1] = $2
     note = has_grown ? ": IT GREW" : $2 < before[$1] ? ": fewer" : ""
     printf "%-15s %4d instructions a record, stored %4d%s\n", $1, $2, before[$1], note}
    END {printf "run to the peer %.2f; to the audit: explain_csv %.2f, explain_summary %.2f, explain_flows %.2f, cut_every %.2f\n",
         now["run"] / now["peer"], now["explain_csv"] / now["audit"], now["explain_summary"] / now["audit"],
         now["explain_flows"] / now["audit"], now["cut_every"] / now["audit"]
     exit grew > 0}' "$stored" "$work/counted"
