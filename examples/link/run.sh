#!/usr/bin/env bash
# Sends TCP and ping through the link: by tail drop, by PIE, and by PIE with ECN. Audits the
# histories, explains the first lost packets, prints a table, and draws delay and probability over
# time. Traffic stays in network namespaces of this script.
# usage: examples/link/run.sh PIE FOLDER [SECONDS] [FLOWS] [OPTIONS OF THE LINK..]
#   PIE      the built program, for example crates/pie/out/pie
#   FOLDER   receives the histories, the output of the programs, and the picture
#   SECONDS  of each of the three runs, 20 by default; FLOWS: 4 by default
# `out/link --help` has the link's options. LINK_FAMILY=6 in the environment selects IPv6. Without
# root or /dev/net/tun the script runs in user-mode Linux (bench/uml), if it is installed. Status 1:
# a program is missing, a run failed, or a history is not clean.
set -u
here=$(cd "$(dirname "$0")" && pwd)
if [ $# -lt 2 ] || [ "$1" = --help ]; then
    sed -n '2,11s/^# \{0,1\}//p' "$0"
    [ "${1:-}" = --help ]
    exit
fi
if ! missing=$("$here/../../tests/install.sh" --check examples/link); then
    if "$here/../../bench/uml/helps.sh" "$missing"; then
        make -s -C "$here" && exec "$here/../../bench/uml/run.sh" "$here/run.sh" "$@"
        exit 1
    fi
    echo "$missing"
    echo "examples/link/run.sh: the above is missing, so nothing was run; tests/install.sh examples/link installs what Debian has of it"
    exit 1
fi
program=$1 folder=$2 seconds=${3:-20} flows=${4:-4}
shift $(($# < 4 ? $# : 4))
if [ ! -x "$program" ]; then
    echo "examples/link/run.sh: there is no program $program; (cd crates/pie && rt run) builds crates/pie/out/pie" >&2
    exit 1
fi
make -s -C "$here" || exit 1
# shellcheck source=examples/link/measure.sh
. "$here/measure.sh"

# goodput FILE: the rate at the receiver, in Mbit/s
goodput() {
    awk '/receiver/ { for (i = 2; i <= NF; i++) if ($i == "Kbits/sec") rate = $(i - 1) } END { printf "%.2f", rate / 1000 }' "$1"
}

# round_trips FILE: mean and 99th percentile in ms
round_trips() {
    sed -n 's/.*time=\([0-9.]*\) ms.*/\1/p' "$1" | sort -n |
        awk '{ time[NR] = $1; sum += $1 } END { if (NR) printf "%.1f %.1f", sum / NR, time[int((NR * 99 + 99) / 100)]; else printf "- -" }'
}

# verdicts HISTORY WORDS: the number of arrivals with one of these verdicts
verdicts() {
    grep -c -E "^arrive,.*,($2)\$" "$1"
}

row() {
    local name=$1 where=$2 mean last wait wait_last later late
    read -r mean last <<< "$(round_trips "$where/ping")"
    read -r _ wait _ wait_last <<< "$(waits "$where/history")"
    read -r _ later _ <<< "$(waits "$where/history" 5)"
    late=$(sed -n 's/.* updates, \([0-9]*\) of them later.*/\1/p' "$where/link")
    printf '| %-13s | %7s | %8s | %8s | %7.1f | %8.1f | %10.1f | %6d | %5d | %6d | %5d | %s |\n' "$name" "$(goodput "$where/tcp")" \
        "$mean" "$last" "$wait" "$wait_last" "$later" "$(verdicts "$where/history" early)" "$(verdicts "$where/history" 'bytes|packets')" \
        "$(verdicts "$where/history" mark)" "$late" "$("$program" audit < "$where/history")"
}

measure "$folder/tail" "$seconds" "$flows" "$@" --queue tail || exit 1
measure "$folder/pie" "$seconds" "$flows" "$@" --queue pie || exit 1
measure "$folder/pie-ecn" "$seconds" "$flows" "$@" --queue pie --ecn || exit 1

echo "$flows TCP CUBIC flows and a ping for $seconds s; options of the link: ${*:-the defaults}. Times in ms, goodput in Mbit/s."
echo
echo '| queue         | goodput | RTT mean |  RTT p99 |    wait | wait p99 | after 5 s  |  early |  tail |  marks |  late | audit |'
echo '|---|---|---|---|---|---|---|---|---|---|---|---|'
{
    row 'tail drop' "$folder/tail"
    row 'PIE' "$folder/pie"
    row 'PIE with ECN' "$folder/pie-ecn"
} | tee "$folder/table"
read -r marked wrong bad < "$folder/pie-ecn/counters"
echo
echo "late: updates later than by a whole period, where this machine did not let the link run in time. With ECN the receivers' kernel"
echo "counted $marked packets marked CE, $wrong with a wrong IPv4 checksum and $bad with a bad header."
for name in pie pie-ecn; do
    "$program" explain --lost < "$folder/$name/history" > "$folder/$name/lost"
    echo
    echo "The first packet that was lost by $name:"
    sed -n '1,8p' "$folder/$name/lost" | sed '1b;/^event /,$d'
done
if command -v gnuplot > /dev/null; then
    "$here/draw.sh" "$folder/delay.png" "tail drop=$folder/tail/history" "PIE=$folder/pie/history" "PIE with ECN=$folder/pie-ecn/history" &&
        echo && echo "picture: $folder/delay.png"
else
    echo 'missing: gnuplot, so no picture was drawn'
fi
if [ "$(grep -c '| clean,[0-9]* |$' "$folder/table")" != 3 ]; then
    echo 'examples/link/run.sh: a history is not clean' >&2
    exit 1
fi
