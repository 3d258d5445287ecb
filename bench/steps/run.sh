#!/usr/bin/env bash
# Compares each decision with the real code: passes the steps of histories to sch_pie.c of Debian's linux-source-6.1
# and to rte_pie.h of its libdpdk-dev, with the same random words (linux.c, dpdk.c). Prints the number of steps for
# each difference named in docs/PARAMETERS.md, and the audit of sch_pie.c's steps by the proved rules of Linux. The exit
# status is 1 if a step differs without a named difference, or from the proved rules.
# Neither code is kept in this repository: the parts cut out of linux-source-6.1 are in out/.
# usage: bench/steps/run.sh PIE [HISTORY..]      Status 3: a package is missing. HISTORY: with the usual elements; with
# time stamps it is compared with Linux, with the departure rate with DPDK, and then Linux's steps are only audited. By
# default the histories are those of the traces of trace.py and tenth.py.
set -eu
here=$(cd "$(dirname "$0")" && pwd)
top=$here/../..
if [ $# = 0 ] || [ "$1" = --help ]; then
    sed -n '2,9s/^# \{0,1\}//p' "$0"
    [ "${1:-}" = --help ]
    exit
fi
program=$1
shift
# audits Linux's steps on standard input; the status is not 0 if one differs from the proved rules
audit_linux() { "$program" audit; }

source=/usr/src/linux-source-6.1.tar.xz
for file in $source /usr/include/dpdk/rte_pie.h; do
    [ -e $file ] || { echo "missing: $file"; exit 3; }
done
out=$here/out
work=$(mktemp -d)
trap 'rm -rf "$work"' EXIT
mkdir -p "$out"

# Linux's functions, once for each version of the archive, which is read up to the second of these files
version=$(stat --format=%Y-%s $source)
if [ "$(cat "$out/version" 2> /dev/null)" != "$version" ]; then
    xz --decompress --stdout --threads=0 $source |
        tar --extract --occurrence --directory "$work" --strip-components=1 linux-source-6.1/net/sched/sch_pie.c linux-source-6.1/include/net/pie.h
    heads='struct pie_sched_data|bool pie_drop_early(|static int pie_qdisc_enqueue(|void pie_process_dequeue(|void pie_calculate_probability('
    # from a line that begins with one of the heads to the line that closes the function or struct
    awk -v heads="$heads" '
        BEGIN { count = split(heads, head, "|") }
        { for (i = 1; i <= count; i++) if (index($0, head[i]) == 1) open = 1 }
        open { print }
        /^};?$/ { if (open) print ""; open = 0 }' "$work/net/sched/sch_pie.c" > "$out/linux_pie.c"
    grep -v '^#include' "$work/include/net/pie.h" > "$out/linux_pie.h"
    echo "$version" > "$out/version"
fi
by_stamps=() by_rate=()
if [ $# = 0 ]; then
    # decide NAME SCRIPT WORDS..: writes the history of a trace
    decide() { python3 "$here/$2" "${@:3}" > "$work/trace" && "$program" run "$work/trace" > "$work/$1"; }
    # Linux has no limit in bytes; in the last history it is reached. `half` is the decay that DPDK has and Linux hasn't
    decide stamp1 trace.py 1 stamp 100000000000 40 zero 1073741824
    decide stamp2 trace.py 2 stamp 100000000000 40 zero 1073741824
    decide stamp3 trace.py 3 stamp 100000000000 40 half 48448
    decide stamp4 tenth.py
    decide rate1 trace.py 1 rate 0
    decide rate2 trace.py 2 rate 0
    decide rate3 trace.py 3 rate 0 40 half
    set -- "$work"/stamp? "$work"/rate?
fi
for history in "$@"; do
    if [ "$(head -n 1 "$history" | cut -d, -f3)" = stamp ]; then by_stamps+=("$history"); else by_rate+=("$history"); fi
done
flags=(-O1 -Wall -Wextra -Wno-unused -Wno-sign-compare)
sed -f "$here/linux_here.sed" "$out/linux_pie.c" > "$work/linux_here.c"
if [ "$(grep -c 'RULE(' "$work/linux_here.c")" != "$(grep -c 'RULE(' "$here/linux_here.sed")" ]; then
    echo "bench/steps/run.sh: sch_pie.c lacks a line that linux_here.sed exchanges"
    exit 1
fi
"${CC:-cc}" "${flags[@]}" -I "${LINUX_CODE:-$out}" -I "$work" -o "$work/linux" "$here/linux.c" "$top/bindings/linux/watch_text.c" -lm
mkfifo "$work/steps"
status=0

# by_linux OPTIONS HISTORY..: passes the steps of histories to sch_pie.c, and audits its steps
by_linux() {
    audit_linux < "$work/steps" > "$work/audited" &
    "$work/linux" "$work/steps" "${@:2}" || status=1
    wait $! || status=1
    sed "s/^/sch_pie.c's steps$1 by the proved rules of Linux: /" "$work/audited"
}

if [ ${#by_stamps[@]} != 0 ]; then
    by_linux '' "${by_stamps[@]}" > "$work/told"
fi
if [ ${#by_rate[@]} != 0 ]; then
    by_linux ' with dq_rate_estimator and bytemode' "${by_rate[@]}" > "$work/steps_by_rate"
    grep 'by the proved rules of Linux' "$work/steps_by_rate" >> "$work/told" || status=1
fi
# (LINUX_CODE: a folder with other code in the place of Linux's, which alone is tried then)
if [ ${#by_rate[@]} != 0 ] && [ -z "${LINUX_CODE-}" ]; then
    read -ra dpdk <<< "$(pkg-config --cflags libdpdk)"
    "${CC:-cc}" "${flags[@]}" -DALLOW_EXPERIMENTAL_API "${dpdk[@]}" -o "$work/dpdk" "$here/dpdk.c" -lm
    "$work/dpdk" "${by_rate[@]}" >> "$work/told" || status=1
fi
cat "$work/told"
[ $status = 0 ] || exit 1

# each difference by its words, wherever lines of the page end
page=$(tr -s ' \n' ' ' < "$top/docs/PARAMETERS.md")
sed -n 's/^ *[0-9]*  //p' "$work/told" | while IFS= read -r words; do
    grep -q -F -- "$words" <<< "$page" || { echo "bench/steps/run.sh: docs/PARAMETERS.md does not name this difference: $words"; exit 1; }
done
