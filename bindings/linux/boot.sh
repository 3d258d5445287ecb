#!/usr/bin/env bash
# Boots a kernel of Debian under qemu with two processors, and sends TCP and UDP through its own pie and fq_pie, whose steps pie-watch records
# (boot_init.sh): a queue that exists before pie-watch, a created one with the rate estimator beside another device's, one with flows, and one with a ring
# buffer that is too small. pie decides each step again, among them at least five enqueues for each of PACKETS. sums.py compares the steps with the counters
# of tc: no number may be missing, and each lost step must be counted. Segments are decided alone. Then pie-watch must refuse what it does not know, and the
# verifier must not need half as many instructions more than in verified.txt. It takes 1.7 minutes of a processor.
#
# --kernel 6.12
#           boots the kernel of Debian 12's backports (kernel.sh)
# PIE       the program that decides the steps again, crates/pie/out/pie by default
# BYTES     the bytes of TCP, and of UDP, of one phase
# PACKETS   the packets of the kernel's packet generator that one flood queues; it sends a packet that was dropped again. 40000: 200,000 enqueues
# THREAD    single: one thread runs the two processors by turns. multi: each has a thread; qemu 7.2 may then execute an instruction that the kernel has
#           replaced while pie-watch attaches, and the kernel hangs
# ROOT      has a kernel's boot/ and lib/modules/, of an installed package (/, the default) or an unpacked one
# HEADERS   the folder above the kernel's headers, /usr/src by default
# needs: program, an early start
#
# usage: [PIE=program] [BYTES=1M] [PACKETS=4000] [THREAD=single] [HEADERS=folder] [KEEP=folder for all files] bindings/linux/boot.sh [--kernel 6.12] [ROOT]
set -eu
cd "$(dirname "$0")/../.."
me=bindings/linux/boot.sh
# shellcheck source=kernel.sh
. bindings/linux/kernel.sh
pie=${PIE:-$PWD/crates/pie/out/pie}
[ -x "$pie" ] || { echo "NOT RUN: $me: no program $pie"; exit 0; }
for program in clang bpftool; do
    PATH=$PATH:/usr/sbin command -v $program > /dev/null || { echo "NOT RUN: $me: no $program here (bindings/linux/install.sh)"; exit 0; }
done
[ -e /usr/include/bpf/libbpf.h ] || { echo "NOT RUN: $me: no libbpf here (bindings/linux/install.sh)"; exit 0; }
# shellcheck source=../kernel/guest.sh
. bindings/kernel/guest.sh
case $release in
    6.1.* | 6.12.*) ;;
    *) echo "NOT RUN: $me: pie-watch was not tested with the kernel $release" && exit 0 ;;
esac
# shellcheck source=guest.sh
. bindings/linux/guest.sh
fill_watch
fill_refusals
fill_root bindings/linux/boot_init.sh veth dummy sch_htb sch_tbf sch_netem sch_pie sch_fq_pie pktgen
truncate -s 1G "$work/disk"
packets=${PACKETS:-4000}
# a slow machine stalls the guest, which is no error of it
# shellcheck disable=SC2086
LIMIT=${LIMIT:-1500} boot "bytes=${BYTES:-1M} packets=$packets no_timer_check nowatchdog rcupdate.rcu_cpu_stall_suppress=1" -m 1024 -smp 2 -accel tcg,thread=${THREAD:-single} \
    $machine -drive "file=$work/disk,format=raw,if=virtio"
mkdir "$work/steps"
tar -C "$work/steps" -xf "$work/disk"
grep -E '^TOLD' "$work/console" | tr -d '\r' | sed 's/^TOLD/ /'
echo "bindings/linux: Linux $release"
for compact in "$work"/steps/*.steps; do
    text=${compact%.steps}.csv status=0
    "$watch" text -o "$text" "$compact" || status=$?
    [ $status = "$([ "${compact##*/}" = small.steps ] && echo 2 || echo 0)" ] || { echo "$me: $compact: status $status" >&2; exit 1; }
    "$pie" audit "$text" > "$work/decided" 2>&1 || { echo "$me: $(cat "$work/decided")" >&2; exit 1; }
    echo "  $(sed "s|$work/steps/||; s|^pie: |; |" "$work/decided" | tr -d '\n')"
    "$pie" explain --lost "$text" > "$work/lost" 2> "$work/explained" || { echo "$me: $text: $(cat "$work/explained")" >&2; exit 1; }
    # each refused enqueue has a cause
    refused=$(awk -F, '$3 == "enq" && $17 != "0"' "$text" | wc -l)
    [ "$refused" = "$(grep -c -E 'DROPPED (early|over)' "$work/lost")" ] || { echo "$me: $text: $refused enqueues were refused, with other causes" >&2; exit 1; }
done
# an audit that found a difference continues from the next row resume: it names a second one after that row
for text in "$work"/steps/{running,flows}.csv; do
    awk -F, -v OFS=, 'NR == 1 { for (at = 1; $at != "pktlen"; at++); }
        $3 == "resume" && turn == 1 { turn = 2 }
        $3 == "deq" && (turn == 0 && NR > 1000 || turn == 2) { $at++; turn++ }
        { print }
        END { exit turn < 3 }' "$text" > "$work/two.csv" || { echo "$me: $text: no row resume between rows deq" >&2; exit 1; }
    "$pie" audit "$work/two.csv" > "$work/decided" 2>&1 || [ $? = 2 ]
    [ "$(grep -c 'pktlen is recorded as' "$work/decided")" = 2 ] || { echo "$me: $text with two wrong fields: $(cat "$work/decided")" >&2; exit 1; }
    echo "  ${text##*/}: $(grep -c ',resume,' "$text") rows resume; two wrong fields are named"
done
# each segment begins with its queues, and no step is missing between segments
mkdir "$work/segments"
number=1
while [ -e "$work/steps/segments.$number" ]; do
    "$watch" text -o "$work/segments/$number.csv" "$work/steps/segments.$number" || { echo "$me: segment $number: status $?" >&2; exit 1; }
    "$pie" audit < "$work/segments/$number.csv" > "$work/decided" 2>&1 || { echo "$me: segment $number: $(cat "$work/decided")" >&2; exit 1; }
    number=$((number + 1))
done
find "$work/segments" -name '*.csv' | sort -V | xargs awk -F, '
    $1 == "qid" { split("", begun); files++; next }
    !($1 in begun) && $3 != "init" && $3 != "resume" { print "the first row of a queue: " $0; bad = 1; exit }
    ($1 in last) && $4 != last[$1] && $4 != last[$1] + 1 { print "a step is missing before " $0; bad = 1; exit }
    { begun[$1]; last[$1] = $4; rows++ }
    END { print "  " files " segments: " rows " rows, each segment clean alone"; exit bad || files < 3 }'
bindings/linux/sums.py "$work/steps" $((5 * packets))
# the verifier processed at most one and a half times the instructions of verified.txt, by the kernel and the program
paste - - < "$work/steps/verified" | awk -v release="$release" '
    BEGIN { split(release, number, "."); kernel = number[1] "." number[2] }
    FNR == NR { if ($1 == kernel) most[$2] = 1.5 * $3; next }
    { programs++; all += $2; if ($2 > greatest) { greatest = $2; name = $1 } }
    !($1 in most) || $2 > most[$1] { print "the verifier processed " $2 " instructions of " $1 "; verified.txt allows " most[$1]; bad = 1 }
    END { print "  the verifier processed " all " instructions of " programs " programs, at most " greatest " (" name ")"; exit bad || programs == 0 }' \
    bindings/linux/verified.txt -
