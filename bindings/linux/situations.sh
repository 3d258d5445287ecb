#!/usr/bin/env bash
# Boots a kernel of Debian under qemu with two processors, and records situations that are rare or hard to record (situations_init.sh): packets behind VLAN
# tags, packets that the device returns or the parent peeks at, refused commands and changes that drop packets, priorities that name a flow of fq_pie, a
# link that goes down and up, modules that are loaded later, a device that comes again, a ring that is too small, a full disk and a killed reader. pie must
# find each text clean. columns.py compares the columns that follow from other rows. It takes two minutes of a processor.
#
# With LIST=more, it records those of situations_more.sh instead: parents, devices, parameters, packets and changes, at least one queue for each.
#
# PIE, ROOT, HEADERS and --kernel are those of boot.sh. WATCH is another pie-watch to record with
# needs: program, a request
#
# usage: [PIE=program] [WATCH=program] [LIST=more] [HEADERS=folder] [KEEP=folder for all files] bindings/linux/situations.sh [--kernel 6.12] [ROOT]
set -eu
cd "$(dirname "$0")/../.."
me=bindings/linux/situations.sh
# shellcheck source=kernel.sh
. bindings/linux/kernel.sh
pie=${PIE:-$PWD/crates/pie/out/pie}
[ -x "$pie" ] || { echo "NOT RUN: $me: no program $pie"; exit 0; }
for program in clang bpftool; do
    PATH=$PATH:/usr/sbin command -v $program > /dev/null || { echo "NOT RUN: $me: no $program here (bindings/linux/install.sh)"; exit 0; }
done
# shellcheck source=../kernel/guest.sh
. bindings/kernel/guest.sh
# shellcheck source=guest.sh
. bindings/linux/guest.sh
fill_watch
[ -z "${WATCH-}" ] || cp "$WATCH" "$work/root/bin/pie-watch"
cc -O1 -o "$work/root/bin/device_options" bindings/linux/device_options.c
cp bindings/linux/situations_more.sh "$work/root/"
fill_root bindings/linux/situations_init.sh veth dummy sch_htb sch_tbf sch_netem sch_pie sch_fq_pie e1000 pktgen sch_prio sch_drr sch_hfsc sch_ets sch_red sch_qfq \
    sch_ingress cls_matchall act_mirred act_skbedit ifb macvlan llc stp bridge tunnel4 ip_tunnel ipip mrp garp 8021q
truncate -s 1G "$work/disk"
# shellcheck disable=SC2086
LIMIT=${LIMIT:-1500} boot "list=${LIST:-first} net.ifnames=0 no_timer_check nowatchdog rcupdate.rcu_cpu_stall_suppress=1" -m 1024 -smp 2 -accel tcg,thread=single \
    $machine -drive "file=$work/disk,format=raw,if=virtio" -netdev hubport,id=n0,hubid=0 -device e1000,romfile=,netdev=n0 \
    -netdev hubport,id=n1,hubid=0 -device e1000,romfile=,netdev=n1
mkdir -p "$work/steps"
tar -C "$work/steps" -xf "$work/disk"
grep -E '^TOLD' "$work/console" | tr -d '\r' | sed 's/^TOLD/ /'
# (a queue with the rate estimator loses its first steps)
"$watch" text --force -o "$work/steps/all.csv" "$work/steps/all.steps" || [ $? = 2 ]
# a file for each queue, whose number ends its name
awk -F, -v folder="$work/steps" 'NR == 1 { names = $0; next } { n = $1 == "lost" ? $3 : $1; sub(".*/", "", n); file = folder "/queue_" n ".csv" }
    !(n in begun) { begun[n]; print names > file } { print > file }' "$work/steps/all.csv"
failed=0
shopt -s nullglob
texts=("$work"/steps/{queue_*,again*,small*,full*,killed*,second*}.csv "$work"/steps/segments.*)
for text in "${texts[@]}" "$work"/steps/none*.csv; do
    said=$("$pie" audit "$text" 2>&1) || failed=1
    echo "  ${said//$work\/steps\//}" | tr '\n' ' '
    echo
done
bindings/linux/columns.py "${texts[@]}" || failed=1
exit $failed
