#!/usr/bin/env bash
# Boots a kernel of Debian under qemu with two processors, and sums its queues in the kernel (summed_init.sh): `pie-watch --drops`, `serve` and `top` beside
# queues of pie and fq_pie that work, are created and removed, in two network namespaces. summed.py compares the rows and metrics with the counters of tc.
# It takes two minutes of a processor.
#
# With LEAVES, as many pie leaves below htb on each of two devices in two namespaces are served instead, with traffic to 500 of them: it prints the memory
# and the time of a scrape. (Their tupdate is 500 ms: the emulated processor has no time for the kernel's timers at the default.)
#
# With SCRAPES, as many scrapes come instead, one in each second of simulated time, beside an overloaded queue. summed.py compares the counters of each.
#
# ROOT, HEADERS and --kernel are those of boot.sh
# needs: a request
#
# usage: [LEAVES=0] [SCRAPES=0] [HEADERS=folder] [KEEP=folder for all files] bindings/linux/summed.sh [--kernel 6.12] [ROOT]
set -eu
cd "$(dirname "$0")/../.."
me=bindings/linux/summed.sh
# shellcheck source=kernel.sh
. bindings/linux/kernel.sh
for program in clang bpftool; do
    PATH=$PATH:/usr/sbin command -v $program > /dev/null || { echo "NOT RUN: $me: no $program here (bindings/linux/install.sh)"; exit 0; }
done
# shellcheck source=../kernel/guest.sh
. bindings/kernel/guest.sh
# shellcheck source=guest.sh
. bindings/linux/guest.sh
fill_watch
cc -O1 -o "$work/root/bin/in_terminal" bindings/linux/in_terminal.c -lutil
cc -O1 -o "$work/root/bin/many_packets" bindings/linux/many_packets.c
mkdir -p "$work/root/lib/terminfo/v"
cp "$(find /lib/terminfo /usr/share/terminfo -name vt100 2> /dev/null | head -n 1)" "$work/root/lib/terminfo/v/"
fill_root bindings/linux/summed_init.sh veth dummy sch_htb sch_pie sch_fq_pie cls_flow pktgen
truncate -s 1G "$work/disk"
clock="-m 1536 -smp 2 -accel tcg,thread=single $machine" at=
[ "${SCRAPES:-0}" = 0 ] || clock=$SIMULATED at="clocksource=tsc tsc=reliable"
# shellcheck disable=SC2086
LIMIT=${LIMIT:-3000} boot "leaves=${LEAVES:-0} scrapes=${SCRAPES:-0} $at no_timer_check nowatchdog rcupdate.rcu_cpu_stall_suppress=1" $clock \
    -drive "file=$work/disk,format=raw,if=virtio"
mkdir -p "$work/sums"
tar -C "$work/sums" -xf "$work/disk"
grep -a -E "^TOLD" "$work/console" | tr -d '\r' | sed 's/^TOLD/ /'
echo "bindings/linux: Linux $release"
bindings/linux/summed.py "$work/sums" "${LEAVES:-0}" "${SCRAPES:-0}"
if command -v promtool > /dev/null; then
    for metrics in "$work"/sums/*.metrics; do
        promtool check metrics < "$metrics" || { echo "$me: promtool: $metrics" >&2; exit 1; }
    done
fi
