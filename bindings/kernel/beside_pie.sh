#!/usr/bin/env bash
# Compares the module's decisions with those of Linux's sch_pie.c, decision by decision. In a booted kernel, eight CUBIC flows pass through pie_recorded at
# RATE, and DATAGRAMS a second of the kernel's packet generator beside them. pie-tap writes the history to a disk, and bench/steps/run.sh gives each step of
# it, with its random word, to the code of sch_pie.c. Each difference must be one that docs/PARAMETERS.md names, and the proved rules of Linux must decide
# each step of sch_pie.c alike. In simulated time, an arrival of TCP takes a millisecond of the processor. With CPUS, the kernel has CPUS processors and runs
# in real time. Two million arrivals in some minutes:
#     CPUS=2 RATE=20mbit DATAGRAMS=4000 SECONDS_OF_TRAFFIC=420 bindings/kernel/beside_pie.sh
# needs: a request, program
#
# usage: [PIE=program] [HEADERS=folder] [KEEP=folder for all files] [CPUS=n] [RATE=100mbit] [SECONDS_OF_TRAFFIC=10] [DATAGRAMS=0]
#        bindings/kernel/beside_pie.sh [ROOT]
set -eu
cd "$(dirname "$0")/../.."
me=bindings/kernel/beside_pie.sh
pie=${PIE:-$PWD/crates/pie/out/pie}
[ -x "$pie" ] || { echo "NOT RUN: $me: no program $pie"; exit 0; }
# shellcheck source=guest.sh
. bindings/kernel/guest.sh
build_module . "$work/root/mods/sch_pie_recorded.ko"
cat > "$work/init" <<'END'
#!/bin/busybox sh
. /net.sh
begins
finds_disk
loads veth sch_htb sch_netem sch_pie_recorded
connects 1
/bin/tc -n b qdisc add dev b0 root netem delay 10ms limit 100000
/bin/tc -n r qdisc add dev rb root handle 1: htb default 1
/bin/tc -n r class add dev rb parent 1: classid 1:1 htb rate $rate
/bin/tc -n r qdisc add dev rb parent 1:1 handle 2: pie_recorded events 1000000 || echo "FAILED tc"
/bin/ip netns exec r /bin/pie-tap follow rb > /dev/vda &
tap=$!
/bin/ip netns exec b /bin/iperf3 -s -D
$box sleep 1
if [ $datagrams != 0 ]; then
    # 300 bytes, to an address at the link that no host has
    loads pktgen
    /bin/ip netns exec r $box sh -c "cd /proc/net/pktgen && echo add_device rb > kpktgend_0 && for words in 'count 0' 'pkt_size 300' 'ratep $datagrams' \
        'dst 10.0.2.9' 'dst_mac 02:00:00:00:00:09' 'xmit_mode queue_xmit'; do echo \$words > rb || echo FAILED pktgen; done; echo start > pgctrl" &
fi
/bin/ip netns exec a /bin/iperf3 -c 10.0.2.1 -P 8 -t $seconds -f m | $box grep 'SUM.*receiver'
[ $datagrams = 0 ] || /bin/ip netns exec r $box sh -c "echo stop > /proc/net/pktgen/pgctrl"
/bin/tc -n r -s qdisc show dev rb
/bin/tc -n r qdisc del dev rb root
wait $tap
$box sync
echo ended
$box poweroff -f
END
fill_root "$work/init" veth sch_htb sch_netem pktgen
truncate -s 1G "$work/disk"
parameters="rate=${RATE:-100mbit} seconds=${SECONDS_OF_TRAFFIC:-10} datagrams=${DATAGRAMS:-0}"
if [ -n "${CPUS-}" ]; then
    SIMULATED="-smp $CPUS -accel tcg,thread=multi -cpu Nehalem,+rdrand"
    # a slow machine stalls the guest, which is no error of it
    parameters="$parameters nowatchdog rcupdate.rcu_cpu_stall_suppress=1"
fi
# shellcheck disable=SC2086
LIMIT=${LIMIT:-3000} boot "$parameters" $SIMULATED -m 1536 -drive "file=$work/disk,format=raw,if=virtio"
tr -d '\r' < "$work/console" | grep -A 6 -E 'SUM|pie_recorded'
tr -d '\0' < "$work/disk" > "$work/history"
echo "$me: Linux $release: $(grep -c '^arrive' "$work/history") arrivals; $("$pie" audit < "$work/history")"
# the purge at the end is no step of sch_pie.c
sed '/^reset,/,$d' "$work/history" > "$work/steps"
bench/steps/run.sh "$pie" "$work/steps"
