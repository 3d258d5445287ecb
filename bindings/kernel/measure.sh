#!/usr/bin/env bash
# Counts instructions of enqueue and dequeue (measure/pie_measure.c) of pfifo, the kernel's pie, and pie_recorded with
# and without its record. Under qemu -icount one instruction is one tick of the time stamp counter. Arrivals are in a
# burst allowance, or considered for an early drop. Prints a table. ROOT and HEADERS are those of boot.sh. It takes half
# a minute of one processor.
# needs: a request
#
# usage: [HEADERS=folder] [KEEP=folder for all files] bindings/kernel/measure.sh [ROOT]
set -eu
cd "$(dirname "$0")/../.."
me=bindings/kernel/measure.sh
# shellcheck source=guest.sh
. bindings/kernel/guest.sh
build_module . "$work/root/mods/sch_pie_recorded.ko"
build_module measure "$work/root/mods/pie_measure.ko"
cat > "$work/init" <<'END'
#!/bin/busybox sh
. /net.sh
begins
echo "clock $($box cat /sys/devices/system/clocksource/clocksource0/current_clocksource)"
loads dummy sch_pie sch_pie_recorded
$box sysctl -q -w net.ipv6.conf.all.disable_ipv6=1
$box sysctl -q -w net.ipv6.conf.default.disable_ipv6=1
# measured NAME WORDS.. [-- PARAMETERS..]
measured() {
    name=$1
    shift
    words=
    while [ $# != 0 ] && [ "$1" != -- ]; do
        words="$words $1"
        shift
    done
    /bin/ip link add dummy0 type dummy
    /bin/ip link set dummy0 arp off up
    /bin/tc qdisc add dev dummy0 root handle 2: $words || echo "FAILED tc $words"
    [ $# = 0 ] || shift
    $box insmod /mods/pie_measure.ko name=$name "$@" || echo "FAILED insmod pie_measure"
    $box rmmod pie_measure
    /bin/ip link del dummy0
}
measured warm_up pfifo limit 1000 -- words=1
measured pfifo pfifo limit 1000
measured pie pie
measured pie_ecn pie ecn
for ecn in "" ecn; do
    measured unrecorded${ecn:+_$ecn} pie_recorded events 0 $ecn
    measured recorded${ecn:+_$ecn} pie_recorded noflows $ecn
    measured recorded_with_flows${ecn:+_$ecn} pie_recorded $ecn
    measured recorded_with_flows_to_compute${ecn:+_$ecn} pie_recorded $ecn -- hashed=0
done
$box dmesg | $box grep -o 'COUNT.*'
echo ended
$box poweroff -f
END
fill_root "$work/init" dummy sch_pie
# shellcheck disable=SC2086
boot "clocksource=tsc tsc=reliable" $SIMULATED
echo "bindings/kernel: instructions of enqueue and dequeue, Linux $release, clock source $(sed -n 's/^clock //p' "$work/console" | tr -d '\r')"
sed -n 's/^COUNT/ /p' "$work/console" | tr -d '\r' | grep -v -E 'warm_up|sum'
