#!/usr/bin/env bash
# Counts instructions of enqueue and dequeue (bindings/kernel/measure/pie_measure.c) of the kernel's own pie and fq_pie, without pie-watch and with it.
# Under qemu -icount one instruction is one tick of the time stamp counter. Arrivals are in a burst allowance, or considered for an early drop. Prints a
# table, and fails if an enqueue and a dequeue with pie-watch need more than MOST instructions, or more than MOST_FLOWS if sch_fq_pie is loaded; or if --drops
# or serve adds more than MOST_SUMS in the burst allowance. A considered arrival may need RANDOM_WORDS more: the kernel's random words take up to 850, and the programs
# that record them the rest. Then it counts what a resume of a queue with 950 waiting packets, and of one with 65,536 flows, needs under the queue's lock; the
# latter fails above MOST_RESUME. ROOT and HEADERS are those of boot.sh. It takes 1.5 minutes of one processor.
# needs: a request
#
# usage: [MOST=2350] [MOST_FLOWS=2900] [MOST_SUMS=700] [RANDOM_WORDS=1150] [MOST_RESUME=15000000] [HEADERS=folder] [KEEP=folder for all files] bindings/linux/measure.sh [--kernel 6.12] [ROOT]
set -eu
cd "$(dirname "$0")/../.."
me=bindings/linux/measure.sh
# shellcheck source=kernel.sh
. bindings/linux/kernel.sh
# shellcheck source=../kernel/guest.sh
. bindings/kernel/guest.sh
# shellcheck source=guest.sh
. bindings/linux/guest.sh
build_module measure "$work/root/mods/pie_measure.ko"
cat > "$work/init" <<'END'
#!/bin/busybox sh
. /net.sh
. /watch.sh
in_queue=
begins
loads dummy sch_pie
$box sysctl -q -w net.ipv6.conf.all.disable_ipv6=1
$box sysctl -q -w net.ipv6.conf.default.disable_ipv6=1
# measured NAME WORDS..: counts a queue
measured() {
    name=$1
    shift
    /bin/ip link add dummy0 type dummy
    /bin/ip link set dummy0 arp off up
    /bin/tc qdisc add dev dummy0 root handle 2: "$@" || echo "FAILED tc $*"
    $box insmod /mods/pie_measure.ko name=$name || echo "FAILED insmod pie_measure"
    $box rmmod pie_measure
    /bin/ip link del dummy0
}
measured pie pie ecn
watches pie --all --compact -o /dev/null --force
measured pie_recorded pie ecn
ends 0
loads sch_fq_pie
measured fq_pie fq_pie ecn
watches both --all --compact -o /dev/null --force
measured fq_pie_recorded fq_pie ecn
measured pie_recorded_beside_fq_pie pie ecn
ends 0
# resumed NAME PACKETS WORDS..: counts the instructions of the program that resumes a queue with waiting packets, at its next enqueue
resumed() {
    name=$1 packets=$2
    shift 2
    /bin/ip link add dummy0 type dummy
    /bin/ip link set dummy0 arp off up
    /bin/tc qdisc add dev dummy0 root handle 1: htb default 1
    /bin/tc class add dev dummy0 parent 1: classid 1:1 htb rate 8kbit
    /bin/tc qdisc add dev dummy0 parent 1:1 handle 2: "$@" limit 20000 target 100s tupdate 10s || echo "FAILED tc $*"
    /bin/ip addr add 10.1.0.1/8 dev dummy0
    /bin/many_packets $packets || echo "FAILED many_packets"
    watches $name --all --compact --ring 256 -o /dev/null --force
    /bin/many_packets 1
    $box sleep 1
    echo "COUNT $name resume $($box cat /proc/$watch/fdinfo/* | $box sed -n 's/^run_time_ns:[^0-9]*//p' | $box sort -n | $box tail -n 1)"
    ends 0
    /bin/ip link del dummy0
}
loads sch_htb
$box sysctl -q -w kernel.bpf_stats_enabled=1
resumed pie_950 949 pie
resumed fq_pie_950 949 fq_pie
resumed fq_pie_65536_flows 1 fq_pie flows 65536
resumed fq_pie_65536_flows_10000 9999 fq_pie flows 65536
$box sysctl -q -w kernel.bpf_stats_enabled=0
watches drops --drops --all -o /dev/null --force
measured pie_drops pie
measured pie_ecn_drops pie ecn
measured fq_pie_drops fq_pie ecn
ends 0
/bin/ip link set lo up
/bin/pie-watch serve :9464 2> /tmp/serve.said &
until $box grep -q '^pie-watch: serving' /tmp/serve.said; do $box sleep 0.2; done
measured pie_served pie ecn
$box kill -INT $($box pidof pie-watch)
$box dmesg | $box grep -o 'COUNT.*'
echo ended
$box poweroff -f
END
fill_watch
cc -O1 -o "$work/root/bin/many_packets" bindings/linux/many_packets.c
fill_root "$work/init" dummy sch_htb sch_pie sch_fq_pie
# shellcheck disable=SC2086
boot "clocksource=tsc tsc=reliable" $SIMULATED
echo "$me: instructions of enqueue and dequeue, Linux $release"
grep -E '^TOLD' "$work/console" | tr -d '\r' | sed 's/^TOLD/ /'
sed -n 's/^COUNT/ /p' "$work/console" | tr -d '\r'
awk -v most="${MOST:-2350}" -v most_flows="${MOST_FLOWS:-2900}" -v most_sums="${MOST_SUMS:-700}" -v random="${RANDOM_WORDS:-1150}" -v most_resume="${MOST_RESUME:-15000000}" '
    $1 == "COUNT" && $2 == "fq_pie_65536_flows" && $3 == "resume" && $4 > most_resume {
        print "too many: " $0
        bad = 1
    }
    $1 == "COUNT" && $4 == "enqueue" {
        its = $5 + $7
        if ($2 == "pie" || $2 == "fq_pie")
            own[$2 $3] = its
        if ($2 ~ /recorded/ && its > ($2 == "pie_recorded" ? most : most_flows) + ($3 == "considered" ? random : 0) ||
            $3 == "burst" && $2 ~ /_(drops|served)$/ && its - own[($2 ~ /^fq/ ? "fq_pie" : "pie") $3] > most_sums) {
            print "too many: " $0
            bad = 1
        }
    }
    END { exit bad }' "$work/console"
