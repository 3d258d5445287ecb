#!/usr/bin/env bash
# Boots Debian's kernel with a sch_pie that is built from its source with the faults of mutants.txt. pie-watch records the traffic of each fault twice,
# without the fault and with it. pie must decide the first as the kernel did, and name the first step of the second that the fault changes. The first must
# have such steps too. pahole makes the module's types. Prints the step of each fault. In simulated time, arrivals do not depend on the machine's speed. It
# takes a minute of a processor.
#
# PIE, ROOT and HEADERS are those of boot.sh. SOURCE is Debian's linux-source of this kernel.
# needs: program, a request
#
# usage: [PIE=program] [HEADERS=folder] [SOURCE=/usr/src/linux-source-6.1.tar.xz] [KEEP=folder for all files] bindings/linux/mutants.sh [ROOT]
set -eu
cd "$(dirname "$0")/../.."
me=bindings/linux/mutants.sh
pie=${PIE:-$PWD/crates/pie/out/pie}
source=${SOURCE:-/usr/src/linux-source-6.1.tar.xz}
[ -x "$pie" ] || { echo "NOT RUN: $me: no program $pie"; exit 0; }
[ -e "$source" ] || { echo "NOT RUN: $me: no $source (bindings/linux/install.sh)"; exit 0; }
for program in clang bpftool pahole; do
    PATH=$PATH:/usr/sbin command -v $program > /dev/null || { echo "NOT RUN: $me: no $program here (bindings/linux/install.sh)"; exit 0; }
done
# shellcheck source=../kernel/guest.sh
. bindings/kernel/guest.sh
# shellcheck source=guest.sh
. bindings/linux/guest.sh
mkdir -p "$work/mutants"
xz --decompress --stdout --threads=0 "$source" | tar --extract --to-stdout --wildcards '*/net/sched/sch_pie.c' > "$work/sch_pie.c"
bindings/linux/mutant.py "$work/sch_pie.c" > "$work/mutants/sch_pie.c"
echo 'obj-m := sch_pie.o' > "$work/mutants/Kbuild"
make -s -C "$headers/linux-headers-$release" M="$work/mutants" modules > "$work/make.log" 2>&1 || { cat "$work/make.log" >&2; exit 1; }
pahole -J --btf_gen_floats --btf_base "$work/vmlinux" "$work/mutants/sch_pie.ko"
strip --strip-debug "$work/mutants/sch_pie.ko"
cat > "$work/init" <<'END'
#!/bin/busybox sh
. /net.sh
. /watch.sh
begins
finds_disk
loads veth sch_htb pktgen
connects 1
for at in a:a0 r:ra r:rb b:b0; do
    /bin/ip netns exec ${at%:*} $box sysctl -q -w net.ipv6.conf.${at#*:}.disable_ipv6=1
done
# (ARP would send packets while the queue rests)
/bin/ip -n r neigh replace 10.0.2.1 lladdr $(/bin/ip netns exec b $box cat /sys/class/net/b0/address) dev rb nud permanent
/bin/ip -n b neigh replace 10.0.2.2 lladdr $(/bin/ip netns exec r $box cat /sys/class/net/rb/address) dev b0 nud permanent

# asks: sends a packet through the queue
asks() {
    /bin/ip netns exec a $box ping -q -c 1 -W 1 10.0.2.1 > /dev/null
}

# sleeps SECONDS: pie-watch, which looks at the ring buffer 500 times a second, is stopped meanwhile: each look takes long in simulated time
sleeps() {
    $box kill -STOP $($box pidof pie-watch)
    $box sleep $1
    $box kill -CONT $($box pidof pie-watch)
}

# rests SECONDS: two packets with this time between them. The queue's first calculation is over
rests() {
    $box sleep 1
    asks
    sleeps $1
    asks
}

# overloads SECONDS SIZE RATE [LINK]: floods a link of LINK, 1 Mbit/s by default, for this time. (Above 10,000 packets a second, the packet generator does
# not sleep between two packets, which takes long in simulated time)
overloads() {
    /bin/tc -n r class change dev rb parent 1: classid 1:1 htb rate ${4:-1mbit}
    floods 1000000 $2 $3 &
    $box sleep $1
    $in_queue $box sh -c 'echo stop > /proc/net/pktgen/pgctrl'
    wait $!
}

# drains SECONDS SIZE RATE: the same. Then the queue empties
drains() {
    overloads "$@"
    /bin/tc -n r class change dev rb parent 1: classid 1:1 htb rate 100mbit
}

# crawls COUNT SIZE SECONDS: pings that leave at 1 kB/s, for this time. (The packet generator would wait until the last packet has left)
crawls() {
    asks
    /bin/tc -n r class change dev rb parent 1: classid 1:1 htb rate 8kbit
    /bin/ip netns exec a $box ping -q -c $1 -i 0.005 -s $2 -W 1 10.0.2.1 > /dev/null
    sleeps $3
}

# tries FAULT TRAFFIC WORDS..: the traffic through the queue of these words
tries() {
    traffic=$2
    $box printf %s "$1" > /sys/module/sch_pie/parameters/fault
    shift 2
    queues "$@"
    $traffic
    $box sleep 0.5
    /bin/tc -n r qdisc del dev rb root
}
$box insmod /mods/sch_pie.ko || echo "FAILED insmod"
watches faults --rate-estimator --compact -o /tmp/faults.steps rb
tab=$($box printf '\t')
while IFS=$tab read -r fault traffic words; do
    IFS=' '
    tries none "$traffic" $words < /dev/null
    tries $fault "$traffic" $words < /dev/null
done < /mods/faults
ends 0
cd /tmp
$box tar -cf - faults.steps > /dev/vda || echo "FAILED tar"
$box sync
echo ended
$box poweroff -f
END
fill_watch
cp "$work/mutants/sch_pie.ko" "$work/root/mods/"
bindings/linux/mutant.py --list > "$work/root/mods/faults"
fill_root "$work/init" veth sch_htb pktgen
truncate -s 256M "$work/disk"
# shellcheck disable=SC2086
boot "no_timer_check nowatchdog rcupdate.rcu_cpu_stall_suppress=1" $SIMULATED -drive "file=$work/disk,format=raw,if=virtio"
mkdir "$work/steps"
tar -C "$work/steps" -xf "$work/disk"
"$watch" text -o "$work/steps/faults.csv" "$work/steps/faults.steps"
# a file for each queue, whose number ends its name
awk -F, -v folder="$work/steps" 'NR == 1 { names = $0; next } { n = $1; sub(".*/", "", n); file = folder "/" n ".csv" }
    !(n in begun) { begun[n]; print names > file } { print > file }' "$work/steps/faults.csv"
number=0 failed=0
while IFS=$'\t' read -r fault _; do
    right=$work/steps/$number.csv wrong=$work/steps/$((number + 1)).csv
    clean=$("$pie" audit < "$right" 2>&1) || true
    found=$("$pie" audit < "$wrong" 2>&1 > /dev/null) || true
    count=$(bindings/linux/mutant.py --differ "$fault" "$right")
    first=$(bindings/linux/mutant.py --differ "$fault" "$wrong")
    echo "  $fault: $found (without it: $clean; steps that it would change: ${count% *})"
    case "$count, $found, $clean" in
        [1-9]*", step ${first#* }: "*" is recorded as "*", clean,"*) ;;
        *)
            echo "$me: the fault $fault is not found at its first step, ${first#* }" >&2
            failed=1
            ;;
    esac
    number=$((number + 2))
done < "$work/root/mods/faults"
exit $failed
