#!/bin/sh
# The first process of the Debian 12 that package.sh boots, after the system's initrd has mounted its file systems: installs the packages as an operator
# does, and records pie and fq_pie of eth0. The other end of eth0 is eth1, in the namespace b.
export PATH=/usr/sbin:/usr/bin:/sbin:/bin HOME=/root DEBIAN_FRONTEND=noninteractive
box=
. /watch.sh
in_queue='' device=eth0
exec > /dev/ttyS0 2>&1
cd /root || exit
apt install --yes ./juniperbowls_*.deb ./juniperbowls-watch_*.deb > /tmp/apt 2>&1 || { echo "FAILED apt"; cat /tmp/apt; }
ip netns add b
ip link set eth1 netns b
ip addr add 10.0.2.2/24 dev eth0
ip link set eth0 up
ip -n b addr add 10.0.2.1/24 dev eth1
ip -n b link set eth1 up
for port in 5201 5202; do
    ip netns exec b iperf3 -s -D -p $port
done
modprobe -a sch_pie sch_fq_pie pktgen
sleep 1

# records NAME PACKETS WORDS..: records TCP, UDP and PACKETS of the packet generator through a queue of these words, and decides each step again
records() {
    name=$1 count=$2
    shift 2
    tc qdisc add dev eth0 root handle 1: "$@" || echo "FAILED tc $*"
    watches "$name" eth0 --ring 256 -o "$name.csv"
    iperf3 -c 10.0.2.1 -P 2 -n $bytes > /dev/null 2>&1 &
    tcp=$!
    iperf3 -c 10.0.2.1 -p 5202 -u -b 0 -P 8 -l 700 -n $bytes > /dev/null 2>&1
    wait $tcp
    floods $count 400
    sleep 1
    tc -s -j qdisc show dev eth0 > "$name.json"
    ends 0
    tc -s -j qdisc show dev eth0 > "$name.later"
    pie audit "$name.csv" > "$name.found" 2>&1 || echo "FAILED pie audit $name"
    echo "TOLD pie audit: $(tr '\n' ' ' < "$name.found")"
    # (on the console pie would report its progress)
    pie explain --lost "$name.csv" > "$name.lost" 2> "$name.errors" || { echo "FAILED pie explain $name"; cat "$name.errors"; }
    tc qdisc del dev eth0 root
}
records pie $packets pie
records fq_pie $((packets / 4)) fq_pie ecn
# (in the others a fast machine drops no packet)
records short $((packets / 4)) pie limit 5
dmesg | grep -E 'WARNING|BUG|Oops|Call Trace'
tar -cf - ./*.csv ./*.json ./*.later ./*.lost > /dev/vdb || echo "FAILED tar"
sync
echo ended
echo o > /proc/sysrq-trigger
sleep 60
