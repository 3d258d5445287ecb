#!/bin/sh
# The first process of the Debian 13 that trixie.sh boots, after the system's initrd has mounted its file systems. It installs the packages as an operator
# does, and records queues of rb: packets from the namespace a are routed to the namespace b. Then several processors send at once.
export PATH=/usr/sbin:/usr/bin:/sbin:/bin HOME=/root DEBIAN_FRONTEND=noninteractive
exec > /dev/ttyS0 2>&1
cd /root || exit
mount -t bpf bpf /sys/fs/bpf
apt install --yes ./juniperbowls_*.deb ./juniperbowls-qdisc_*.deb > apt 2>&1 || { echo "FAILED apt"; cat apt; }
grep -q '^Setting up juniperbowls-qdisc' apt || echo "FAILED: juniperbowls-qdisc was not installed"
! grep 'pie-qdisc needs' apt || echo "FAILED: a note about an old kernel"

for name in a b; do
    ip netns add $name
    ip -n $name link set lo up
done
sysctl -q -w net.ipv4.ip_forward=1 net.ipv6.conf.all.disable_ipv6=1 net.ipv6.conf.default.disable_ipv6=1
# connects NAMESPACE DEVICE HERE NET QUEUES: a link to a namespace, whose other end is HERE with so many transmit queues
connects() {
    ip link add "$3" numtxqueues "$5" numrxqueues "$5" type veth peer name "$2" netns "$1"
    ip -n "$1" addr add "10.0.$4.1/24" dev "$2"
    ip addr add "10.0.$4.2/24" dev "$3"
    ip -n "$1" link set "$2" gso_max_size 32768 up
    ip link set "$3" gso_max_size 32768 up
    # (no ARP packet comes later)
    ip neigh replace "10.0.$4.1" lladdr "$(ip netns exec "$1" cat "/sys/class/net/$2/address")" dev "$3" nud permanent
    ip -n "$1" neigh replace "10.0.$4.2" lladdr "$(cat "/sys/class/net/$3/address")" dev "$2" nud permanent
}
connects a a0 ra 1 1
connects b b0 rb 2 1
connects b m1 m0 4 4
ip -n a route add default via 10.0.1.2
ip -n b route add 10.0.1.0/24 via 10.0.2.2
tc -n b qdisc add dev b0 root netem delay 10ms limit 10000
for port in 5201 5202 5203 5204 5205 5206 5207 5208; do
    ip netns exec b iperf3 -s -D -p $port
done
sleep 1

# tcp PORT WORDS..: TCP from a; udp PORT ADDRESS WORDS..: datagrams from a, or from here if `by` is empty
by='ip netns exec a'
tcp() {
    port=$1
    shift
    timeout 300 ip netns exec a iperf3 -c 10.0.2.1 -p "$port" "$@" > "/tmp/said.$port" 2>&1 || { echo "FAILED tcp $port"; tail -n 2 "/tmp/said.$port"; }
}
udp() {
    port=$1 address=$2
    shift 2
    timeout 300 $by iperf3 -u -c "$address" -p "$port" "$@" > "/tmp/said.$port" 2>&1 || { echo "FAILED udp $port"; tail -n 2 "/tmp/said.$port"; }
}

# keeps NAME DEVICE: keeps the statistics of the kernel and of pie-qdisc when their numbers rest. No packet comes before `joins`, also none that TCP sends
# again
keeps() {
    ip -n a route add blackhole 10.0.2.1
    ip route add blackhole 10.0.4.1
    ip -n b route add blackhole 10.0.1.1
    until tc -s -j qdisc show dev "$2" > /tmp/earlier && sleep 1 && tc -s -j qdisc show dev "$2" > "$1.tc" && cmp -s /tmp/earlier "$1.tc"; do :; done
    pie-qdisc show "$2" --json > "$1.show"
}
joins() {
    ip -n a route del blackhole 10.0.2.1
    ip route del blackhole 10.0.4.1
    ip -n b route del blackhole 10.0.1.1
}

# ends READER..: ends these readers, which must have nothing to say
ends() {
    pkill -INT pie-qdisc
    for reader in "$@"; do
        wait "$reader" || echo "FAILED: a reader of pie-qdisc has status $?"
    done
    cat ./*.said
    rm -f ./*.said
}

# The commands of the README: attach, record, audit, explain, show, detach.
pie-qdisc attach rb rate 20mbit || echo "FAILED attach"
(pie-qdisc record rb 2> plain.said | tee plain.history | pie audit > plain.finding) &
reader=$!
sleep 1
tcp 5201 -P 4 -t 4 &
sender=$!
udp 5202 10.0.2.1 -b 16M -l 1200 -t 4
wait $sender
keeps plain rb
ends $reader
# (on the console pie would report its progress)
pie explain --lost plain.history > plain.lost 2> plain.errors || { echo "FAILED explain"; cat plain.errors; }
pie-qdisc show rb
pie-qdisc detach rb || echo "FAILED detach"
[ ! -e /sys/fs/bpf/pie_qdisc ] || echo "FAILED: the pins of unused programs stay"
joins

# One queue, to which each processor sends. The kernel forwards a packet of a veth on the processor of its sender.
processors=$(nproc)
echo "TOLD $processors processors"
pie-qdisc attach rb rate 60mbit limit 300 || echo "FAILED attach"
pie-qdisc record rb --ring 67108864 > one.history 2> one.said &
reader=$!
sleep 1
at=0 senders=
while [ $at -lt "$processors" ]; do
    udp $((5201 + at)) 10.0.2.1 -b 40M -l 1000 -t 4 -A $at &
    senders="$senders $!" at=$((at + 1))
done
tcp 5208 -P 2 -t 4
for sender in $senders; do
    wait "$sender"
done
keeps one rb
ends $reader
pie-qdisc detach rb || echo "FAILED detach"
joins

# A queue below mq for each of the four transmit queues of m0, from each processor. (The kernel would use one of them for all routed packets of ra.)
by=
pie-qdisc attach m0 mq rate 10mbit || echo "FAILED attach mq"
readers=
for child in 1 2 3 4; do
    pie-qdisc record m0 parent 1:$child --ring 67108864 > mq$child.history 2> mq$child.said &
    readers="$readers $!"
done
sleep 1
at=0 senders=
while [ $at -lt 6 ]; do
    udp $((5201 + at)) 10.0.4.1 -b 12M -l 1000 -t 4 -A $((at % processors)) &
    senders="$senders $!" at=$((at + 1))
done
for sender in $senders; do
    wait "$sender"
done
keeps mq m0
# shellcheck disable=SC2086
ends $readers
by='ip netns exec a'
pie-qdisc detach m0 || echo "FAILED detach mq"
joins

# If the senders' device sends packets of one segment, the controller and the shaper have such packets
ip -n a link set a0 gso_max_segs 1
pie-qdisc attach rb rate 20mbit || echo "FAILED attach"
pie-qdisc record rb > segments.history 2> segments.said &
reader=$!
sleep 1
tcp 5201 -P 2 -t 2
keeps segments rb
ends $reader
pie-qdisc detach rb || echo "FAILED detach"
dmesg | grep -E 'WARNING|BUG|Oops|Call Trace'
tar -cf - ./*.history ./*.tc ./*.show ./*.lost ./*.finding > /dev/vdb || echo "FAILED tar"
sync
echo ended
echo o > /proc/sysrq-trigger
sleep 60
