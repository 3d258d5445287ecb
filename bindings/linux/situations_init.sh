#!/bin/busybox sh
# The first process of the kernel that situations.sh boots. Each situation has a queue of its own on the device rb, or on eth0. guest_net.sh describes the
# network.
. /net.sh
. /watch.sh
begins
loads veth dummy sch_htb sch_tbf sch_netem e1000 pktgen
finds_disk
connects 1
for at in a:a0 r:ra r:rb b:b0; do
    /bin/ip netns exec ${at%:*} $box sysctl -q -w net.ipv6.conf.${at#*:}.disable_ipv6=1
done
/bin/ip -n r neigh replace 10.0.2.1 lladdr $(/bin/ip netns exec b $box cat /sys/class/net/b0/address) dev rb nud permanent
/bin/ip netns exec b /bin/iperf3 -s -D
$box mkdir /tmp/steps

# situation NAME: prints its name, beside which pie-watch prints the queue
situation() {
    echo "TOLD situation $1"
}

# pktgen's words for the next floods
words=

# sends COUNT SIZE RATE: UDP with ECN to an address at the link that no host has, with the words of `words`
sends() {
    $in_queue $box sh -c "cd /proc/net/pktgen && echo add_device $device > kpktgend_0 && for words in 'count $1' 'pkt_size $2' 'ratep $3' 'dst 10.0.2.9' \
        'dst_mac 02:00:00:00:00:09' 'tos 02' 'udp_src_min 1000' 'udp_src_max 1100' 'flag UDPSRC_RND' 'xmit_mode queue_xmit' $words
        do echo \$words > $device || echo FAILED pktgen; done
        echo start > pgctrl; echo rem_device_all > kpktgend_0"
}

tc() {
    /bin/tc -n r "$@" || echo "FAILED tc $*"
}

removes() {
    $box sleep 0.3
    tc qdisc del dev rb root
}

# says TEXT: waits until pie-watch says this text
says() {
    turn=0
    while [ $turn -lt 3000 ] && $box kill -0 $watch 2> /dev/null; do
        $box grep -q "$1" /tmp/all.said && return
        $box sleep 0.2
        turn=$((turn + 1))
    done
    echo "FAILED: pie-watch does not say $1"
    $box cat /tmp/all.said
}

# finishes: keeps the texts, and ends
finishes() {
    $box dmesg | $box grep -E 'WARNING|BUG|Oops|Call Trace'
    cd /tmp/steps
    $box tar -cf - . > /dev/vda || echo "FAILED tar"
    $box sync
    echo ended
    $box poweroff -f
}

if [ "$list" = more ]; then
    . /situations_more.sh
    finishes
fi

# pie-watch begins before the kernel has its modules
$in_queue /bin/pie-watch --all --compact --ring 64 -o /tmp/steps/all.steps 2> /tmp/all.said &
watch=$!
says waiting
loads sch_pie
says '^pie-watch: recording'

situation vlan
queues pie ecn
words="'vlan_id 5' 'vlan_p 1'" sends 3000 600 4000
words="'vlan_id 5' 'svlan_id 6'" sends 3000 600 4000
removes
situation untagged_drops
queues pie
sends 3000 600 4000
removes
situation estimator
queues pie dq_rate_estimator ecn
sends 4000 600 4000
removes
situation lower_limit
queues pie ecn limit 400
sends 1500 600 8000
tc qdisc change dev rb parent 1:1 handle 2: pie limit 20
sends 500 600 8000
tc qdisc change dev rb parent 1:1 handle 2: pie limit 10 dq_rate_estimator
sends 500 600 8000
removes
situation peeked
tc qdisc add dev rb root handle 1: tbf rate 5mbit burst 3000 limit 100000
tc qdisc add dev rb parent 1:1 handle 2: pie ecn limit 200
sends 3000 600 4000
tc qdisc change dev rb parent 1:1 handle 2: pie limit 5
sends 1000 600 4000
removes

# a device with a short ring, to which segments return
/bin/ip link set eth0 netns r
/bin/ip link set eth1 netns b
/bin/ip netns exec r /bin/device_options eth0 80 || echo "FAILED device_options"
/bin/ip -n r addr add 10.0.3.2/24 dev eth0
/bin/ip -n b addr add 10.0.3.1/24 dev eth1
/bin/ip -n r link set eth0 up
/bin/ip -n b link set eth1 up
$box sleep 2
situation returned
tc qdisc add dev eth0 root handle 1: pie limit 60 ecn
/bin/ip netns exec r $box timeout 20 /bin/iperf3 -c 10.0.3.1 -P 4 -n 1M > /dev/null 2>&1 &
sent=$!
$box sleep 1
tc qdisc change dev eth0 root handle 1: pie limit 2
$box sleep 0.3
tc qdisc change dev eth0 root handle 1: pie limit 60
wait $sent
$box sleep 0.3
tc qdisc del dev eth0 root

# fq_pie's module comes later
loads sch_fq_pie
says 'sch_fq_pie was loaded'
situation fq_vlan
queues fq_pie ecn flows 32
words="'vlan_id 5' 'vlan_p 1'" sends 3000 600 4000
removes
situation fq_refused
queues fq_pie limit 300 flows 32 ecn
sends 2000 600 4000
sends 3000 600 4000 &
$box sleep 0.3
/bin/tc -n r qdisc replace dev rb parent 1:1 handle 2: fq_pie limit 20 flows 64 2> /dev/null && echo "FAILED: flows are changed"
wait $!
removes
situation fq_lower_limit_estimator
queues fq_pie limit 300 flows 32 ecn
sends 2000 600 4000
sends 3000 600 4000 &
$box sleep 0.3
tc qdisc change dev rb parent 1:1 handle 2: fq_pie limit 20 dq_rate_estimator
wait $!
tc qdisc change dev rb parent 1:1 handle 2: fq_pie limit 5 target 5ms
sends 1000 600 4000
removes
situation fq_priority
queues fq_pie limit 60 flows 32 ecn
words="'skb_priority 131079'" sends 3000 600 4000
removes
situation fq_flap
queues fq_pie limit 300 flows 32 ecn
sends 2000 600 4000
sends 3000 600 4000 &
$box sleep 0.3
/bin/ip -n r link set rb down
/bin/ip -n r link set rb up
wait $!
sends 1000 600 4000
removes
situation fq_peeked
tc qdisc add dev rb root handle 1: tbf rate 5mbit burst 3000 limit 100000
tc qdisc add dev rb parent 1:1 handle 2: fq_pie ecn limit 200 flows 32
sends 3000 600 4000
tc qdisc change dev rb parent 1:1 handle 2: fq_pie limit 5
sends 1000 600 4000
removes
$box kill -INT $($box pidof pie-watch)
wait $watch
echo "TOLD all: status $?"
$box sed "s/^/TOLD all: /" /tmp/all.said

# segments: each begins with a resumed fq_pie, whose memory a flap kept
watches segments --all --rotate 256kb -o /tmp/steps/segments
queues fq_pie limit 300 flows 32 ecn
sends 1000 600 4000 &
$box sleep 0.2
/bin/ip -n r link set rb down
/bin/ip -n r link set rb up
wait $!
sends 4000 600 4000
removes
ends 0

# a device that comes again under its name, with a queue that works before it is recorded
/bin/ip -n r link add d1 type dummy
watches again d1 -o /tmp/steps/again.csv
for number in 1 2; do
    /bin/ip -n r link set d1 up
    tc qdisc add dev d1 root handle 5: pie
    device=d1 sends 100 600 4000
    /bin/ip -n r link del d1
    [ $number = 2 ] || /bin/ip -n r link add d1 type dummy
done
ends 0

# a ring that is too small for the resumed queue
queues pie limit 20000 target 100s
tc class change dev rb parent 1: classid 1:1 htb rate 8kbit
sends 100000 60 3000 &
sent=$!
$box sleep 4
watches small --ring 1 -o /tmp/steps/small.csv rb
$box sleep 2
ends 2
$in_queue $box sh -c 'echo stop > /proc/net/pktgen/pgctrl'
removes
wait $sent

# no queue, and a time
$in_queue /bin/pie-watch --duration 2 -o /tmp/steps/none.csv ra 2> /tmp/none.said || echo "FAILED: pie-watch --duration"
$box sed "s/^/TOLD none: /" /tmp/none.said

# a full disk, and a reader that is killed
$box mkdir /tmp/full
$box mount -t tmpfs -o size=300k none /tmp/full
watches full -o /tmp/full/full.csv rb
queues pie ecn
sends 3000 600 4000
turn=0
while [ $turn -lt 3000 ] && $box kill -0 $watch 2> /dev/null; do
    $box sleep 0.2
    turn=$((turn + 1))
done
[ $turn -lt 3000 ] || echo "FAILED: pie-watch records on a full disk"
$box sed "s/^/TOLD full: /" /tmp/full.said
$box cp /tmp/full/full.csv.partial /tmp/steps/full.csv || echo "FAILED: no file on the full disk"
watches killed -o /tmp/steps/killed.csv rb
sends 3000 600 4000
$box kill -KILL $($box pidof pie-watch)
$box mv /tmp/steps/killed.csv.partial /tmp/steps/killed.csv || echo "FAILED: no file of the killed reader"
removes
finishes
