#!/bin/busybox sh
# The first process of the kernel that sparse.sh boots. guest_net.sh describes the network: the queue is on rb in the namespace r.
. /net.sh
begins
loads veth sch_netem sch_htb sch_fq_codel sch_pie sch_fq_pie
finds_disk
$box mount -t bpf bpf /bpf
$box sysctl -q -w net.ipv6.conf.default.disable_ipv6=1
connects 1
/bin/ip -n a link set a0 gso_max_segs 1
/bin/ip -n b link set b0 gso_max_segs 1
/bin/tc -n b qdisc add dev b0 root netem delay 20ms limit 10000

# kernel NAME WORDS..: adds a queue of the kernel below htb at 10 Mbit/s, with a small bucket as in bench/uml
kernel() {
    /bin/tc -n r qdisc add dev rb root handle 1: htb default 1
    /bin/tc -n r class add dev rb parent 1: classid 1:1 htb rate 10mbit burst 5b cburst 5b
    /bin/tc -n r qdisc add dev rb parent 1:1 "$@" || echo "FAILED tc $*"
}
q() {
    /bin/ip netns exec r /bin/pie-qdisc --pins /bpf/pie "$@"
}

# keeps: writes all files to the disk, also if the guest is stopped later
keeps() {
    (cd /tmp && $box tar -cf /dev/vda *)
    $box sync
}

# runs NAME BLOCK: runs the plan of a block
runs() {
    begin=$(($($box date +%s) * 1000000000 + 2000000000))
    /bin/ip netns exec b /bin/traffic receive 10.0.2.1 $begin /tmp/$1.$2.received &
    receiver=$!
    $box sleep 0.2
    /bin/ip netns exec a /bin/traffic send 10.0.2.1 $begin /plans/$2 /tmp/$1.$2.sent || echo "FAILED sender $1 $2"
    $box sleep 1
    $box kill $receiver
    wait $receiver
    /bin/tc -n r -s -j qdisc show dev rb > /tmp/$1.$2.tc
    keeps
}

for block in $($box ls /plans | $box sort -n); do
    q attach rb fq rate 10mbit || echo "FAILED attach"
    runs fq_here $block
    q detach rb
    for kind in fq_pie fq_codel; do
        kernel $kind
        runs $kind $block
        /bin/tc -n r qdisc del dev rb root
    done
    # each flow's record of one more run is clean alone
    if [ $block = 1 ]; then
        q attach rb fq rate 10mbit || echo "FAILED attach"
        (q record rb -o /tmp/flows 2> /tmp/flows.said; echo $? > /tmp/flows.status) &
        $box sleep 0.1
        runs recorded $block
        q show rb --json > /tmp/recorded.show
        q detach rb
        wait
        keeps
    fi
done
$box echo "TOLD simulated: $($box cut -d' ' -f1 /proc/uptime) s"
$box echo ended
$box poweroff -f
