#!/bin/busybox sh
# The first process of the kernel that boot.sh boots. guest_net.sh describes the network. `transfer` is the number of bytes that TCP sends over lo.
. /net.sh
begins
loads veth sch_htb sch_tbf sch_netem
finds_disk
loads failover net_failover virtio_net
connects 2
/bin/tc -n b qdisc add dev b0 root netem delay 20ms limit 10000
/bin/ip netns exec b /bin/iperf3 -s -D
/bin/ip netns exec b /bin/iperf3 -s -D -p 5202
$box sleep 1

# received NAME.WHEN: keeps the receiver's counters
received() {
    /bin/ip netns exec b $box cat /proc/net/netstat > /tmp/$1
}

# tap WORDS..: pie-tap in the namespace of the queue
tap() {
    /bin/ip netns exec r /bin/pie-tap "$@"
}

# sends SECONDS [WORDS..]: four flows of TCP; prints the receiver's rate
sends() {
    $box echo "TOLD $(/bin/ip netns exec a /bin/iperf3 -c 10.0.2.1 -P 4 -t "$@" -f m | $box grep 'SUM.*receiver')"
}

# pings NAME: pings for three seconds, in the background
pings() {
    (/bin/ip netns exec a $box ping -i 0.1 -c 30 -q 10.0.2.1 > /tmp/ping; $box echo "TOLD $1: $($box tail -n 1 /tmp/ping)") &
}

# keeps NAME NAMESPACE DEVICE: keeps the record, the statistics of the queue 2: and the receiver's counters, at a moment when no packet comes, and
# removes the queue
keeps() {
    until /bin/tc -n $2 -s -j qdisc show dev $3 > /tmp/earlier &&
        { /bin/ip netns exec $2 /bin/pie-tap dump $3 > /tmp/$1.history || echo "FAILED pie-tap dump $1"; } &&
        /bin/tc -n $2 -s -j qdisc show dev $3 > /tmp/$1.json &&
        [ "$($box grep -o '"packets":[0-9]*' /tmp/earlier)" = "$($box grep -o '"packets":[0-9]*' /tmp/$1.json)" ]; do
        $box sleep 0.1
    done
    received $1.after
    /bin/tc -n $2 qdisc del dev $3 root
}

# ends NAME: keeps what a queue on rb has, while nothing is sent
ends() {
    /bin/ip -n r link set ra down
    $box sleep 0.5
    keeps $1 r rb
    /bin/ip -n r link set ra up
    wait
}

# carries NAME ADDRESS BYTES NAMESPACE DEVICE: TCP carries BYTES through the queue 2: of DEVICE, in segments that are counted with 65535 bytes
carries() {
    received $1.before
    $box timeout 600 /bin/ip netns exec $4 /bin/iperf3 -c $2 -n $3 -f m > /tmp/carried || echo "FAILED: $1 carries nothing"
    $box echo "TOLD $1: $($box grep receiver /tmp/carried)"
    $box sleep 0.5
    keeps $1 $4 $5
    [ "$($box grep -c '^arrive,.*,65535,' /tmp/$1.history)" -gt 20 ] || echo "FAILED: $1 has no segment of 65535 bytes"
}

# link_down_and_up: purges the queue while senders send
link_down_and_up() {
    /bin/ip -n r link set rb down
    /bin/ip -n r link set rb up
    /bin/ip -n r route replace 10.0.2.0/24 dev rb
}

# floods SECONDS: ICMP at three times the rate of the link
floods() {
    senders=
    for number in 1 2 3; do
        /bin/ip netns exec a $box ping -q -i 0.001 -s 1400 10.0.2.1 > /dev/null &
        senders="$senders $!"
    done
    $box sleep "$1"
    $box kill $senders
}

# refuses COMMAND PARENT WORDS..: the addition, change or replacement of the queue 2: is refused; prints tc's text
refuses() {
    command=$1
    parent=$2
    shift 2
    if /bin/tc -n r qdisc $command dev rb $parent handle 2: "$@" 2> /tmp/refused; then
        echo "FAILED: not refused: $*"
    fi
    $box echo "TOLD refused: $* ($($box sed -n 's/^Error: //p' /tmp/refused))"
}

# supers NAME: four flows through a queue of one packet, which refuses every segment of many super-packets; keeps the kernel's events of packets
supers() {
    received $1.before
    /bin/tc -n r qdisc add dev rb root handle 1: htb default 1
    /bin/tc -n r class add dev rb parent 1: classid 1:1 htb rate 10mbit
    /bin/tc -n r qdisc add dev rb parent 1:1 handle 2: pie_recorded limit 1 || echo "FAILED tc $1"
    echo > $tracing/trace
    echo 1 > $tracing/tracing_on
    sends 1 > /dev/null
    ends $1
    echo 0 > $tracing/tracing_on
    $box grep -E 'kfree_skb:|net_dev_queue:' $tracing/trace > /tmp/$1.trace
}

# limits WANTED DEVICE PARENT WORDS..: a queue with these words has the limits WANTED
limits() {
    wanted=$1
    device=$2
    parent=$3
    shift 3
    /bin/tc qdisc add dev $device $parent handle 2: pie_recorded "$@" 2> /tmp/warned || echo "FAILED tc $device $*"
    /bin/tc qdisc show dev $device | $box grep -q "^qdisc pie_recorded 2: .*$wanted " ||
        /bin/tc qdisc show dev $device | $box sed "s/^/FAILED: not $wanted: /"
    $box echo "TOLD limits of $device $*: $wanted $($box sed -n 's/^Warning: //p' /tmp/warned)"
}

# by the speed of a network card, by the option rate, and without both. A speed is not the rate below a shaper, or of a device of software
$box insmod /mods/sch_pie_recorded.ko || echo "FAILED insmod"
for card in eth0:10mbit eth1:1gbit; do
    /bin/ip link set ${card%:*} up
done
limits "rate 10Mbit limit 3906p" eth0 root
/bin/pie-tap dump eth0 > /tmp/rate_10mbit.excerpt || echo "FAILED pie-tap dump eth0"
/bin/tc qdisc change dev eth0 root handle 2: pie_recorded rate 1gbit 2> /dev/null && echo "FAILED: the rate is changed"
/bin/tc qdisc del dev eth0 root
limits "rate 1Gbit limit 65536p" eth1 root
$box grep -q Warning /tmp/warned && echo "FAILED: a warning of the default limit"
/bin/pie-tap dump eth1 > /tmp/rate_1gbit.excerpt || echo "FAILED pie-tap dump eth1"
/bin/tc qdisc del dev eth1 root
limits "root refcnt 2 limit 1000p" eth1 root limit 1000
$box grep -q '^Warning: limit is below' /tmp/warned || echo "FAILED: no warning of a limit of 12 ms"
/bin/tc qdisc del dev eth1 root
limits "rate 2Mbit limit 781p" eth1 root rate 2mbit
/bin/pie-tap dump eth1 > /tmp/rate_2mbit.excerpt || echo "FAILED pie-tap dump eth1"
/bin/tc qdisc del dev eth1 root
limits "rate 10Mbit limit 500p" eth1 root rate 10mbit limit 500
/bin/tc qdisc del dev eth1 root
/bin/tc qdisc add dev eth1 root handle 1: htb default 1
/bin/tc class add dev eth1 parent 1: classid 1:1 htb rate 10mbit
limits "parent 1:1 limit 1000p" eth1 "parent 1:1"
/bin/tc qdisc del dev eth1 root
limits "root refcnt 2 limit 1000p" eth2 root
/bin/tc qdisc del dev eth2 root
/bin/ip link add s0 type veth peer name s1
limits "root refcnt 2 limit 1000p" s0 root
/bin/ip link del s0
$box rmmod sch_pie_recorded || echo "FAILED rmmod"

# full segments over an MTU above 65521 bytes: over lo, and over a veth pair below htb
$box insmod /mods/sch_pie_recorded.ko || echo "FAILED insmod"
/bin/tc -n b qdisc add dev lo root handle 2: pie_recorded events 1000000 || echo "FAILED tc lo"
carries lo 127.0.0.1 $transfer b lo
/bin/ip link add a1 mtu 65535 netns a type veth peer name b1 mtu 65535 netns b
/bin/ip -n a addr add 10.0.3.1/24 dev a1
/bin/ip -n b addr add 10.0.3.2/24 dev b1
/bin/ip -n a link set a1 up
/bin/ip -n b link set b1 up
/bin/tc -n a qdisc add dev a1 root handle 1: htb default 1
/bin/tc -n a class add dev a1 parent 1: classid 1:1 htb rate 200mbit
/bin/tc -n a qdisc add dev a1 parent 1:1 handle 2: pie_recorded events 100000 || echo "FAILED tc a1"
carries jumbo 10.0.3.2 8M a a1
$box rmmod sch_pie_recorded || echo "FAILED rmmod"

# four flows through htb, by the name pie_recorded; the record is followed, and summed up
$box insmod /mods/sch_pie_recorded.ko || echo "FAILED insmod"
received flows.before
/bin/tc -n r qdisc add dev rb root handle 1: htb default 1
/bin/tc -n r class add dev rb parent 1: classid 1:1 htb rate 10mbit
/bin/tc -n r qdisc add dev rb parent 1:1 handle 2: pie_recorded || echo "FAILED tc pie_recorded"
tap follow --flows /tmp/flows.csv rb > /tmp/flows.followed &
tap record rb > /tmp/flows.periods &
pings flows
sends 4
tap list
/bin/tc -n r -s qdisc show dev rb
ends flows

# each segment of a super-packet is dropped: so is the packet, which the parent counts
$box mount -t tracefs tracing /sys/kernel/tracing
tracing=/sys/kernel/tracing
echo 0 > $tracing/tracing_on
echo 1 > $tracing/events/net/net_dev_queue/enable
echo 1 > $tracing/events/skb/kfree_skb/enable
[ ! -e $tracing/events/qdisc/qdisc_drop ] || echo 1 > $tracing/events/qdisc/qdisc_drop/enable
supers whole
if $box grep -q OVERLIMIT $tracing/events/skb/kfree_skb/format $tracing/events/qdisc/qdisc_drop/format 2> /dev/null; then
    $box grep -q -E 'reason(: QDISC_|=)OVERLIMIT' $tracing/trace || echo "FAILED: no reason of a drop by the limit"
fi
$box rmmod sch_pie_recorded || echo "FAILED rmmod"
$box insmod /mods/faulty.ko fault=consumed || echo "FAILED insmod fault=consumed"
supers mutant_consumed
$box rmmod sch_pie_recorded || echo "FAILED rmmod consumed"
echo 0 > $tracing/events/enable
$box insmod /mods/sch_pie_recorded.ko || echo "FAILED insmod"

# a long queue: its purge stops after each thousand packets
/bin/tc -n r qdisc add dev rb root handle 1: tbf rate 10kbit burst 10kb latency 10s
/bin/tc -n r qdisc add dev rb parent 1:1 handle 2: pie_recorded limit 100000 target 10s tupdate 1s || echo "FAILED tc limit 100000"
received long.before
floods 1.2
/bin/ip -n r link set rb down
$box sleep 0.1
/bin/ip -n r link set rb up
/bin/ip -n r route replace 10.0.2.0/24 dev rb
ends long

# each option, by the plugin of tc
for words in "limit 100" "target 5ms" "tupdate 1ms" "alpha 4 beta 30" "ecn bytemode" "dq_rate_estimator" "max_burst 50ms mark_ecnth 20%" "decay_half" \
    "events 1000 noflows" "events 0"; do
    /bin/tc -n r qdisc add dev rb root handle 2: pie_recorded $words || echo "FAILED tc $words"
    echo "$words: $(/bin/tc -n r qdisc show dev rb)"
    /bin/tc -n r qdisc del dev rb root
done
for words in "limit 0" "rate 0bit" "limit 2000000" "target 20s" "tupdate 1us" "tupdate 11s" "alpha 20000" "max_burst 1001s" "events 20000000" "events 10000000"; do
    /bin/tc -n r qdisc add dev rb root handle 2: pie_recorded $words 2> /tmp/refused && echo "FAILED: not refused: $words"
    $box echo "TOLD refused: $words ($($box sed -n 's/^Error: //p' /tmp/refused))"
done

# a record is charged to the cgroup of the process that adds the queue
$box mkdir /cgroup
$box mount -t cgroup2 cgroup /cgroup
echo +memory > /cgroup/cgroup.subtree_control
$box mkdir /cgroup/small
echo 16M > /cgroup/small/memory.max
/bin/tc -n r qdisc add dev rb root handle 2: pie_recorded events 400000 || echo "FAILED tc events 400000"
/bin/tc -n r qdisc del dev rb root
if (echo 0 > /cgroup/small/cgroup.procs; exec /bin/tc -n r qdisc add dev rb root handle 2: pie_recorded events 400000) 2> /tmp/refused; then
    echo "FAILED: not refused: a record above the memory of the cgroup"
fi
$box echo "TOLD refused: a record above the memory of the cgroup ($($box tail -n 1 /tmp/refused))"

# the memory of a record is counted until its last mapping ends; a page is mapped when it is read
memory=/sys/module/sch_pie_recorded/parameters/memory
echo 4 > $memory
/bin/tc -n r qdisc add dev rb root handle 2: pie_recorded events 65536 || echo "FAILED tc events 65536"
/bin/ip netns exec r /bin/pie-tap follow rb > /dev/null &
reader=$!
$box sleep 0.1
$box kill -STOP $reader
mapped=$($box awk '/pie_recorded/ { is_record = 1 } is_record && /^Rss:/ { sum += $2; is_record = 0 } END { print sum + 0 }' /proc/$reader/smaps)
[ $mapped -gt 0 ] && [ $mapped -lt 500 ] || echo "FAILED: $mapped KiB of the record are mapped before they are read"
/bin/tc -n r qdisc del dev rb root
refuses add root pie_recorded events 65536
$box rmmod sch_pie_recorded 2> /dev/null && echo "FAILED: the module is removed while a record is mapped"
$box kill -CONT $reader
wait $reader
/bin/tc -n r qdisc add dev rb root handle 2: pie_recorded events 65536 || echo "FAILED tc events 65536 after the mapping"
/bin/tc -n r qdisc del dev rb root

# a queue whose default record cannot be had works without one, also below mq by default
echo 1 > $memory
/bin/ip -n r link add m0 numtxqueues 8 numrxqueues 8 type veth peer name m1
$box sysctl -q -w net.core.default_qdisc=pie_recorded
/bin/tc -n r qdisc add dev m0 root handle 8: mq || echo "FAILED: mq has no queues"
$box sysctl -q -w net.core.default_qdisc=pfifo_fast
[ "$(/bin/tc -n r qdisc show dev m0 | $box grep -c 'pie_recorded.*events 0')" = 7 ] || /bin/tc -n r qdisc show dev m0 | $box sed 's/^/FAILED: /'
/bin/tc -n r qdisc add dev rb root handle 2: pie_recorded 2> /tmp/warned || echo "FAILED tc without memory"
$box echo "TOLD warned: $($box cat /tmp/warned)"
$box grep -q '^Warning: ' /tmp/warned || echo "FAILED: no warning"
/bin/ip netns exec a $box ping -c 3 -i 0.01 -q 10.0.2.1 > /dev/null || echo "FAILED: no packets without a record"
/bin/tc -n r qdisc del dev rb root
/bin/ip -n r link del m0

# the root of a user namespace: its user's locked memory, half of the module's, and no tupdate below 1 ms
cat > /tmp/other << 'END_OTHER'
/bin/ip link set lo up
/bin/tc qdisc add dev lo root handle 1: htb
records=0
for number in 1 2 3 4; do
    /bin/tc class add dev lo parent 1: classid 1:$number htb rate 1mbit
    /bin/tc qdisc add dev lo parent 1:$number handle 1$number: pie_recorded events 65536 2>> /tmp/other.said && records=$((records + 1))
done
/bin/tc class add dev lo parent 1: classid 1:5 htb rate 1mbit
/bin/tc qdisc add dev lo parent 1:5 handle 15: pie_recorded tupdate 999us events 0 2>> /tmp/other.said && echo "FAILED: tupdate 999us"
/bin/tc qdisc add dev lo parent 1:5 handle 15: pie_recorded tupdate 1ms events 0 || echo "FAILED tupdate 1ms"
/bin/tc qdisc change dev lo parent 1:5 handle 15: pie_recorded tupdate 999us 2> /dev/null && echo "FAILED: change to tupdate 999us"
echo $records > /tmp/other.records
while [ ! -e /tmp/other.ends ]; do /bin/busybox sleep 0.05; done
END_OTHER

# others MIB: they add records while the module's memory is MIB, and then the initial namespace adds one
others() {
    echo $1 > $memory
    $box rm -f /tmp/other.*
    $box unshare -U -r -n $box sh /tmp/other &
    other=$!
    while [ ! -e /tmp/other.records ]; do $box sleep 0.05; done
    /bin/tc -n r qdisc add dev rb root handle 2: pie_recorded events 65536 || echo "FAILED: others take all of $1 MiB"
    /bin/tc -n r qdisc del dev rb root
    $box touch /tmp/other.ends
    wait $other
    $box echo "TOLD others: $($box cat /tmp/other.records) records of 4 in $1 MiB"
    $box sed -n 's/^Error: /TOLD refused: /p' /tmp/other.said | $box sort -u
}
ulimit -l 8192
others 256
[ "$($box cat /tmp/other.records)" = 2 ] || echo "FAILED: others have not two records in 8 MiB of locked memory"
ulimit -l unlimited
others 8
[ "$($box cat /tmp/other.records)" = 1 ] || echo "FAILED: others have not one record in half of 8 MiB"
$box sleep 0.5
echo 256 > $memory

# one record for each queue of mq, with numbers of their own after a replacement
/bin/tc -n r qdisc add dev rb root handle 8: mq
for queue in 8:1 8:2 8:2; do
    /bin/tc -n r qdisc replace dev rb parent $queue pie_recorded events 5000 || echo "FAILED tc mq"
done
sends 1 -b 1M > /dev/null
tap list
number=0
for file in $(tap list | $box grep -o '/proc/net/pie_recorded/.*'); do
    number=$((number + 1))
    tap dump $file > /tmp/mq_$number.excerpt || echo "FAILED pie-tap dump $file"
done
[ $number = 2 ] || echo "FAILED: mq has $number records"
/bin/tc -n r qdisc del dev rb root
$box rmmod sch_pie_recorded || echo "FAILED rmmod"

# the kernel's queues in the same place
if [ "$all" = 1 ]; then
    $box insmod /mods/sch_pie.ko || echo "FAILED insmod sch_pie"
    for words in "pfifo limit 1000" "fq_codel" "pie"; do
        /bin/tc -n r qdisc add dev rb root handle 1: htb default 1
        /bin/tc -n r class add dev rb parent 1: classid 1:1 htb rate 10mbit
        /bin/tc -n r qdisc add dev rb parent 1:1 handle 2: $words || echo "FAILED tc $words"
        pings "${words%% *}"
        sends 3
        wait
        /bin/tc -n r qdisc del dev rb root
    done
    $box rmmod sch_pie || echo "FAILED rmmod sch_pie"
fi

# ECN through tbf, which peeks, by the name pie, with a flood of UDP; each option changes while traffic flows, and the link goes down and up
$box insmod /mods/sch_pie_recorded.ko kind=pie events=65536 || echo "FAILED insmod kind=pie"
for name in a b; do
    /bin/ip netns exec $name $box sysctl -q -w net.ipv4.tcp_ecn=1
done
received changes.before
/bin/tc -n r qdisc add dev rb root handle 1: tbf rate 10mbit burst 10kb latency 10s
/bin/tc -n r qdisc add dev rb parent 1:1 handle 2: pie limit 500 ecn || echo "FAILED tc pie"
sends 5 &
$box sleep 2
/bin/tc -n r qdisc change dev rb parent 1:1 handle 2: pie target 5ms || echo "FAILED change target"
/bin/ip netns exec a /bin/iperf3 -c 10.0.2.1 -p 5202 -u -b 40M -t 10 > /dev/null 2>&1 &
flood=$!
$box sleep 1
$box kill $flood
/bin/tc -n r qdisc change dev rb parent 1:1 handle 2: pie tupdate 8ms alpha 4 beta 30 noecn || echo "FAILED change"
refuses replace "parent 1:1" pie limit 100
refuses change "parent 1:1" pie bytemode
refuses change "parent 1:1" pie dq_rate_estimator
refuses change "parent 1:1" pie target 20s
$box sleep 1
link_down_and_up
wait
ends changes
$box rmmod sch_pie_recorded || echo "FAILED rmmod"

# the module with each fault: ECN through tbf, by marks alone, with a limit that is reached; then a flood whose packets are dropped whenever two wait, and a
# purge meanwhile
for fault in $($box cat /mods/faults); do
    name=mutant_$fault
    $box insmod /mods/faulty.ko fault=$fault || echo "FAILED insmod fault=$fault"
    received $name.before
    /bin/tc -n r qdisc add dev rb root handle 1: tbf rate 10mbit burst 10kb latency 10s
    /bin/tc -n r qdisc add dev rb parent 1:1 handle 2: pie_recorded limit 60 target 2ms tupdate 10ms ecn mark_ecnth 100% events 65536 || echo "FAILED tc $name"
    sends 1 > /dev/null
    /bin/tc -n r qdisc change dev rb parent 1:1 handle 2: pie_recorded target 1us tupdate 1ms alpha 32 beta 32 || echo "FAILED change $name"
    floods 0.3
    floods 0.2 &
    $box sleep 0.1
    link_down_and_up
    wait
    ends $name
    $box rmmod sch_pie_recorded || echo "FAILED rmmod $name"
done

# faults that the module survives
$box sysctl -q -w kernel.panic_on_warn=0
$box insmod /mods/faulty.ko fault=due || echo "FAILED insmod fault=due"
/bin/tc -n r qdisc add dev rb root handle 2: pie_recorded || echo "FAILED tc due"
$box sleep 0.1
/bin/tc -n r qdisc del dev rb root
$box rmmod sch_pie_recorded || echo "FAILED rmmod due"
[ "$($box dmesg -c | $box grep -c 'WARNING.* pr_')" = 1 ] || echo "FAILED: a moment in the past is due without a warning"
$box sysctl -q -w kernel.panic_on_warn=1

$box insmod /mods/faulty.ko fault=unsegmented || echo "FAILED insmod fault=unsegmented"
/bin/tc -n r qdisc add dev rb root handle 2: pie_recorded || echo "FAILED tc unsegmented"
$box timeout 3 /bin/ip netns exec a /bin/iperf3 -c 10.0.2.1 -t 1 > /dev/null 2>&1
/bin/tc -n r -s qdisc show dev rb > /tmp/unsegmented
$box grep -q 'refused [1-9]' /tmp/unsegmented || $box sed 's/^/FAILED: unsegmented: /' /tmp/unsegmented
/bin/tc -n r qdisc del dev rb root
$box rmmod sch_pie_recorded || echo "FAILED rmmod unsegmented"

# a local sender: clones that could be marked, and then GSO packets below a size table
$box insmod /mods/faulty.ko fault=uncopied || echo "FAILED insmod fault=uncopied"
received uncopied.before
/bin/tc -n a qdisc add dev a0 root handle 1: stab overhead 100 htb default 1
/bin/tc -n a class add dev a0 parent 1: classid 1:1 htb rate 5mbit
/bin/tc -n a qdisc add dev a0 parent 1:1 handle 2: pie_recorded target 1us tupdate 1ms alpha 32 beta 32 max_burst 0ms ecn mark_ecnth 100% ||
    echo "FAILED tc uncopied"
/bin/ip -n a link set a0 gso_max_segs 1
/bin/ip netns exec a /bin/iperf3 -c 10.0.2.1 -P 4 -t 1 > /dev/null
/bin/tc -n a -s qdisc show dev a0 > /tmp/uncopied
$box grep -q 'ecn_mark 0' /tmp/uncopied && $box grep -q 'early [1-9]' /tmp/uncopied || $box sed 's/^/FAILED: uncopied: /' /tmp/uncopied
/bin/ip -n a link set a0 gso_max_segs 65535
/bin/tc -n a qdisc change dev a0 parent 1:1 handle 2: pie_recorded target 1s || echo "FAILED change uncopied"
/bin/ip netns exec a /bin/iperf3 -c 10.0.2.1 -P 4 -t 1 > /dev/null
$box sleep 0.5
keeps uncopied a a0
[ "$($box grep -c '^arrive,.*,1614,' /tmp/uncopied.history)" -gt 100 ] || echo "FAILED: segments have not the overhead of the size table"
[ "$($box grep -c '^arrive,.*,1514,' /tmp/uncopied.history)" = 0 ] || echo "FAILED: segments without the overhead of the size table"
$box rmmod sch_pie_recorded || echo "FAILED rmmod uncopied"

$box insmod /mods/faulty.ko fault=unsized || echo "FAILED insmod fault=unsized"
/bin/tc -n r qdisc add dev rb root handle 2: pie_recorded || echo "FAILED tc unsized"
tap dump rb > /dev/null || echo "FAILED: a record is opened without its size"
/bin/tc -n r qdisc del dev rb root
$box rmmod sch_pie_recorded || echo "FAILED rmmod unsized"

# a reader ends with its queue, and the module can be removed then
for at in before after; do
    $box insmod /mods/sch_pie_recorded.ko || echo "FAILED insmod"
    /bin/tc -n r qdisc add dev rb root handle 2: pie_recorded events 100 || echo "FAILED tc"
    if [ $at = before ]; then
        tap follow rb > /dev/null &
        tap=$!
        $box sleep 0.1
        /bin/tc -n r qdisc del dev rb root
        $box sleep 1
        if $box kill -0 $tap 2> /dev/null; then
            echo "FAILED: pie-tap reads a record whose queue is gone"
        fi
        $box rmmod sch_pie_recorded || echo "FAILED rmmod after the reader"
    fi
done
/bin/tc -n r qdisc del dev rb root

# the namespace of the queue is deleted while senders send and its record is mapped
/bin/tc -n r qdisc add dev rb root handle 1: tbf rate 10mbit burst 10kb latency 10s
/bin/tc -n r qdisc add dev rb parent 1:1 handle 2: pie_recorded || echo "FAILED tc"
tap follow rb > /tmp/deleted.excerpt &
/bin/ip netns exec a /bin/iperf3 -c 10.0.2.1 -P 4 -t 1 > /dev/null 2>&1 &
sender=$!
$box sleep 0.5
/bin/ip netns del r
$box sleep 1
$box killall iperf3
wait $sender
for name in a b; do
    /bin/ip netns del $name
done
$box sleep 1
$box rmmod sch_pie_recorded || echo "FAILED rmmod after the namespace"
$box dmesg | $box grep -E 'WARNING|BUG|Oops|Call Trace'
# the program for this processor, if it is here
for history in /tmp/*.history; do
    [ ! -x /bin/pie ] || $box echo "${history##*/} $(/bin/pie audit < $history)"
done > /tmp/audits
# a serial line would take longer
cd /tmp
$box tar -cf - audits *.history *.trace *.followed *.periods *.excerpt *.json *.csv *.before *.after > /dev/vda || echo "FAILED tar"
$box sync
echo ended
$box poweroff -f
