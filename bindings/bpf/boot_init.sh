#!/bin/busybox sh
# The first process of the kernel that boot.sh boots. guest_net.sh describes the network: the queue of most tests is on rb in the namespace r.
. /net.sh
begins
loads veth sch_netem sch_htb
finds_disk
$box mount -t bpf bpf /bpf
$box sysctl -q -w net.ipv6.conf.default.disable_ipv6=1
connects 4
# (a packet of at most 65535 bytes is recorded with its size)
/bin/ip -n a link set a0 gso_max_size 32768
# knows NAMESPACE DEVICE ADDRESS OTHER ITS: the namespace knows the address of the device ITS in OTHER, so that no ARP packet comes later
knows() {
    /bin/ip -n $1 neigh replace $3 lladdr $(/bin/ip netns exec $4 $box cat /sys/class/net/$5/address) dev $2 nud permanent
}
knows a a0 10.0.1.2 r ra
knows r ra 10.0.1.1 a a0
knows r rb 10.0.2.1 b b0
knows b b0 10.0.2.2 r rb
/bin/tc -n b qdisc add dev b0 root netem delay 10ms limit 10000
/bin/ip netns exec b /bin/iperf3 -s -D
/bin/ip netns exec b /bin/iperf3 -s -D -p 5202
/bin/ip netns exec a /bin/iperf3 -s -D -p 5203
program=/bin/pie-qdisc

# within NAMESPACE WORDS..: pie-qdisc in a namespace; q WORDS..: in that of the queue
within() {
    where=$1
    shift
    /bin/ip netns exec $where $program --pins /bpf/pie "$@"
}
q() {
    within r "$@"
}

# attaches WORDS..: adds a queue
attaches() {
    q attach "$@" || echo "FAILED attach $*"
}

# records NAME WORDS..: records in the background, from before the first packet
records() {
    name=$1
    shift
    /bin/ip netns exec r $program --pins /bpf/pie record "$@" > /tmp/$name.history 2> /tmp/$name.said &
    reader=$!
    $box sleep 0.1
}

# keeps NAME NAMESPACE DEVICE: keeps the statistics of the kernel and of pie-qdisc when their numbers rest. No packet comes before `joins`, also none that TCP
# sends again
keeps() {
    /bin/ip -n a route replace blackhole 10.0.2.1
    /bin/ip -n b route replace blackhole 10.0.1.1
    until /bin/tc -n $2 -s -j qdisc show dev $3 > /tmp/earlier && $box sleep 0.4 && /bin/tc -n $2 -s -j qdisc show dev $3 > /tmp/$1.tc &&
        $box cmp -s /tmp/earlier /tmp/$1.tc; do :; done
    within $2 show $3 --json > /tmp/$1.show
}

# joins NAME NAMESPACE DEVICE ADDRESS: records a packet to ADDRESS, from the state with which the record before must end
joins() {
    /bin/ip netns exec $2 $program --pins /bpf/pie record $3 > /tmp/$1.next 2> /tmp/$1.said &
    reader=$!
    $box sleep 0.1
    /bin/ip netns exec $2 $box ping -q -c 1 -W 1 $4 > /dev/null || $box echo "$failing: no answer after $1"
    $box kill $reader
    wait $reader || $box echo "$failing: the reader after $1: $($box cat /tmp/$1.said)"
    /bin/ip -n a route del blackhole 10.0.2.1 2> /dev/null
    /bin/ip -n b route del blackhole 10.0.1.1 2> /dev/null
}

# ends STATUS: ends the reader, which has this status
ends() {
    $box kill $reader
    wait $reader
    status=$?
    [ $status = $1 ] || echo "FAILED: the reader of $name has status $status: $($box cat /tmp/$name.said)"
}

# tcp WORDS..: TCP in four flows; udp RATE SECONDS: datagrams. A program with a fault may stop them
failing=FAILED
tcp() {
    /bin/ip netns exec a $box timeout 30 /bin/iperf3 -c 10.0.2.1 -P 4 -f m "$@" > /tmp/said 2>&1 || $box echo "$failing tcp: $($box tail -n 1 /tmp/said)"
}
udp() {
    /bin/ip netns exec a $box timeout 30 /bin/iperf3 -c 10.0.2.1 -p 5202 -u -b $1 -t $2 -l 1200 > /tmp/said.udp 2>&1 || $box echo "$failing udp: $($box tail -n 1 /tmp/said.udp)"
}

# refuses TEXT WORDS..: pie-qdisc with these words fails with this text
refuses() {
    text=$1
    shift
    if q "$@" > /tmp/refused 2>&1 || ! $box grep -q -e "$text" /tmp/refused; then
        echo "FAILED: not refused: $*: $($box cat /tmp/refused)"
    fi
    $box echo "TOLD refused: $* ($($box head -n 1 /tmp/refused))"
}

q verify > /tmp/verified || echo "FAILED verify"

# no queue yet, and words that are wrong
refuses 'no queue is attached' show
refuses 'no such option' attach rb limits 10
refuses 'out of range' attach rb target 20s
refuses 'from 1 to 4096' attach rb limit 4097
refuses 'not a number' attach rb rate 20

# TCP and UDP through 10 Mbit/s; a reader that comes late, and one that is killed
attaches rb rate 10mbit
records flows rb
tcp -t 1 &
sender=$!
udp 14M 1
wait $sender
keeps flows r rb
ends 0
joins flows r rb 10.0.2.1
q show
records killed rb
tcp -t 2 &
sender=$!
$box sleep 0.7
$box kill -9 $reader
$box sleep 0.3
records again rb
wait $sender
keeps again r rb
ends 0
joins again r rb 10.0.2.1

# changed parameters and another rate, while packets are queued
records changed rb
tcp -t 2 &
sender=$!
$box sleep 0.8
q change rb target 5ms tupdate 10ms rate 5mbit || echo "FAILED change"
$box sleep 0.6
q change rb alpha 4 beta 30 max_burst 10ms || echo "FAILED change"
wait $sender
keeps changed r rb
ends 0
joins changed r rb 10.0.2.1
refuses 'cannot change' change rb limit 10

# a ring buffer that is too small for the pauses of its reader: each excerpt is clean, and the lost events are counted
/bin/ip netns exec r $program --pins /bpf/pie record rb -o /tmp/small.part --ring 4096 2> /tmp/small.said &
reader=$!
$box sleep 0.1
q show rb --json > /tmp/small.before
tcp -t 1
$box kill -STOP $reader
tcp -t 1
$box kill -CONT $reader
$box sleep 0.1
tcp -t 1
keeps small r rb
name=small
ends 2
joins small r rb 10.0.2.1

# detached under traffic: the record ends with the departures and the reset
records detached rb
/bin/ip netns exec a $box ping -q -i 0.001 -s 1400 -c 800 10.0.2.1 > /dev/null &
sender=$!
$box sleep 0.5
q detach rb || echo "FAILED detach"
wait $reader $sender
$box grep -q '^reset,' /tmp/detached.history || echo "FAILED: detached has no reset"
[ ! -e /bpf/pie ] || echo "FAILED: the pins of unused programs stay"

# limits by packets and bytes; the other profile; all choices; two devices at once
attaches rb rate 2mbit limit 20
records packets rb
within r attach ra rate 20mbit on_off random uncapped decay_half bytemode dq_rate_estimator dq_threshold 2048 limit_bytes 60000 || echo "FAILED attach ra"
/bin/ip netns exec r $program --pins /bpf/pie record ra > /tmp/choices.history 2> /tmp/choices.said &
second=$!
$box sleep 0.1
udp 4M 1 &
sender=$!
(/bin/ip netns exec b $box timeout 30 /bin/iperf3 -c 10.0.1.1 -p 5203 -u -b 22M -t 1 -l 1200 > /tmp/said.back 2>&1 || echo "FAILED back: $($box tail -n 2 /tmp/said.back)") &
back=$!
tcp -t 1
wait $sender $back
keeps packets r rb
keeps choices r ra
ends 0
$box kill $second
wait $second || echo "FAILED: the reader of choices"
joins packets r rb 10.0.2.1
joins choices r ra 10.0.1.1
/bin/tc -n r -s qdisc show dev ra
q show
q detach ra
q detach rb

# by tc alone, with the defaults: no shaper, so no queue. The kernel refuses it below htb
attaches ra
/bin/tc -n r qdisc add dev rb root bpf_pie || echo "FAILED tc"
records plain rb
tcp -n 6M
keeps plain r rb
ends 0
joins plain r rb 10.0.2.1
/bin/tc -n r qdisc del dev rb root
/bin/tc -n r qdisc add dev rb root handle 1: htb default 1
/bin/tc -n r class add dev rb parent 1: classid 1:1 htb rate 10mbit
refuses 'only supported on root or mq' attach rb parent 1:1
/bin/tc -n r qdisc del dev rb root

# 64 flows and more in one queue: each has a record, and a packet of one of them continues it. Then the record of this flow alone, until the queue is detached
attaches rb fq rate 10mbit limit 200 target 2ms tupdate 5ms
/bin/ip netns exec r $program --pins /bpf/pie record rb -o /tmp/fq.flows 2> /tmp/fq.said &
reader=$!
name=fq
$box sleep 0.1
/bin/ip netns exec r $box ping -q -c 1 -W 1 10.0.2.1 > /dev/null
/bin/ip netns exec a $box timeout 30 /bin/iperf3 -c 10.0.2.1 -P 30 -t 1 > /tmp/said 2>&1 &
sender=$!
/bin/ip netns exec a $box timeout 30 /bin/iperf3 -c 10.0.2.1 -p 5202 -u -P 45 -b 200k -l 300 -t 1 > /tmp/said.udp 2>&1 || echo "FAILED fq: $($box tail -n 1 /tmp/said.udp)"
wait $sender
keeps fq r rb
ends 0
q show rb
/bin/ip netns exec r $program --pins /bpf/pie record rb -o /tmp/fq.next 2> /tmp/fq.said &
reader=$!
$box sleep 0.1
/bin/ip netns exec r $box ping -q -c 1 -W 1 10.0.2.1 > /dev/null
ends 0
records fqone rb --flow $(echo /tmp/fq.next/flow* | $box sed 's/.*flow//')
/bin/ip -n a route del blackhole 10.0.2.1
/bin/ip -n b route del blackhole 10.0.1.1
/bin/ip netns exec r $box ping -q -i 0.001 -s 1400 -c 300 10.0.2.1 > /dev/null &
sender=$!
$box sleep 0.2
q detach rb
wait $reader $sender
$box grep -q '^reset,' /tmp/fqone.history || echo "FAILED: fqone has no reset"
/bin/tc -n r qdisc add dev rb root bpf_fq_pie || echo "FAILED tc fq"
refuses 'has flows: name a folder' record rb
refuses 'cannot change' change rb flows 10
refuses 'no flow 1024' record rb --flow 1024
/bin/tc -n r qdisc del dev rb root

# spent CALL: prints the time of all calls of a program, and their number
spent() {
    /bin/bpftool prog show name qdisc_op_$1 | $box sed -n 's/.*run_time_ns \([0-9]*\) run_cnt \([0-9]*\).*/\1 \2/p'
}

# costs NAME: prints the time of a call of each program for the packets of UDP without a queue. In simulated time a nanosecond is an instruction
costs() {
    enqueue=$(spent enqueue)
    dequeue=$(spent dequeue)
    $box sysctl -q -w kernel.bpf_stats_enabled=1
    udp 20M 1
    $box sysctl -q -w kernel.bpf_stats_enabled=0
    set -- $1 $(spent enqueue) ${enqueue:-0 0}
    [ $# = 5 ] || echo "FAILED: no time of enqueue"
    $box echo "TOLD $1: $((($2 - $4) / ($3 - $5))) instructions for a call of enqueue, $(($3 - $5)) calls"
    set -- $1 $(spent dequeue) ${dequeue:-0 0}
    $box echo "TOLD $1: $((($2 - $4) / ($3 - $5))) instructions for a call of dequeue, $(($3 - $5)) calls"
}
attaches rb
costs unrecorded
q detach rb
attaches rb
records recorded rb
costs recorded
keeps recorded r rb
ends 0
joins recorded r rb 10.0.2.1
q detach rb

# four queues below mq
/bin/ip -n r link add m0 numtxqueues 4 numrxqueues 4 type veth peer name m1 netns b
/bin/ip -n r addr add 10.0.4.2/24 dev m0
/bin/ip -n b addr add 10.0.4.1/24 dev m1
/bin/ip -n r link set m0 gso_max_size 32768 up
/bin/ip -n b link set m1 up
attaches m0 mq rate 3mbit
for child in 1 2 3 4; do
    q record m0 parent 1:$child > /tmp/mq$child.history 2> /tmp/mq$child.said &
done
$box sleep 0.2
/bin/ip netns exec r $box timeout 30 /bin/iperf3 -c 10.0.4.1 -P 8 -t 1 > /tmp/said 2>&1 || echo "FAILED mq"
keeps mq r m0
for pid in $($box pidof pie-qdisc); do $box kill $pid; done
wait
q detach m0 || echo "FAILED detach mq"
q detach ra

# segments of 64 KiB over lo
within b attach lo rate 200mbit || echo "FAILED attach lo"
(within b record lo > /tmp/segments.history 2> /tmp/segments.said) &
$box sleep 0.1
/bin/ip netns exec b $box timeout 30 /bin/iperf3 -c 127.0.0.1 -t 1 -f m > /tmp/said 2>&1 || echo "FAILED lo"
keeps segments b lo
for pid in $($box pidof pie-qdisc); do $box kill $pid; done
wait
joins segments b lo 127.0.0.1
[ "$($box grep -c '^arrive,.*,65[0-9][0-9][0-9],' /tmp/segments.history)" -gt 5 ] || echo "FAILED: no segment of 64 KiB"
within b detach lo

# programs with one fault each
failing='TOLD with a fault:'
for fault in $($box cat /mods/mutants); do
    program=/bin/pie-qdisc-$fault
    attaches rb rate 5mbit
    records mutant_$fault rb
    # (a fault may stop TCP, and then iperf3's servers are busy)
    /bin/ip netns exec a $box ping -q -i 0.001 -s 1400 -c 1500 -W 1 10.0.2.1 > /dev/null &
    sender=$!
    /bin/ip netns exec a $box ping -q -i 0.003 -s 300 -c 500 -W 1 10.0.2.1 > /dev/null
    wait $sender
    keeps mutant_$fault r rb
    ends 0
    joins mutant_$fault r rb 10.0.2.1
    q detach rb
done
cd /tmp
$box tar -cf /dev/vda *
$box echo "TOLD simulated: $($box cut -d' ' -f1 /proc/uptime) s"
$box echo ended
$box poweroff -f
