# For situations_init.sh, which reads this file by `.` with `list=more`: a queue of its own for each situation, in one recording that resumes each queue every
# two seconds. `said NAME` begins a situation; its queues are those that pie-watch names after it.

# link: a link of 5 Mbit/s, whose class is 1:1
link() {
    tc qdisc add dev rb root handle 1: htb default 1
    tc class add dev rb parent 1: classid 1:1 htb rate 5mbit
}

# below PARENT WORDS..: a queue below a class
below() {
    parent=$1
    shift
    tc qdisc add dev rb parent $parent handle 2: "$@"
}

# changes WORDS..: changes the queue of the class 1:1
changes() {
    tc qdisc change dev rb parent 1:1 handle 2: "$@"
}

# forwards: forwards TCP in large segments, and pings in fragments
forwards() {
    /bin/ip netns exec a $box timeout 20 /bin/iperf3 -c 10.0.2.1 -n 1M > /dev/null 2>&1
    /bin/ip netns exec a $box ping -q -c 10 -i 0.02 -s 4000 10.0.2.1 > /dev/null 2>&1
}

# said NAME: begins a situation
said() {
    $box sleep 0.1
    echo "TOLD situation $1: queues from $($box grep -c -E ': (pie|fq_pie)$' /tmp/more.said) on"
}

loads sch_pie sch_fq_pie sch_prio sch_drr sch_hfsc sch_ets sch_red sch_qfq sch_ingress cls_matchall act_mirred act_skbedit ifb macvlan llc stp bridge tunnel4 ip_tunnel ipip mrp garp 8021q
$in_queue /bin/pie-watch --all --compact --ring 128 --resume-every 2 -o /tmp/steps/all.steps 2> /tmp/more.said &
watch=$!
until $box grep -q '^pie-watch: recording' /tmp/more.said; do $box sleep 0.2; done

for kind in pie fq_pie; do
    for options in '' 'limit 1' 'limit 2 ecn bytemode' 'target 1ms tupdate 1ms' 'alpha 32 beta 32 limit 100' 'alpha 0 beta 0 limit 100' 'bytemode ecn target 2ms' \
        'target 500ms tupdate 30ms limit 200' 'dq_rate_estimator bytemode limit 100'; do
        said "$kind $options"
        link
        # shellcheck disable=SC2086
        below 1:1 $kind $options
        sends 700 500 4000
        removes
    done
done
for options in 'flows 1 limit 60' 'quantum 1' 'quantum 100000 flows 8' 'memory_limit 20000' 'memory_limit 1' 'ecn ecn_prob 0 target 2ms' 'ecn ecn_prob 99 target 2ms' \
    'flows 65536 limit 50' 'bytemode ecn dq_rate_estimator limit 60'; do
    said "fq_pie $options"
    link
    # shellcheck disable=SC2086
    below 1:1 fq_pie $options
    sends 700 500 4000
    removes
done
for kind in pie fq_pie; do
    for tree in 'prio:10:2:prio' 'ets:10:3:ets bands 3 strict 1 quanta 1500 1500' 'red:10:1:red limit 100000 min 5000 max 50000 avpkt 600 burst 30' \
        'netem:10:1:netem delay 3ms limit 500' 'drr:10:1:drr' 'qfq:10:1:qfq' 'hfsc:10:1:hfsc default 1'; do
        said "$kind below ${tree%%:*}"
        link
        # shellcheck disable=SC2086
        tc qdisc add dev rb parent 1:1 handle 10: ${tree#*:*:*:}
        case $tree in
            drr:*) tc class add dev rb parent 10: classid 10:1 drr quantum 1500 ;;
            qfq:*) tc class add dev rb parent 10: classid 10:1 qfq weight 10 maxpkt 2048 ;;
            hfsc:*) tc class add dev rb parent 10: classid 10:1 hfsc sc rate 4mbit ul rate 4mbit ;;
        esac
        case $tree in
            drr:* | qfq:*) tc filter add dev rb parent 10: protocol all prio 1 matchall classid 10:1 ;;
        esac
        place=${tree#*:*:}
        below 10:${place%%:*} $kind limit 60 ecn
        sends 700 500 4000
        removes
    done
done
said 'pie and fq_pie as root'
for kind in pie fq_pie; do
    tc qdisc add dev rb root handle 2: $kind ecn
    sends 500 500 4000
    forwards
    removes
done
said 'mq with four queues'
/bin/ip -n r link add m4 numtxqueues 4 type dummy
/bin/ip -n r link set m4 up
tc qdisc add dev m4 root handle 1: mq
for number in 1 2 3 4; do
    tc qdisc add dev m4 parent 1:$number handle 2$number: pie
done
device=m4 sends 500 500 4000
/bin/ip -n r link del m4
for at in 'macvlan:mv0:link rb name mv0 type macvlan' 'vlan:rb.5:link rb name rb.5 type vlan id 5' 'bridge:br0:name br0 type bridge' 'ifb:if0:name if0 type ifb'; do
    name=${at#*:}
    name=${name%%:*}
    said "on ${at%%:*}"
    # shellcheck disable=SC2086
    /bin/ip -n r link add ${at#*:*:} || echo "FAILED $at"
    /bin/ip -n r link set $name up
    tc qdisc add dev $name root handle 1: tbf rate 3mbit burst 3000 limit 100000
    tc qdisc add dev $name parent 1:1 handle 2: fq_pie limit 40 ecn
    if [ $name = if0 ]; then
        tc qdisc add dev rb clsact
        tc filter add dev rb egress protocol all prio 1 matchall action mirred egress redirect dev if0
        sends 700 500 4000
        tc qdisc del dev rb clsact
    else
        device=$name sends 700 500 4000
    fi
    $box sleep 0.3
    /bin/ip -n r link del $name
done
said 'on a tunnel'
/bin/ip -n r tunnel add t0 mode ipip local 10.0.2.2 remote 10.0.2.1
/bin/ip -n r addr add 10.7.0.1/24 dev t0
/bin/ip -n r link set t0 up
tc qdisc add dev t0 root handle 1: tbf rate 300kbit burst 3000 limit 100000
tc qdisc add dev t0 parent 1:1 handle 2: pie limit 20 ecn
$in_queue $box ping -q -i 0.005 -c 300 -s 800 -W 1 10.7.0.2 > /dev/null
/bin/ip -n r link del t0
for traffic in "'tos 00'" "'tos 01'" "'tos 03'" "'dst6 fd00::9' 'traffic_class 02'" "'mpls 0001000a,0002000a'" "'skb_priority 65538'" "'flows 8' 'flowlen 4'"; do
    said "pie ecn, packets of $traffic"
    link
    below 1:1 pie ecn target 2ms limit 300
    words=$traffic sends 1000 500 4000
    removes
done
said 'large segments, fragments'
for kind in pie fq_pie; do
    link
    below 1:1 $kind ecn bytemode limit 40
    forwards
    removes
done
said 'other MTU'
link
below 1:1 pie bytemode ecn
sends 500 500 4000 &
$box sleep 0.1
/bin/ip -n r link set rb mtu 9000
$box sleep 0.1
/bin/ip -n r link set rb mtu 700
wait $!
/bin/ip -n r link set rb mtu 1500
removes
for kind in pie fq_pie; do
    said "each parameter of $kind is changed"
    link
    below 1:1 $kind limit 300
    sends 4000 500 2500 &
    sent=$!
    for options in 'ecn' 'noecn' 'bytemode' 'nobytemode' 'dq_rate_estimator' 'no_dq_rate_estimator' 'target 1ms' 'tupdate 5ms' 'alpha 20' 'beta 1' 'limit 30' 'limit 5' 'limit 300'; do
        # shellcheck disable=SC2086
        changes $kind $options
        $box sleep 0.1
    done
    if [ $kind = fq_pie ]; then
        for options in 'quantum 300' 'memory_limit 30000' 'ecn ecn_prob 50' 'memory_limit 3000000'; do
            # shellcheck disable=SC2086
            changes $kind $options
            $box sleep 0.1
        done
    fi
    wait $sent
    removes
done
said 'another kind takes the place'
link
below 1:1 pie limit 100
sends 2500 500 2500 &
sent=$!
$box sleep 0.2
tc qdisc replace dev rb parent 1:1 handle 3: fq_pie limit 50
$box sleep 0.2
tc qdisc replace dev rb parent 1:1 handle 4: pie limit 50 ecn
$box sleep 0.2
tc qdisc del dev rb parent 1:1
$box sleep 0.1
tc qdisc add dev rb parent 1:1 handle 5: pie limit 50
wait $sent
removes
said 'a hundred short lives'
link
sends 3000 500 2500 &
sent=$!
number=0
while [ $number -lt 100 ]; do
    number=$((number + 1))
    below 1:1 pie
    tc qdisc del dev rb parent 1:1
done
wait $sent
removes
said 'a processor goes and comes, the clock is set, and tc reads'
link
below 1:1 fq_pie ecn limit 100
sends 2500 500 2500 &
sent=$!
echo 0 > /sys/devices/system/cpu/cpu1/online
$box date -s '2031-01-01 00:00:00' > /dev/null
number=0
while [ $number -lt 30 ]; do
    number=$((number + 1))
    /bin/tc -n r -s qdisc show dev rb > /dev/null
done
echo 1 > /sys/devices/system/cpu/cpu1/online
wait $sent
removes
said 'the device has another name, and goes to another namespace'
/bin/ip -n r link add d2 type dummy
/bin/ip -n r link set d2 up
tc qdisc add dev d2 root handle 6: pie
device=d2 sends 100 500 4000
/bin/ip -n r link set d2 down
/bin/ip -n r link set d2 name d3
/bin/ip -n r link set d3 up
device=d3 sends 100 500 4000
/bin/ip -n r link set d3 netns b
/bin/ip -n b link del d3
said 'a reader that stops for a while'
link
below 1:1 fq_pie ecn limit 100
$box kill -STOP $watch
sends 2500 500 2500
$box kill -CONT $watch
removes
said 'a second recorder'
link
below 1:1 pie ecn limit 100
sends 500 500 2500
$in_queue /bin/pie-watch --duration 3 --force -o /tmp/steps/second.csv rb 2> /tmp/second.said &
second=$!
until $box grep -q '^pie-watch: recording' /tmp/second.said; do $box sleep 0.2; done
sends 6000 500 1500
wait $second
$box sed "s/^/TOLD second: /" /tmp/second.said
removes
$box kill -INT $watch
wait $watch
echo "TOLD all: status $?"
$box sed "s/^/TOLD all: /" /tmp/more.said
