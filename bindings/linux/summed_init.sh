#!/bin/busybox sh
# The first process of the kernel that summed.sh boots. guest_net.sh describes the network.
. /net.sh
. /watch.sh
begins
loads veth dummy sch_htb cls_flow sch_pie pktgen
finds_disk
connects 1
for at in a:a0 r:ra r:rb b:b0; do
    /bin/ip netns exec ${at%:*} $box sysctl -q -w net.ipv6.conf.${at#*:}.disable_ipv6=1
done
$box mkdir -p /tmp/sums /dev/pts
$box mount -t devpts none /dev/pts

# counters NAME [NAMESPACE]: keeps tc's counters
counters() {
    /bin/tc -n ${2:-r} -s -j qdisc show > /tmp/sums/$1.json
}

# removes: removes the queue after its counters did not change for a while
removes() {
    $box sleep 1
    counters $1
    /bin/tc -n r qdisc del dev rb root
}

# fetches PATH FILE: fetches a page of `pie-watch serve` in the namespace r
fetches() {
    $in_queue $box wget -q -O /tmp/sums/$2 "http://127.0.0.1:9464$1" || echo "FAILED wget $1"
}

# few: the modes of pie-watch beside queues that are created and removed
few() {
    # a queue that works already, and one that is created
    queues pie ecn
    floods 300 400 2000
    watches drops --drops --all -o /tmp/sums/drops.csv
    floods 4000 400 6000
    removes running
    queues pie limit 30
    floods 3000 400 4000
    removes limit
    # the module of fq_pie comes later
    loads sch_fq_pie
    turn=0
    until $box grep -q 'sch_fq_pie was loaded' /tmp/drops.said || [ $turn = 300 ]; do
        $box sleep 0.2
        turn=$((turn + 1))
    done
    queues fq_pie ecn flows 16
    floods 4000 400 6000
    $box sleep 1
    counters last
    ends 0
    /bin/tc -n r qdisc del dev rb root

    # one queue, another namespace, no addresses
    /bin/ip -n b link add d1 type dummy
    /bin/ip -n b link set d1 up
    /bin/tc -n b qdisc add dev d1 root handle 7: pie limit 40
    queues pie
    watches one --drops --namespaces --queue 2: --no-addresses --duration 20 -o /tmp/sums/one.csv rb
    floods 3000 400 4000
    $box sleep 1
    counters one
    wait $watch || echo "FAILED: pie-watch --duration ends with $?"
    $box sed "s/^/TOLD one: /" /tmp/one.said

    # the server
    echo 'rb 2:1 subscriber=none' > /tmp/labels
    echo 'rb 1:1 subscriber=4711 plan=gold' >> /tmp/labels
    echo 'rb * site=west' >> /tmp/labels
    counters before_served
    counters before_served_b b
    $in_queue /bin/pie-watch serve --namespaces --labels /tmp/labels :9464 2> /tmp/serve.said &
    until $box grep -q '^pie-watch: serving' /tmp/serve.said; do $box sleep 0.2; done
    fetches /health health.json
    floods 2000 400 3000
    $box sleep 1
    counters served
    counters served_b b
    fetches /metrics served.metrics
    fetches '/queues?sort=wait&most=1' queues.json
    fetches '/queues?match=4711' match.json
    $in_queue $box wget -q -O - "http://127.0.0.1:9464/queues?sort=x" > /dev/null 2>&1 && echo "FAILED: an order x"
    for process in $($box pidof pie-watch); do
        echo "TOLD serve: $($box grep -E '^(Uid|CapEff|CapPrm|NoNewPrivs)' /proc/$process/status | $box tr '\n\t' '  ')"
        $box grep -E '^(Uid|CapEff|CapPrm|CapBnd|NoNewPrivs)' /proc/$process/status >> /tmp/sums/privileges
    done
    /bin/tc -n r qdisc del dev rb root
    fetches /metrics removed.metrics
    $box kill -INT $($box pidof pie-watch)
    wait

    # the terminal
    queues pie limit 25
    floods 100000 400 5000 &
    $in_queue /bin/in_terminal 3 "d/rb~~.....q" /bin/pie-watch top > /tmp/sums/top.screen 2> /tmp/top.said || { echo "FAILED: top ends with $?"; $box cat /tmp/top.said; }
    $in_queue $box sh -c 'echo stop > /proc/net/pktgen/pgctrl'
    wait
    /bin/tc -n r qdisc del dev rb root
    /bin/ip -n b link del d1
}

# many: many leaves on two devices in two namespaces
many() {
    for name in r b; do
        /bin/ip -n $name link add m1 type dummy
        /bin/ip -n $name link set m1 up
        $box awk -v leaves=$leaves 'BEGIN {
            print "qdisc add dev m1 root handle 1: htb default 0"
            print "class add dev m1 parent 1: classid 1:ffff htb rate 10gbit"
            for (n = 1; n <= leaves; n++) {
                printf "class add dev m1 parent 1:ffff classid 1:%x htb rate 400kbit ceil 400kbit\n", n
                printf "qdisc add dev m1 parent 1:%x handle %x: pie tupdate 500ms\n", n, n + 16
            }
            print "filter add dev m1 parent 1: protocol ip prio 1 handle 1 flow map key dst and 0x1ff divisor 250 baseclass 1:1"
        }' > /tmp/batch
        /bin/tc -n $name -batch /tmp/batch || echo "FAILED tc -batch"
        /bin/ip netns exec $name $box sysctl -q -w net.ipv6.conf.m1.disable_ipv6=1
    done
    free() {
        echo 3 > /proc/sys/vm/drop_caches
        $box sleep 2
        $box sed -n 's/^MemFree: *\([0-9]*\) kB/\1/p' /proc/meminfo
    }
    before=$(free)
    $in_queue /bin/pie-watch serve --namespaces --most 100000 :9464 2> /tmp/serve.said &
    until $box grep -q '^pie-watch: serving' /tmp/serve.said; do $box sleep 0.2; done
    fetches /metrics first.metrics
    after=$(free)
    echo "TOLD memory: $((before - after)) kB for $((2 * leaves)) queues, $(((before - after) * 1024 / (2 * leaves))) bytes each, with the process"
    for name in r b; do
        /bin/ip netns exec $name $box sh -c "cd /proc/net/pktgen && echo add_device m1 > kpktgend_0 && for words in 'count 20000' 'pkt_size 400' 'ratep 8000' \
            'dst_min 10.9.0.0' 'dst_max 10.9.0.249' 'dst_mac 02:00:00:00:00:09' 'flag IPDST_RND' 'xmit_mode queue_xmit'
            do echo \$words > m1 || echo FAILED pktgen; done
            echo start > pgctrl; echo rem_device_all > kpktgend_0"
    done
    $box sleep 2
    # used: the processor time of pie-watch's processes, in hundredths of a second
    used() {
        for process in $($box pidof pie-watch); do $box cat /proc/$process/stat; done | $box awk '{ used += $14 + $15 } END { print used }'
    }
    began=$(used)
    for turn in 1 2 3; do
        from=$($box cut -d ' ' -f 1 /proc/uptime)
        fetches /metrics many.metrics
        to=$($box cut -d ' ' -f 1 /proc/uptime)
        fetches /health many_health.json
        echo "TOLD scrape: $from to $to s, $($box wc -c < /tmp/sums/many.metrics) bytes, $($box cat /tmp/sums/many_health.json)"
    done
    echo "TOLD processor: $(($(used) - began)) hundredths of a second of pie-watch for these scrapes, of $(used) in all"
    counters many_r r
    counters many_b b
    $box kill -INT $($box pidof pie-watch)
    wait
}

# long: a server that is read each second, beside overloaded queues of both kinds
long() {
    loads sch_fq_pie
    /bin/ip -n b link add d1 type dummy
    /bin/ip -n b link set d1 up
    /bin/ip netns exec b $box sysctl -q -w net.ipv6.conf.d1.disable_ipv6=1
    /bin/tc -n b qdisc add dev d1 root handle 7: fq_pie
    queues pie ecn
    /bin/tc -n r class change dev rb parent 1: classid 1:1 htb rate 100kbit
    /bin/ip -n r link set rb arp off
    /bin/ip -n r route add 10.9.0.0/16 dev rb
    counters before_long
    $in_queue /bin/pie-watch serve --namespaces :9464 2> /tmp/serve.said &
    until $box grep -q '^pie-watch: serving' /tmp/serve.said; do $box sleep 0.2; done
    turn=0
    while [ $turn -lt $scrapes ]; do
        turn=$((turn + 1))
        $in_queue /bin/many_packets 200 1 || echo "FAILED many_packets"
        read -r from rest < /proc/uptime
        fetches /metrics scrape.$turn
        read -r to rest < /proc/uptime
        echo "$from $to" >> /tmp/sums/scrapes
        [ $((turn % 300)) != 0 ] || echo "TOLD scrape $turn at $to s"
    done
    fetches /health long_health.json
    $box sleep 60
    fetches /metrics long.metrics
    counters long
    $box kill -INT $($box pidof pie-watch)
    wait
    /bin/tc -n r qdisc del dev rb root
    /bin/ip -n b link del d1
}

if [ ${scrapes:=0} != 0 ]; then long; elif [ $leaves = 0 ]; then few; else many; fi
$box dmesg | $box grep -E 'WARNING|BUG|Oops|Call Trace'
cd /tmp/sums
$box tar -cf - . > /dev/vda || echo "FAILED tar"
$box sync
echo ended
$box poweroff -f
