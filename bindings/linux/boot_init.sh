#!/bin/busybox sh
# The first process of the kernel that boot.sh boots: queues of pie and fq_pie on the device rb (guest_net.sh describes the network), and pie-watch beside
# them.
. /net.sh
. /watch.sh
begins
loads veth dummy sch_htb sch_tbf sch_netem sch_pie sch_fq_pie pktgen
finds_disk
connects 1
/bin/tc -n b qdisc add dev b0 root netem delay 5ms limit 10000
/bin/ip netns exec b /bin/iperf3 -s -D
/bin/ip netns exec b /bin/iperf3 -s -D -p 5202
/bin/ip netns exec b /bin/iperf3 -s -D -p 5203
for name in a b; do
    /bin/ip netns exec $name $box sysctl -q -w net.ipv4.tcp_ecn=1
done
for at in a:a0 r:ra r:rb b:b0; do
    /bin/ip netns exec ${at%:*} $box sysctl -q -w net.ipv6.conf.${at#*:}.disable_ipv6=1
done
$box sleep 1

# records NAME WORDS..: records to a compact file of this name. The ring buffer has room for all steps, also if pie-watch has to wait. Each queue is resumed
# every second
records() {
    name=$1
    shift
    watches $name --ring 128 --compact --resume-every 1 -o /tmp/$name.steps "$@"
}

# knows: the hosts at the link know their addresses, so that no ARP packet passes the queue later
knows() {
    /bin/ip -n r neigh replace 10.0.2.1 lladdr $(/bin/ip netns exec b $box cat /sys/class/net/b0/address) dev rb nud permanent
    /bin/ip -n b neigh replace 10.0.2.2 lladdr $(/bin/ip netns exec r $box cat /sys/class/net/rb/address) dev b0 nud permanent
}

# stops STATUS: ends the recording, and keeps tc's later counters
stops() {
    ends $1
    counters > /tmp/$name.later
    /bin/ip -n a route del blackhole 10.0.2.1
}

# counters: prints tc's counters, without the probability, which changes in an idle queue
counters() {
    /bin/tc -n r -s -j qdisc show dev rb | $box sed 's/"prob":[^,]*,//g; s/"delay":[^,]*,//g'
}

# keeps: keeps tc's counters. Until `stops` no packet comes, also none that TCP sends again
keeps() {
    /bin/ip -n a route add blackhole 10.0.2.1 || echo "FAILED blackhole"
    until counters > /tmp/$name.earlier && $box sleep 0.3 && counters > /tmp/$name.json && $box cmp -s /tmp/$name.earlier /tmp/$name.json; do :; done
}

changes() {
    /bin/tc -n r qdisc change dev rb parent 1:1 handle 2: "$@" || echo "FAILED tc change $*"
}

# sends WORDS..: a connection, which is tried again if its first packets are dropped
sends() {
    until /bin/ip netns exec a /bin/iperf3 -c 10.0.2.1 "$@" > /tmp/sent$1 2>&1; do
        echo "TOLD again: $($box tail -n 1 /tmp/sent$1)"
        $box sleep 0.5
    done
}

# carries: $bytes of TCP by two flows, and of UDP at three times the rate of the link
carries() {
    sends -P 2 -n $bytes &
    tcp=$!
    sends -p 5202 -u -b 30M -l 700 -n $bytes
    wait $tcp
}

# rate WORD: the rate of the link
rate() {
    /bin/tc -n r class change dev rb parent 1: classid 1:1 htb rate $1 || echo "FAILED rate $1"
}

knows

# a queue that works already, with packets that wait: 1 kB/s leaves, and more arrives until it is recorded
queues pie ecn
carries
rate 8kbit
/bin/ip netns exec a $box ping -q -i 0.005 -s 1000 10.0.2.1 > /dev/null &
pings=$!
$box sleep 2
records running rb
$box kill $pings
/bin/ip netns exec a $box ping -q -c 1 -W 1 10.0.2.1 > /dev/null
rate 10mbit
changes pie limit 60 target 5ms tupdate 10ms alpha 4 beta 30
carries
floods $packets 200
changes pie limit 10
/bin/ip -n r link set rb down
/bin/ip -n r link set rb up
/bin/ip -n r route replace 10.0.2.0/24 dev rb
knows
changes pie limit 500 bytemode
carries
floods $packets 700
keeps
stops 0
/bin/tc -n r qdisc del dev rb root

# a queue from its creation on, beside another device's, and its removal
records created --all --rate-estimator
/bin/tc -n r qdisc add dev ra root handle 3: pie || echo "FAILED tc ra"
queues pie dq_rate_estimator
carries
floods $packets 400
keeps
/bin/tc -n r qdisc del dev rb root
/bin/tc -n r qdisc del dev ra root
stops 0

# fq_pie, and a queue that is not wanted
records flows --queue 2: rb
queues fq_pie limit 400 flows 64 ecn
carries
floods $packets 300
floods $packets 900
keeps
stops 0
/bin/tc -n r qdisc del dev rb root

# a ring that is too small while pie-watch is stopped: 1 MiB has room for 6,500 enqueues. Afterwards pie-watch reads it
queues pie
records small --ring 1 rb
$box kill -STOP $($box pidof pie-watch)
carries
floods 10000 60
written=$($box stat -c %s /tmp/small.steps.partial)
$box kill -CONT $($box pidof pie-watch)
until [ $($box stat -c %s /tmp/small.steps.partial) -gt $written ]; do $box sleep 0.1; done
carries
keeps
stops 2
/bin/tc -n r qdisc del dev rb root

# segments, each of which begins with the resumed queues; the queue of ra has no packets
watches segments --ring 128 --all --compact --rotate 256kb -o /tmp/segments
/bin/tc -n r qdisc add dev ra root handle 3: pie || echo "FAILED tc ra"
queues fq_pie limit 400 flows 64 ecn
carries
floods $packets 300
$box sleep 0.5
ends 0
/bin/tc -n r qdisc del dev ra root
/bin/tc -n r qdisc del dev rb root

# some of many queues, by a user other than root with CAP_PERFMON, CAP_BPF and CAP_SYS_ADMIN
$box chmod 1777 /tmp
run_as="/bin/as_nobody 38 39 21 --"
watches sampled --anyway --all --every 4 -o /tmp/sampled.text
run_as=
for number in 1 2 3 4 5 6 7 8 9 10 11 12 13 14 15 16; do
    /bin/ip -n r link add d$number type dummy
    /bin/tc -n r qdisc add dev d$number root pie
done
ends 0
sampled=$($box grep -c ',init,' /tmp/sampled.text)
[ $sampled -gt 0 ] && [ $sampled -lt 16 ] || echo "FAILED: --every 4 records $sampled of 16 queues"
for number in 1 2 3 4 5 6 7 8 9 10 11 12 13 14 15 16; do
    /bin/ip -n r link del d$number
done

# refuses NAME WORDS TEXT: pie-watch with WORDS fails, and its only line contains TEXT
refuses() {
    $2 > /tmp/refused 2>&1 && echo "FAILED: $1 is not refused"
    $box sed "s/^/TOLD $1: /" /tmp/refused
    $box grep -q "$3" /tmp/refused && [ "$($box wc -l < /tmp/refused)" = 1 ] || echo "FAILED: $1"
}

# over FILE WITH: another file in the place of a file of the kernel
over() {
    $box mount -o bind $2 $1
}
refuses device "/bin/pie-watch none" 'no such device'
refuses file "/bin/pie-watch -o /tmp/small.steps lo" 'the file exists'
refuses segment "/bin/pie-watch --rotate 1mb -o /tmp/segments lo" '/tmp/segments.[0-9]*: the file exists'
refuses capabilities "/bin/as_nobody -- /bin/pie-watch lo" 'missing: CAP_PERFMON, CAP_BPF, CAP_SYS_ADMIN'
refuses capability "/bin/as_nobody 38 39 -- /bin/pie-watch lo" 'missing: CAP_SYS_ADMIN'
refuses version "/bin/setarch x86_64 --uname-2.6 /bin/pie-watch lo" 'Linux 2.6.* was not tested; tested: Linux 6.1 and 6.12'

# verified WORDS..: the names of the programs that pie-watch loads with these words, each before the number of instructions that the verifier processed
verified() {
    $in_queue /bin/pie-watch -v --all --duration 1 --force -o /tmp/verified.csv "$@" > /tmp/verified.said 2>&1
    $box sed -n "s/^libbpf: prog '\(.*\)': -- BEGIN.*/\1/p; s/^processed \([0-9]*\) insns.*/\1/p" /tmp/verified.said
}
{
    verified
    verified --drops
} > /tmp/verified

$box grep -v ' pie_reset' /proc/kallsyms > /tmp/symbols
over /proc/kallsyms /tmp/symbols
refuses hook "/bin/pie-watch --anyway lo" 'no function pie_reset'
$box umount /proc/kallsyms
$box sed 's/^[0-9a-f]* T get_random_bytes$/ffffffff81000000 T get_random_bytes/' /proc/kallsyms > /tmp/symbols
over /proc/kallsyms /tmp/symbols
refuses inlined "/bin/pie-watch lo" 'pie_drop_early does not call get_random_bytes in this kernel'
$box umount /proc/kallsyms
over /sys/kernel/btf/sch_pie /mods/changed.btf
refuses field "/bin/pie-watch --anyway lo" 'struct pie_stats has no field overlimit'
$box umount /sys/kernel/btf/sch_pie
$box mount -t tmpfs none /sys/kernel/btf
refuses types "/bin/pie-watch lo" 'CONFIG_DEBUG_INFO_BTF'
$box umount /sys/kernel/btf
$box rmmod sch_fq_pie
$box rmmod sch_pie
/bin/pie-watch lo 2> /tmp/refused &
until $box grep -q 'sch_pie is not loaded, .* waiting' /tmp/refused; do $box sleep 0.1; done
$box kill -INT $($box pidof pie-watch)
wait $! && echo "FAILED: pie-watch ends with 0 without a module"
$box mount -t securityfs none /sys/kernel/security
echo confidentiality > /sys/kernel/security/lockdown
refuses lockdown "/bin/pie-watch lo" 'locked down'

$box dmesg | $box grep -E 'WARNING|BUG|Oops|Call Trace'
cd /tmp
$box tar -cf - *.steps *.json *.later segments.* verified > /dev/vda || echo "FAILED tar"
$box sync
echo ended
$box poweroff -f
