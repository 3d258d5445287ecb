# For the first processes of the kernels that scripts boot here (boot_init.sh, measure.sh, mutants.sh, package_init.sh). guest.sh copies this file to
# /watch.sh, and each reads it by `.` after /net.sh.
in_queue="/bin/ip netns exec r" device=rb
run_as=

# watches NAME WORDS..: starts pie-watch, by `in_queue` in the namespace of the queue and by `run_as` as another user, and waits until it records
watches() {
    watched=$1
    shift
    $in_queue $run_as /bin/pie-watch "$@" 2> /tmp/$watched.said &
    watch=$!
    until $box grep -q '^pie-watch: recording' /tmp/$watched.said 2> /dev/null; do
        $box kill -0 $watch 2> /dev/null || { echo "FAILED: pie-watch $watched"; $box cat /tmp/$watched.said; break; }
        $box sleep 0.2
    done
}

# ends STATUS: ends pie-watch, whose status must be STATUS
ends() {
    $box kill -INT $($box pidof pie-watch)
    wait $watch
    status=$?
    [ $status = $1 ] || echo "FAILED: pie-watch $watched ends with $status"
    $box sed "s/^/TOLD $watched: /" /tmp/$watched.said
}

# queues WORDS..: a queue 2: below a link of 10 Mbit/s
queues() {
    /bin/tc -n r qdisc add dev rb root handle 1: htb default 1
    /bin/tc -n r class add dev rb parent 1: classid 1:1 htb rate 10mbit
    /bin/tc -n r qdisc add dev rb parent 1:1 handle 2: "$@" || echo "FAILED tc $*"
}

# floods COUNT SIZE [RATE]: UDP of this size, at most RATE packets a second, with ECN, by the kernel's packet generator, from ports that change, to an
# address at the link that no host has
floods() {
    $in_queue $box sh -c "cd /proc/net/pktgen && echo add_device $device > kpktgend_0 && for words in 'count $1' 'pkt_size $2' 'ratep ${3:-20000}' 'dst 10.0.2.9' \
        'dst_mac 02:00:00:00:00:09' 'tos 02' 'udp_src_min 1000' 'udp_src_max 1100' 'flag UDPSRC_RND' 'xmit_mode queue_xmit'
        do echo \$words > $device || echo FAILED pktgen; done
        echo start > pgctrl; echo rem_device_all > kpktgend_0"
}
