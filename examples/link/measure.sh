# Sourced by run.sh, tests/program/link.sh and flood.sh. `measure` runs TCP and ping through the
# link, between network namespaces that it creates. When the script ends, also by a signal,
# everything that it created is removed. Traffic is IPv6 if LINK_FAMILY is 6, otherwise IPv4.

link_program=$(cd "$(dirname "${BASH_SOURCE[0]}")" && pwd)/out/link
names=(link-$$-from link-$$-link link-$$-to)
started=()
near=10.0.0.1 far=10.0.0.2
[ "${LINK_FAMILY:-4}" = 6 ] && near=fd00::1 far=fd00::2

# Ends the started processes, by their numbers, and removes the namespaces.
clean_up() {
    local pid name
    for pid in "${started[@]}"; do
        kill -TERM "$pid" 2> /dev/null
    done
    for pid in "${started[@]}"; do
        wait "$pid" 2> /dev/null
    done
    started=()
    for name in "${names[@]}"; do
        [ -e "/run/netns/$name" ] && ip netns del "$name"
    done
    return 0
}
trap clean_up EXIT
trap 'exit 130' INT
trap 'exit 143' TERM HUP

# within NAME COMMAND..: runs a command in a namespace, for at most the time of the whole run
within() {
    local name=$1
    shift
    exec ip netns exec "$name" timeout --kill-after=5 "$bound" "$@"
}

# The link runs at the highest priority: if it is woken late, it sends and updates late.
before_others='nice -n -15'
chrt --fifo 50 true 2> /dev/null && before_others='chrt --fifo 50'

# wait_for COMMAND..: repeats the command until it succeeds, for at most ten minutes
wait_for() {
    local try
    for try in $(seq 6000); do
        "$@" > /dev/null 2>&1 && return 0
        sleep 0.1
    done
    echo "measure.sh: this did not come about: $*" >&2
    return 1
}

# has_device NAME DEVICE: succeeds if the namespace has the device
has_device() {
    ip -n "$1" link show "$2"
}

# is_listening NAME: succeeds if a server listens at iperf3's port, 5201
is_listening() {
    ip netns exec "$1" grep -q ':1451 .* 0A ' /proc/net/tcp /proc/net/tcp6
}

# set_up_end NAME DEVICE ADDRESS PEER: moves a device of the link into a namespace of its own, with a route to the other end
set_up_end() {
    # (the kernel's own packets of IPv6 would come before the traffic)
    [ "${LINK_FAMILY:-4}" = 6 ] || ip netns exec "$1" sysctl -q -w net.ipv6.conf.default.disable_ipv6=1 2> /dev/null
    ip -n "${names[1]}" link set "$2" netns "$1"
    ip -n "$1" addr add "$3" peer "$4" dev "$2"
    ip -n "$1" link set lo up
    ip -n "$1" link set "$2" up
    ip -n "$1" route replace "$4" dev "$2"
    ip netns exec "$1" sysctl -q -w net.ipv4.tcp_ecn=1 net.ipv4.tcp_no_metrics_save=1
}

# counters NAME: prints the kernel's counts of IP packets that a namespace received: marked CE, with
# a wrong IPv4 checksum, with a bad header
counters() {
    ip netns exec "$1" cat /proc/net/netstat /proc/net/snmp6 /proc/net/snmp | awk '
        $1 == "IpExt:" || $1 == "Ip:" { if ($1 in names) { for (i = 2; i <= NF; i++) value[$1 named[$1, i]] = $i }
            else { names[$1] = 1; for (i = 2; i <= NF; i++) named[$1, i] = $i } }
        NF == 2 { value[$1] = $2 }
        END { print value["IpExt:InCEPkts"] + value["Ip6InCEPkts"], value["IpExt:InCsumErrors"] + 0,
            value["Ip:InHdrErrors"] + value["Ip6InHdrErrors"] }'
}

# begin FOLDER [OPTIONS OF THE LINK..]: creates the namespaces and the link between them ($process;
# its output is in FOLDER/link; files of an earlier run are replaced), and starts a server of iperf3
begin() {
    local folder=$1 name
    shift
    mkdir -p "$folder"
    for name in "${names[@]}"; do
        ip netns add "$name" || return 1
    done
    # shellcheck disable=SC2086
    (exec ip netns exec "${names[1]}" $before_others "$link_program" --from senders --to receivers --for "${bound}s" --force "$@") \
        > "$folder/link" 2>&1 &
    process=$!
    started+=("$process")
    wait_for has_device "${names[1]}" senders && wait_for has_device "${names[1]}" receivers || return 1
    set_up_end "${names[0]}" senders "$near" "$far" && set_up_end "${names[2]}" receivers "$far" "$near" || return 1
    (within "${names[2]}" iperf3 --server --one-off) > "$folder/server" 2>&1 &
    started+=($!)
    wait_for is_listening "${names[2]}"
}

# send FOLDER SECONDS FLOWS [OPTIONS OF IPERF3..]: starts FLOWS flows of TCP in the background, for
# SECONDS
send() {
    local folder=$1 seconds=$2 flows=$3
    shift 3
    (within "${names[0]}" iperf3 --client "$far" --parallel "$flows" --time "$seconds" --congestion cubic "$@") > "$folder/tcp" 2>&1 &
    started+=($!)
}

# kill_in_the_middle FOLDER SECONDS FLOWS [OPTIONS OF THE LINK..]: sends TCP through a link with a
# flight recorder. After half of the time it requests the recorder's text (FOLDER/flight.history),
# and then kills the link; FOLDER/flight is the file that the link leaves
kill_in_the_middle() {
    local folder=$1 seconds=$2 flows=$3 process
    shift 3
    bound=$((seconds + 600))
    begin "$folder" --flight "$folder/flight" "$@" || return 1
    send "$folder" "$seconds" "$flows"
    sleep "$((seconds / 2))"
    kill -USR1 "$process"
    wait_for test -s "$folder/flight.history" || return 1
    sleep 1
    kill -KILL "$process"
    wait "$process" 2> /dev/null
    clean_up
}

# measure FOLDER SECONDS FLOWS [OPTIONS OF THE LINK..]: writes history, tcp, ping and link (the
# output of each program), and counters (the counts of the receivers' kernel) to FOLDER
measure() {
    local folder=$1 seconds=$2 flows=$3 process
    shift 3
    bound=$((seconds + 600))
    begin "$folder" --history "$folder/history" "$@" || return 1
    (within "${names[0]}" ping -n -i 0.05 -w "$seconds" "$far") > "$folder/ping" 2>&1 &
    started+=($!)
    send "$folder" "$seconds" "$flows" --format k
    wait $! || { cat "$folder/tcp" >&2; return 1; }
    # the link writes out its history when it is ended
    kill -TERM "$process"
    wait "$process"
    counters "${names[2]}" > "$folder/counters"
    clean_up
}

# waits HISTORY [SECONDS]: prints the number of departed packets, without those of the first
# seconds, and their wait in ms: mean, median, 99th percentile
waits() {
    awk -F, -v start="${2:-0}" '$1 == "arrive" { since[$4] = $3 }
        $1 == "depart" && $4 == "left" { if ($3 >= start * 1e9) print ($3 - since[$5]) / 1e6; delete since[$5] }' "$1" |
        sort -n | awk '{ wait[NR] = $1; sum += $1 }
            END { if (NR == 0) print 0, 0, 0, 0; else print NR, sum / NR, wait[int((NR + 1) / 2)], wait[int((NR * 99 + 99) / 100)] }'
}
