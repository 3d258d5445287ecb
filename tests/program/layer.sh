#!/usr/bin/env bash
# Compares the link's --overhead, --mpu and --linklayer with `tc stab`: UDP of every size from 28 to
# 1500 bytes goes through a device whose qdisc has a stab, and through the link behind it
# (examples/link). For each 64 sizes the bytes that tc counts must be those of the history's
# arrivals. Without root or /dev/net/tun the script runs in user-mode Linux (bench/uml). Prints a
# line NOT RUN if a requirement is missing.
# usage: tests/program/layer.sh [PROGRAM]      PROGRAM: crates/pie/out/pie by default
# needs: program, library, root
. "$(dirname "$0")/../shared/script.sh"
. "$top/tests/shared/through_link.sh" iperf3 python3
bound=600

# send: sends UDP of each size, and prints, for each 64 sizes, the bytes and packets that the
# device's qdisc counted. After each 64 it waits until the link has read all packets that left the
# qdisc: a TUN device counts a packet when it is read, and drops packets if too many are unread
send() {
    ip netns exec "${names[0]}" python3 - "$far" <<'END'
import json, socket, subprocess, sys, time

def shown(*words):
    return json.loads(subprocess.run(words, capture_output=True, check=True).stdout)[0]

def read():
    return shown("ip", "-s", "-j", "link", "show", "senders")["stats64"]["tx"]["packets"]

def counted(packets):
    """Waits, ten minutes at most, until so many packets were read. Returns the bytes that left the qdisc."""
    for _ in range(60000):
        if read() >= packets:
            return shown("tc", "-s", "-j", "qdisc", "show", "dev", "senders")["bytes"]
        time.sleep(0.01)
    sys.exit(f"the link read {read()} packets, not {packets}")

sender, packets = socket.socket(socket.AF_INET, socket.SOCK_DGRAM), read()
before = counted(packets)
for first in range(28, 1501, 64):
    sizes = range(first, min(first + 64, 1501))
    for size in sizes:
        sender.sendto(bytes(size - 28), (sys.argv[1], 9))
    packets += len(sizes)
    after = counted(packets)
    print(after - before, len(sizes))
    before = after
END
}

# one OPTIONS..: options of tc; the link has the same options after --
one() {
    local word options=() first
    for word in "$@"; do
        case $word in overhead | mpu | linklayer) options+=("--$word") ;; *) options+=("$word") ;; esac
    done
    # shellcheck disable=SC2154
    begin "$work/$*" --history "$work/$*/history" --rate 1gbit --rtt 0s --limit 10000p "${options[@]}" || exit 1
    ip netns exec "${names[0]}" tc qdisc add dev senders root stab "$@" pfifo limit 10000
    send > "$work/wanted" || exit 1
    kill -TERM "$process"
    wait "$process"
    clean_up
    first=$(($(grep -c '^arrive,' "$work/$*/history") - 1473))
    awk -F, '$1 == "arrive" { print $5 }' "$work/$*/history" | tail -n +$((first + 1)) > "$work/sizes"
    awk 'NR == FNR { size[NR] = $1; next } { sum = 0; for (i = 0; i < $2; i++) sum += size[++at]; print sum, $2 }' "$work/sizes" "$work/wanted" \
        > "$work/found"
    cmp -s "$work/found" "$work/wanted" ||
        fail "stab $*: bytes of the link and of tc, by 64 sizes: $(paste "$work/found" "$work/wanted" | awk '$1 != $3 { print $1, $3 }' | head -n 3 | paste -s)"
}

one overhead -14
one overhead 44 mpu 84
one overhead 40 linklayer atm
one overhead -10 mpu 53 linklayer adsl
[ $failed = 0 ] && echo "$script: the sizes of the link are those of tc stab, for packets of 28 to 1500 bytes"
exit $failed
