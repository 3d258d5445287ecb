#!/usr/bin/env bash
# Tests the comments of captures: tshark must print, byte for byte, the explanations that `pie
# explain` prints of each lost and each marked packet. One capture is replayed (examples/replay),
# also as pcapng, and one is taken by tcpdump while TCP goes through the link in user space
# (examples/link). No file may be lost: an output that is an input or exists is refused. Prints a
# line NOT RUN if a requirement is missing.
# usage: tests/program/comments.sh [PROGRAM]      PROGRAM: crates/pie/out/pie by default
# needs: program, library, root
. "$(dirname "$0")/../shared/script.sh"
for command in tshark tcpdump; do
    command -v $command > /dev/null || { echo "NOT RUN: $script: no comments of captures, for want of $command"; exit 0; }
done
. "$top/tests/shared/through_link.sh" iperf3 tcpdump tshark
replay=$top/examples/replay

# frames FILE: the number, time, lengths and protocols of each frame
frames() {
    tshark -n -r "$1" -T fields -e frame.number -e frame.time_epoch -e frame.len -e frame.cap_len -e frame.protocols 2> /dev/null
}

# compare NAME HISTORY CAPTURE: at least one packet was lost, tshark has pie explain's words for each, and the frames are unchanged
compare() {
    "$replay/comments.py" "$program" "$2" "$3" "$work/$1.pcapng" || exit 1
    "$program" explain --digest --csv < "$2" | grep -E '^(event |  )' > "$work/$1.wanted"
    tshark -n -r "$work/$1.pcapng" -Y frame.comment -T fields -e frame.comment 2> /dev/null | sed 's/\\n/\n/g' > "$work/$1.found"
    grep -q DROPPED "$work/$1.wanted" || fail "$1: nothing was lost"
    cmp "$work/$1.wanted" "$work/$1.found" || fail "$1: tshark prints other comments"
    tshark -n -r "$work/$1.pcapng" -Y frame.comment -T fields -e frame.number -e frame.comment 2> /dev/null |
        awk '{ sub(",", "", $5); if ($1 != $5) { print; exit 1 } }' || fail "$1: a comment at another frame"
    [ "$1" = simple ] && return # (its packets have no times)
    frames "$3" > "$work/$1.before"
    frames "$work/$1.pcapng" | cmp "$work/$1.before" - || fail "$1: other frames"
}

# refuse NAME TEXT WORDS..: comments.py refuses these files with this text, and the capture and the history stay
refuse() {
    local name=$1 text=$2
    shift 2
    if "$replay/comments.py" "$@" 2> "$work/said" || ! grep -q -e "$text" "$work/said"; then
        fail "$name: $(cat "$work/said")"
    fi
    cmp "$work/made.pcap" "$work/made.copy" && cmp "$work/history" "$work/history.copy" || fail "$name: a file was lost"
}

if missing=$("$top/tests/install.sh" --check examples/replay) && make -s -C "$replay" > "$work/build.log" 2>&1; then
    "$replay/made.py" "$work/whole.pcap" && editcap -r -F pcap "$work/whole.pcap" "$work/made.pcap" 1-6000 && "$replay/out/replay" --rate 50mbit --ecn -o "$work/history" "$work/made.pcap" 'ip or ip6' 2> /dev/null || exit 1
    grep -q -E '^arrive,.*,mark$' "$work/history" || fail "nothing was marked"
    compare replayed "$work/history" "$work/made.pcap"
    editcap -F pcapng "$work/made.pcap" "$work/made.pcapng" && compare pcapng "$work/history" "$work/made.pcapng"
    python3 - "$work/made.pcapng" "$work/simple" << 'END' && compare simple "$work/history" "$work/simple"
import struct, sys
data, made, at = open(sys.argv[1], "rb").read(), b"", 0
while at < len(data):  # (in the other byte order, and its packets as simple packets, which have neither time nor options)
    kind, size = struct.unpack("<II", data[at:at + 8])
    body = data[at + 8:at + size - 4]
    if kind == 0x0A0D0D0A:
        body = struct.pack(">IHHq", 0x1A2B3C4D, 1, 0, -1)
    elif kind == 1:
        body = struct.pack(">HHI", *struct.unpack("<HHI", body[:8]))
    elif kind == 6:
        caught, length = struct.unpack("<II", body[12:20])
        kind, body = 3, struct.pack(">I", length) + body[20:20 + (caught + 3) // 4 * 4]
    made += struct.pack(">II", kind, len(body) + 12) + body + struct.pack(">I", len(body) + 12)
    at += size
open(sys.argv[2], "wb").write(made)
END
    cp "$work/made.pcap" "$work/made.copy"
    cp "$work/history" "$work/history.copy"
    ln -s made.pcap "$work/link.pcap"
    ln "$work/history" "$work/hard"
    for name in made.pcap link.pcap history hard; do
        refuse "to $name" 'input file cannot be the output' "$program" "$work/history" "$work/made.pcap" "$work/$name"
        refuse "to $name by force" 'input file cannot be the output' --force "$program" "$work/history" "$work/made.pcap" "$work/$name"
    done
    refuse 'to a file that exists' --force "$program" "$work/history" "$work/made.pcap" "$work/replayed.pcapng"
    refuse 'a capture that is none' 'neither pcap nor pcapng' "$program" "$work/history" "$work/history" "$work/none.pcapng"
    sed '4s/^[a-z]*/dep/' "$work/history" > "$work/fault"
    gzip -c "$work/history" > "$work/gzip"
    refuse 'a history with a fault: its first line' 'fault: record 4: unknown kind$' "$program" "$work/fault" "$work/made.pcap" "$work/none.pcapng"
    refuse 'a history with a fault: its second line' '^line 4, field 1 (kind): "dep"; allowed are ' "$program" "$work/fault" "$work/made.pcap" "$work/none.pcapng"
    refuse 'a history in gzip' "^$work/gzip is compressed by gzip; zcat $work/gzip | pie explain" "$program" "$work/gzip" "$work/made.pcap" "$work/none.pcapng"
    refuse 'a text of pie-watch' 'does not have the numbers of frames' "$program" "$top/tests/rows/linux_steps.csv" "$work/made.pcap" "$work/none.pcapng"
    [ ! -e "$work/none.pcapng" ] || fail "an output without a capture"
    "$replay/comments.py" --force "$program" "$work/history" "$work/made.pcap" "$work/replayed.pcapng" || fail "--force replaces nothing"
else
    echo "NOT RUN: $script: no capture was replayed, for want of $(tr '\n' ' ' <<< "$missing")"
fi

for seconds in 2 4 8 16 32 64; do
    bound=$((seconds + 600))
    begin "$work/live" --history "$work/live/history" --rate 5mbit --rtt 10ms --limit 20p || exit 1
    (within "${names[0]}" tcpdump --immediate-mode --buffer-size=16384 --snapshot-length=200 --direction=out -U -i senders -w "$work/live/capture") > "$work/live/tcpdump" 2>&1 &
    tcpdump=$!
    started+=("$tcpdump")
    wait_for grep -q 'listening on' "$work/live/tcpdump"
    send "$work/live" "$seconds" 4
    wait $! || { cat "$work/live/tcp"; exit 1; }
    kill -TERM "$process"
    wait "$process"
    kill -TERM "$tcpdump"
    wait "$tcpdump" 2> /dev/null
    clean_up
    # (a busy machine may lose frames of the capture, or be too slow to fill the queue: it is made again, for longer)
    frames=$(tshark -n -r "$work/live/capture" 2> /dev/null | wc -l)
    [ "$frames" -ge "$(grep -c '^arrive,' "$work/live/history")" ] && grep -q -E '^arrive,.*,(early|packets)$' "$work/live/history" && break
done
compare live "$work/live/history" "$work/live/capture"
[ $failed = 0 ] && echo "$script: tshark's comments are what pie explain prints of lost and marked packets, of replayed captures and of a live one"
exit $failed
