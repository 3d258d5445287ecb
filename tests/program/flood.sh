#!/usr/bin/env bash
# Sends a UDP flood and four TCP flows through the link in user space (examples/link). While it runs, the link must
# report the flood by its addresses and ports. Afterwards one line of `pie explain --flows` with the file of flows
# must do so. The history must be clean. According to it, each flow that the link reported had the most bytes of its
# half second, and each flow has a line in the file. Without root or /dev/net/tun the script runs in
# user-mode Linux, bench/uml. Prints a line NOT RUN if a program is missing.
# usage: tests/program/flood.sh [PROGRAM]      PROGRAM: crates/pie/out/pie by default
# needs: program, library, root, quiet
. "$(dirname "$0")/../shared/script.sh"
. "$top/tests/shared/through_link.sh" python3

# datagrams of 1000 bytes from port 40000 to port 9, some 16 Mbit/s, until it is ended
flood='import socket, sys, time
end = socket.socket(socket.AF_INET, socket.SOCK_DGRAM)
end.bind((sys.argv[1], 40000))
while True:
    for packet in range(10):
        end.sendto(bytes(1000), (sys.argv[2], 9))
    time.sleep(0.005)'

bound=600
begin "$work" --rate 10mbit --rtt 20ms --history "$work/history" --flows "$work/flows" || exit 1
send "$work" 8 4
has_flows() { [ "$(wc -l < "$work/flows")" -ge 6 ]; } # (a header row, iperf3's own connection, and four more)
wait_for has_flows || { cat "$work/flows" "$work/tcp"; exit 1; }
(within "${names[0]}" python3 -c "$flood" "$near" "$far") > "$work/flood" 2>&1 &
started+=($!)
flow="udp $near:40000 > $far:9"
if ! wait_for grep -q "most came of flow 0x[0-9a-f]*, $flow:" "$work/link"; then
    echo "$script: the flood is not named while it runs:"
    cat "$work/link" "$work/flood"
    exit 1
fi
kill -0 "$process" || { echo "$script: the link ended"; exit 1; }
sleep 2
kill -TERM "$process"
wait "$process"
clean_up

# each flow that was reported at the end of a half second had the most bytes in it
"$program" explain --csv --every 500ms --flows 1 "$work/history" > "$work/tops"
python3 - "$work/link" "$work/tops" > "$work/wrong" <<'END'
import csv, re, sys
tops, totals = {}, {}
for row in csv.DictReader(open(sys.argv[2])):
    period, size = int(row["first_moment"]) // 500_000_000, int(row["arrived_bytes"])
    totals[period] = totals.get(period, 0) + size
    if row["flow"] != "others":
        tops[period] = row["flow"], size
for at, flow, part, total in re.findall(r"^link: at ([\d.]+) s most came of flow (0x\w+), [^:].*: ([\d.]+) % of (\d+) bytes$", open(sys.argv[1]).read(), re.M):
    period = round(2 * float(at)) - 1
    top, size = tops.get(period, ("none", 0))
    if total != str(totals.get(period)) or flow != top and part != f"{100 * size / int(total):.1f}":
        print(f"at {at} s {flow} with {part} % of {total} bytes, where the history has {top} with {size} of {totals.get(period)}")
END
if [ -s "$work/wrong" ]; then
    echo "$script: the link named another flow than the one with the most bytes:"
    cat "$work/wrong"
    exit 1
fi
# afterwards: one line, of the half second that named it first
read -r at number < <(sed -n "s/^link: at \([0-9.]*\) s most came of flow \(0x[0-9a-f]*\), $flow:.*/\1 \2/p" "$work/link" | head -n 1)
end=$(awk -v at="$at" 'BEGIN { printf "%.0f", at * 1e9 }')
line=$("$program" explain --flows 1 --from "$((end - 500000000))ns" --to "$((end - 1))ns" "$work/history" | sed -n 3p)
row=$(grep "^$number," "$work/flows")
if [[ $line != "  flow $number: "* || $row != "$number,udp,$near,40000,$far,9" ]]; then
    echo "$script: the flood's half second has $line; the file has $row"
    exit 1
fi
events=$(grep -c -E '^(arrive|depart|update),' "$work/history")
found=$("$program" audit < "$work/history")
told=$(sed 1d "$work/flows" | cut -d , -f 1 | sort -u)
there=$("$program" explain --flows 1000 --csv "$work/history" | sed 1d | cut -d , -f 3 | sort)
if [ "$found" != "clean,$events" ] || [ "$told" != "$there" ] || [ "$(wc -l <<< "$there")" -lt 6 ]; then
    echo "$script: $found of $events events; flows of the history: $there; of the file: $told"
    exit 1
fi
echo "$script: named at $at s:$line"
