#!/usr/bin/env bash
# Sends real TCP traffic through the link in user space (examples/link), some seconds with tail drop and some with
# PIE. Both histories must be clean, and the mean waiting time must be lower with PIE. If the machine is so slow
# that TCP does not fill the queue, the runs are repeated with twice the time. The link's options must give the
# opening of `pie params` with the same options. Then a link with a changing rate and grants is killed during a
# transfer. The texts of its flight recorder are audited, one written on request and one from its file; each event
# must have a wall-clock time. The first test is that of packets: marks in IPv4 and IPv6 headers, and checksums.
# Without root or /dev/net/tun the script runs in user-mode Linux, bench/uml. Prints a line NOT RUN if a program is
# missing.
# usage: tests/program/link.sh [PROGRAM]      PROGRAM: crates/pie/out/pie by default
# needs: program, library, root, quiet
. "$(dirname "$0")/../shared/script.sh"
seconds=5
. "$top/tests/shared/through_link.sh" iperf3

"$link/out/packet_test" || exit 1

# a value of an option, and the link's error message for it: the library parses the value
while IFS='|' read -r option text said; do
    found=$("$link/out/link" "$option" "$text" 2>&1)
    if [ "$found" != "link: $said; see link --help" ]; then
        echo "$script: link $option $text: $found"
        exit 1
    fi
done <<'END'
--target|1.5|--target 1.5: refused: not a number with a unit of the expected kind
--target|1.5ns|--target 1.5ns: refused: not a whole number, or more than 18 decimals
--target|20MSecs|--from and --to: missing
--target|11s|--target: out of its range
--rate|10000000|--rate 10000000: refused: not a number with a unit of the expected kind
--rate|1152922tbit|--rate 1152922tbit: refused: a number above 2^60 - 1
--rate|10mbit,20s:2mbit,40s:10mbit|--from and --to: missing
--rate|10mbit,20s:2mbit,20s:10mbit|--rate 10mbit,20s:2mbit,20s:10mbit: a rate below 1kbit, or moments that don't rise
--rate|10mbit,2mbit|--rate 10mbit,2mbit: not a rate, and then moments and rates, as 10mbit,20s:2mbit
--rate|1s:10mbit|--rate 1s:10mbit: not a rate, and then moments and rates, as 10mbit,20s:2mbit
--rate|10mbit,1s:|--rate 10mbit,1s:: refused: not a number with a unit of the expected kind
--limit|1mb|--from and --to: missing
--limit|1000p|--from and --to: missing
--limit|1500|--limit 1500: a unit has to say of what it is, as 1000p or 256kb
--limit|65537p|--limit: out of its range
--alpha|2|--from and --to: missing
--alpha|0.125|--alpha 0.125: not a whole number
--beta|33|--beta 33: not in 0 to 32, as tc has it
--delay|rate|--from and --to: missing
--delay|20ms|--delay 20ms: not a value of this option
--decay|half|--from and --to: missing
--decay|quarter|--decay quarter: not a value of this option
--mark_ecnth|10%|--from and --to: missing
--mark_ecnth|10mb|--mark_ecnth 10mb: refused: not a number with a unit of the expected kind
--grant|5ms|--from and --to: missing
--grant|5us|--grant: out of its range
--queue|red|--queue red: not a value of this option
END
# no output is another output or replaces an existing file unasked: the link ends before it opens a device or a file
printf kept > "$work/there"
ln -s there "$work/link-to-there"
while IFS='|' read -r options said; do
    # shellcheck disable=SC2086
    found=$(cd "$work" && "$link/out/link" --from senders --to receivers $options 2>&1)
    if [ "$found" != "link: $said" ] || [ "$(cat "$work/there")" != kept ] || compgen -G "$work/new*" > /dev/null; then
        echo "$script: link $options: $found"
        exit 1
    fi
done <<'END'
--history there|there: the file exists; --force replaces it
--records there|there: the file exists; --force replaces it
--flows link-to-there|link-to-there: the file exists; --force replaces it
--metrics there|there: the file exists; --force replaces it
--history there --records link-to-there --force|link-to-there: two outputs have this name
--history new --records ./new|./new: two outputs have this name
--flows new --metrics new|new: two outputs have this name
--flight new --history new|new: two outputs have this name
--flight new --history new.before|new.before: two outputs have this name
--flight new --flows new.history|new.history: two outputs have this name
--history - --records -|-: two outputs have this name
END

# the opening with these options must be the one of pie params with the same words, except for the
# number of events in the log
opened() {
    ip netns add "${names[1]}" && (within "${names[1]}" "$link/out/link" --from senders --to receivers --for 1ms --force --history "$work/opened" "$@") \
        > /dev/null 2> "$work/warned"
    ip netns del "${names[1]}"
}
but_tail='{ $($7 == "half" ? 11 : 10) = ""; print }'
bound=600
while read -r words; do
    # shellcheck disable=SC2086
    opened $words && wanted=$("$program" params $words 2> /dev/null | awk -F, -v OFS=, "$but_tail")
    found=$(head -n 1 "$work/opened" | awk -F, -v OFS=, "$but_tail")
    nine=15000000,15000000,150000000,125,1250,1024,262144,100000000000,16384
    if [ "$(tr -d '\n' <<< "${found%,"$nine"}")" != "${wanted%,"$nine"}" ]; then
        echo "$script: with $words the link opens $found, and pie params says $wanted"
        exit 1
    fi
done <<'END'
--rate 10mbit
--rate 100mbit --target 20ms --limit 1000p --alpha 3 --beta 21 --tupdate 10ms --ecn
--rate 9000kbit --dq_rate_estimator --no_derandomization --no_cap_drop_adjustment --ecn
--rate 10mbit --bytemode
--rate 10mbit --overhead 40 --linklayer atm
--rate 10mbit --bytemode --overhead=-10 --mpu 53 --linklayer adsl
--rate 10mbit --bytemode --mtu 9000 --limit 77p
--rate 10mbit --decay half
END
# has_times TEXT SINCE: each event of a text has a wall-clock time between SINCE and now
has_times() {
    local first last now
    now=$(date -u +%Y-%m-%dT%H:%M:%S.%NZ)
    read -r first last < <("$program" explain --all --csv --wall < "$1" | awk -F, 'NR == 2 { first = $NF } END { print first, $NF }')
    [[ ! $first < $2 && ! $last < $first && ! $now < $last ]] && return
    echo "$script: $1 has its first and last event at $first and $last, not between $2 and $now"
    return 1
}
since=$(date -u +%Y-%m-%dT%H:%M:%S.%NZ)
# is_full QUEUE: succeeds if enough packets departed, and if the queue was long with tail drop;
# otherwise the run is repeated for twice as long
is_full() {
    local packets mean _
    measure "$work/$1" "$seconds" 4 --rate 10mbit --rtt 20ms --queue "$1" --records "$work/$1.records" --every 100ms || exit 1
    read -r packets mean _ < <(waits "$work/$1/history")
    # a load of less than a tenth of the link's rate tests nothing
    [ "$packets" -ge $((seconds * 80)) ] && { [ "$1" != tail ] || awk -v mean="$mean" 'BEGIN { exit !(mean > 30) }'; }
}
for queue in tail pie; do
    until is_full "$queue"; do
        if [ "$seconds" -gt 100 ]; then
            echo "$script: too few packets left by $queue, or they did not wait"
            cat "$work/$queue/tcp"
            exit 1
        fi
        seconds=$((2 * seconds))
    done
    events=$(grep -c -E '^(arrive|depart|update),' "$work/$queue/history")
    found=$("$program" audit < "$work/$queue/history")
    if [ "$found" != "clean,$events" ]; then
        echo "$script: the history of the run by $queue is not clean: $found of $events events"
        cat "$work/$queue/link"
        exit 1
    fi
    if ! "$program" explain --every 100ms --csv --wall < "$work/$queue/history" | cmp - "$work/$queue.records"; then
        echo "$script: the records of periods that the link wrote by $queue are not those of its history"
        exit 1
    fi
    has_times "$work/$queue/history" "$since" || exit 1
    read -r packets mean _ < <(waits "$work/$queue/history")
    echo "$script: $queue: $packets packets left, mean wait $mean ms, history clean ($events events)"
    means+=("$mean")
done
if ! awk -v tail="${means[0]}" -v pie="${means[1]}" 'BEGIN { exit !(pie < tail) }'; then
    echo "$script: by PIE packets waited ${means[1]} ms in the mean, by tail drop ${means[0]} ms"
    exit 1
fi

# killed during a transfer: the text of its flight recorder is clean and continues the text that was written on
# request
for seconds in 4 8 16 32 64 128; do
    kill_in_the_middle "$work/killed" "$seconds" 4 --rate 10mbit,1s:2mbit --grant 5ms --rtt 20ms --ecn || exit 1
    "$link/out/flight_text" "$work/killed/flight" > "$work/killed/text" || exit 1
    asked=$("$program" audit < "$work/killed/flight.history")
    left=$("$program" audit < "$work/killed/text")
    if [[ $asked != clean,* || $left != clean,* || ${left#clean,} -le ${asked#clean,} ]]; then
        echo "$script: of a killed link: asked before, $asked; left behind, $left"
        exit 1
    fi
    [ "${asked#clean,}" -lt 200 ] || break
done
has_times "$work/killed/flight.history" "$since" && has_times "$work/killed/text" "$since" || exit 1
# after the first second the link had 2 Mbit/s, and sent only at its grants, each 5 ms
awk -F, '$1 == "depart" && $4 == "left" && $3 > 1.1e9 { bits += 8 * $6; if ($3 != last) moments++; last = $3; if (!first) first = $3 }
    END { time = (last - first) / 1e9; print bits, moments, time
        exit !(time > 0.5 && bits > 1e5 && bits < 2.1e6 * time + 5e4 && moments < time * 200 + 5) }' \
    "$work/killed/text" > "$work/sent" || { echo "$script: at 2 Mbit/s by grants of 5 ms: bits, moments and seconds: $(cat "$work/sent")"; exit 1; }
echo "$script: killed: the text that was asked for is clean ($asked), and what the killed link left too ($left)"
