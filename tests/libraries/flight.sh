#!/usr/bin/env bash
# Builds the tests of include/pie_flight.h (flight.c and flight_steps.c) as C11, C++11 and C++17 with warnings as
# errors, and with the sanitizers for threads, addresses and undefined behaviour, and runs them. The tests are:
#
# - random events through the library's calls, also in bursts, with dumps at random places that are decided again;
# - dumps during writes, killed processes, damaged memory, memory of version 2 (tests/rows/flight_2.txt);
# - a copy and a writer that are stopped between two words.
#
# bench/peer/record.c must keep the same events and sums. Then the script builds twenty-seven wrong recorders. A test
# must find each of them. Prints a line NOT RUN for a missing tool.
# usage: tests/libraries/flight.sh [EVENTS]      EVENTS: 50000 by default
# needs: library
set -u
. "$(dirname "$0")/../shared/header_test.sh"
stored=$PWD/tests/rows/flight_2.txt
header_test flight 1 "${1:-50000}" "$stored"
header_test flight_steps 1 200

# the recorder and the sums in C that are measured beside the library (bench/pie_record_count.sh)
"$cc" -std=gnu11 -O2 -Wall -Wextra -Werror -Iinclude -o "$work/record" bench/peer/record.c "$lib" && "$work/record" || failed=1

# wrong NAME OLD NEW [TEST COUNT]: a test must find this fault of the header
wrong() {
    cp include/pie.h include/pie_follow.h include/pie_text.h "$work"
    python3 - "$2" "$3" "$work/pie_flight.h" <<'END' || exit 1
import sys
old, new, to = sys.argv[1:]
text = open("include/pie_flight.h").read()
assert old in text, old
open(to, "w").write(text.replace(old, new, 1))
END
    "$cc" -std=c11 -O0 -I"$work" -o "$work/wrong" "tests/libraries/${4:-flight}.c" "$lib" -pthread || exit 1
    local file=("$stored")
    [ $# -le 3 ] || file=()
    if (cd "$work" && timeout 120 ./wrong 1 "${5:-50000}" "${file[@]}") > "$work/said" 2>&1; then
        echo "$script: not found: $1"
        failed=1
    fi
}
wrong "a snapshot counts one event too few" "to[PIE_FLIGHT_COUNT], flight->count)" "to[PIE_FLIGHT_COUNT], flight->count - 1)"
wrong "a snapshot is taken before the last event is kept" "    PIE_STORE(flight->words[PIE_FLIGHT_KEPT], ++flight->count);
    if (to + PIE_FLIGHT_EVENT == flight->limit)
        pie_flight_at_limit(flight, state);" "    if (to + PIE_FLIGHT_EVENT == flight->limit)
        pie_flight_at_limit(flight, state);
    PIE_STORE(flight->words[PIE_FLIGHT_KEPT], ++flight->count);"
wrong "a snapshot has the sums of the one before" "        pie_flight_sum(flight);
        pie_flight_snapshot" "        pie_flight_snapshot"
wrong "the bytes of the queue are those of all its packets so far" "flight->bytes = flight->arrived - stats->left_bytes" "flight->bytes = flight->arrived"
wrong "the largest queue counts packets that departed" "        flight->peak += PIE_LOAD(packet[2]) & UINT32_MAX;
" ""
wrong "dropped packets are not kept" "event->kind < PIE_EVENT_ARRIVE" "event->kind < PIE_EVENT_DEPART"
wrong "the ring of events goes on behind its end" "    if (flight->event == flight->events_end)
        flight->event = flight->events;" ""
wrong "a queued packet has the caller's moment in place of the effective one" \
    "pie_flight_put_packet(packet, event->tag, state->moment" "pie_flight_put_packet(packet, event->tag, event->moment"
wrong "a marked packet is queued without CE" \
    "packet.answer == PIE_MARK ? (uint8_t)PIE_CE : packet.ecn" "packet.ecn"
wrong "a damaged number of kept events is believed" "        PIE_LOAD(words[PIE_FLIGHT_KEPT]) > PIE_FLIGHT_MOST_KEPT)" "        0)"
wrong "damaged sizes that contradict each other are believed" "layout->snapshots == PIE_LOAD(words[PIE_FLIGHT_SNAPSHOTS]) &&" "1 &&"
wrong "the ring of packets is too small" "packets : packets + 1;" "packets : packets / 2 + 2;"
wrong "a full ring of packets looks empty" "packets : packets + 1;" "packets : packets;"
wrong "a packet that departed since the snapshot is missing" "number != kept && left != came;" "number != kept && left + 1 < came;"
wrong "a queued packet is read from the next place" \
    "words + layout->queued_at + left % layout->queued" "words + layout->queued_at + (left + 1) % layout->queued"
wrong "an event of version 2 is read as one of this version" "    if (layout->version == 2)
        pie_flight_from_2(to);" ""
wrong "a queued packet of version 2 has no ECN field" "pie_flight_about(PIE_EVENT_ARRIVE, (uint32_t)(it[3] >> 32), 0)" \
    "pie_flight_about(PIE_EVENT_ARRIVE, 0, 0)"
wrong "a parameter has one bit too few" "{34, 34, 40, 20, 20, 16, 31, 40, 5}" "{34, 34, 40, 20, 19, 16, 31, 40, 5}"
wrong "the newest snapshot is used in place of the oldest" "count >= oldest ||" "(count <= oldest && found != NULL) ||"
wrong "the events of an excerpt are numbered from 0" "PIE_LOAD(snapshot[PIE_FLIGHT_COUNT]), PIE_UNKNOWN" "UINT64_C(0), PIE_UNKNOWN"
wrong "the wall-clock time is stored without its moment" "PIE_FLIGHT_CLOCK], unix_time - moment" "PIE_FLIGHT_CLOCK], unix_time"
wrong "the wall-clock time comes before the queued packets" "    pie_flight_visit_queue(words, layout, snapshot, pie_flight_text_packet, text);
    if (unix_time != 0)
        pie_flight_written(text, pie_write_clock(0, unix_time, pie_flight_next(text), PIE_RESUME_ROOM));" "    if (unix_time != 0)
        pie_flight_written(text, pie_write_clock(0, unix_time, pie_flight_next(text), PIE_RESUME_ROOM));
    pie_flight_visit_queue(words, layout, snapshot, pie_flight_text_packet, text);"
wrong "a snapshot that changed during the copy is used" "(PIE_LOAD(from[at]) != PIE_LOAD(to[at]))" "(from == to)" flight_steps 200
wrong "a snapshot counts as complete while it is written" "    PIE_STORE(to[PIE_FLIGHT_NUMBER], 0);
    PIE_STORE(to[PIE_FLIGHT_COUNT]" "    PIE_STORE(to[PIE_FLIGHT_COUNT]" flight_steps 200
wrong "an event is kept before its words are stored" "        PIE_FLIGHT_PUT(to, event->moment, event->tag, event->word, size, about);" "        PIE_STORE(flight->words[PIE_FLIGHT_KEPT], flight->count + 1);
        PIE_FLIGHT_PUT(to, event->moment, event->tag, event->word, size, about);" flight_steps 200
wrong "an event that is overwritten during the copy is used" "KEPT]) + layout->burst;
}" "KEPT]);
}" flight_steps 200
wrong "the number of events is read before the packets are copied" "    kept = PIE_LOAD(from[PIE_FLIGHT_KEPT]);
    i = kept < layout->events" "    i = kept < layout->events" flight_steps 200
exit $failed
