#!/usr/bin/env bash
# Builds the test of include/pie_follow.h and include/pie_text.h (follow.c) as C11, C++11 and C++17 with warnings as
# errors, and with the sanitizers for threads, addresses and undefined behaviour, and runs it. Random events are
# followed at random times and by another thread. The events of a writer at full speed must be read whole or reported
# as missed. Then it builds seven wrong followers. The test must find each of them. Prints a line
# NOT RUN for a missing tool.
# usage: tests/libraries/follow.sh [EVENTS]      EVENTS: 20000 by default
# needs: library
set -u
. "$(dirname "$0")/../shared/header_test.sh"
header_test follow 1 "${1:-20000}"

# wrong NAME OLD NEW: the test must find this fault of the header
wrong() {
    cp include/pie.h include/pie_flight.h include/pie_text.h "$work"
    python3 - "$2" "$3" "$work/pie_follow.h" <<'END' || exit 1
import sys
old, new, to = sys.argv[1:]
text = open("include/pie_follow.h").read()
assert old in text, old
open(to, "w").write(text.replace(old, new, 1))
END
    "$cc" -std=c11 -O1 -I"$work" -o "$work/wrong" tests/libraries/follow.c "$lib" -pthread || exit 1
    if (cd "$work" && timeout 120 ./wrong 1 "${1:-20000}") > "$work/said" 2>&1; then
        echo "$script: not found: $1"
        failed=1
    fi
}
wrong "the number of kept events is read only once" "    kept = PIE_LOAD(follower->words[PIE_FLIGHT_KEPT]);
    if" "    if"
wrong "the events that a burst overwrites count as intact" "kept - follower->next + layout->burst <=" "kept - follower->next <="
wrong "a damaged number of kept events is believed" "    if (kept > PIE_FLIGHT_MOST_KEPT)" "    if (0)"
wrong "missed events are not reported" "        if (missed != 0) {" "        if (missed == 1) {"
wrong "the gap ends before the first event of the new text" "follower->untold + count - follower->next" "follower->untold"
wrong "a new text begins with the oldest snapshot" "begun, follower->next);" "begun, 0);"
wrong "the follower does not continue at the new text" "    follower->next = count;" ""
exit $failed
