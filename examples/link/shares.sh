#!/usr/bin/env bash
# Prints, for each range of the probability, the number of considered arrivals, and the share of them
# that was picked to be marked or dropped. An arrival is considered for early drop if it is within
# the limits, no burst is allowed, and no exemption of section 4.1 applies. See docs/RESULTS.md.
# usage: examples/link/shares.sh PIE HISTORY
set -eu
"$1" explain --all --csv < "$2" | awk -F, '
    NR == 1 { for (i = 1; i <= NF; i++) place[$i] = i; next }
    $place["kind"] == "arrive" && $place["cause"] ~ /^(little_accumulated|word_not_below|picked_by_)/ {
        tenth = int($place["probability"] / 1e11)
        considered[tenth]++
        picked[tenth] += $place["verdict"] == "mark" || $place["verdict"] == "early" }
    END { for (tenth = 0; tenth < 10; tenth++) if (considered[tenth])
        printf "%d to %d %%: %d of %d considered, %.1f %%\n", tenth * 10, tenth * 10 + 10, picked[tenth], considered[tenth],
            100 * picked[tenth] / considered[tenth] }'
