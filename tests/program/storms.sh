#!/usr/bin/env bash
# Tests storms of the built program: the plan with one packet for each sender has five events, and a
# storm of eight senders ends with a clean history, in whatever order the threads run.
# usage: tests/program/storms.sh [PROGRAM]      PROGRAM: crates/pie/out/pie by default
# needs: program, quiet
. "$(dirname "$0")/../shared/expect.sh"

"$program" storm --packets 1 > "$work/output" 2> "$work/errors"
got=$?
if [ "$got" != 0 ] || [ "$(head -n 1 "$work/output")" != open,0,1024,5,5 ] || [ -s "$work/errors" ] ||
    [ "$("$program" audit < "$work/output")" != clean,5 ]; then
    echo "$script: a storm of one packet a sender: status $got"
    cat "$work/output" "$work/errors"
    failed=1
fi
# 15 packets of 8 senders: 120 arrivals, 120 departures and 2 updates; no update can be too soon.
for _ in 1 2 3; do
    found=$("$program" storm --senders 8 --packets 15 | "$program" audit)
    if [ "$found" != clean,242 ]; then
        echo "$script: a storm of eight senders with 15 packets each: $found"
        failed=1
    fi
done
# 50 packets of 8 senders: 400 arrivals, 400 departures and up to 4 updates; an update that is too soon is not an
# event.
for _ in 1 2; do
    found=$("$program" storm --senders 8 --packets 50 --seed 7 | "$program" audit)
    case $found in
        clean,80[0-4]) ;;
        *)
            echo "$script: a storm of eight senders: $found"
            failed=1
            ;;
    esac
done
# Each option alone, and all together.
for words in '--senders 2' '--packets 7' '--burst 3' '--seed 0' '--senders=2 --packets=7 --seed=18446744073709551615'; do
    "$program" storm $words > "$work/output" 2> "$work/errors"
    got=$?
    # (the default is a hundred packets of two senders)
    packets=100
    case $words in *7*) packets=7 ;; esac
    arrivals=$(grep -c '^arrive,' "$work/output")
    if [ "$got" != 0 ] || [ -s "$work/errors" ] || [ "$arrivals" != $((2 * packets)) ] ||
        [ "$("$program" audit < "$work/output" | cut -d, -f1)" != clean ]; then
        echo "$script: storm $words: status $got, $arrivals arrivals, $(cat "$work/errors")"
        failed=1
    fi
done
# The threads run concurrently: with a hundred packets each, the caller changes at least a hundred times, according to
# --count. (On a busy machine the threads may run one after another: such a storm is repeated.)
for _ in 1 2 3 4 5 6 7 8 9 10; do
    "$program" storm --senders 8 --packets 100 --count > "$work/output" 2> "$work/errors"
    events=$("$program" audit < "$work/output")
    read -r _ told _ changes _ < "$work/errors"
    counted=$(awk -F, 'NR > 2 && $2 != last { n++ } NR > 1 { last = $2 } END { print n }' "$work/output")
    [ "$events" = "clean,$told" ] && [ "$changes" = "$counted" ] && [ "$(wc -l < "$work/errors")" = 1 ] || break
    [ "$changes" -lt 100 ] || break
done
if [ "$events" != "clean,$told" ] || [ "$changes" != "$counted" ] || [ "$changes" -lt 100 ] || [ "$(wc -l < "$work/errors")" != 1 ]; then
    echo "$script: a storm and its counts: $events, $counted changes of caller, $(cat "$work/errors")"
    failed=1
fi
# The change between the first two events counts too. (Which caller is first depends on the machine: storms are repeated
# until the first two events have different callers.)
for try in $(seq 1000); do
    "$program" storm --senders 8 --packets 1 --seed "$try" --count > "$work/output" 2> "$work/errors"
    [ "$(awk -F, 'NR == 2 || NR == 3 { print $2 }' "$work/output" | sort -u | wc -l)" = 2 ] && break
done
read -r _ _ _ changes _ < "$work/errors"
counted=$(awk -F, 'NR > 2 && $2 != last { n++ } NR > 1 { last = $2 } END { print n }' "$work/output")
if [ "$changes" != "$counted" ]; then
    echo "$script: a storm whose first two events have different callers: $changes changes and not $counted"
    failed=1
fi
# Changes of the parameters and folds occur in a storm: there are seven changes, the first with a reference delay of
# 5 ms and the second with the default. The folds remove half of the events from the log; no event is missing.
"$program" storm --senders 8 --packets 100 --changes 7 --folds 9 > "$work/output" 2> "$work/errors"
got=$?
changed=$(awk -F, '$1 == "params" { print $4 }' "$work/output" | sort | uniq -c | tr -s ' \n' ' ')
events=$("$program" audit < "$work/output")
if [ "$got" != 0 ] || [ -s "$work/errors" ] || [ "$changed" != " 3 15000000 4 5000000 " ] ||
    [ "$(grep -c '^arrive,' "$work/output")" != 800 ] || [ "$(grep -c '^depart,' "$work/output")" != 800 ] || [ "${events%%,*}" != clean ]; then
    echo "$script: a storm with changes and folds: status $got, $events, changes $changed, $(cat "$work/errors")"
    failed=1
fi
# At a load of 1.2 packets queue up, and some are dropped early. (Marks depend on the machine: the probability may
# pass the threshold for marks between two updates. On a busy machine, if senders take turns, no packet may be
# dropped early: such a storm is repeated.)
for _ in 1 2 3 4 5 6 7 8 9 10; do
    "$program" storm --senders 4 --packets 2000 --load 120 > "$work/output" 2> "$work/errors"
    early=$(grep -c '^arrive,.*,early$' "$work/output")
    [ "$early" -gt 0 ] && break
done
if [ "$early" = 0 ] || [ "$("$program" audit < "$work/output" | cut -d, -f1)" != clean ] || [ -s "$work/errors" ]; then
    echo "$script: ten storms at a load of 1.2: $early packets were dropped early, $(cat "$work/errors")"
    failed=1
fi
# In bursts of 32, the 4008 packets of a sender are 125 bursts and one of eight. Each burst is contiguous in the
# history, and all its packets have the moment of its last. Packets are dropped, and the caller changes, here too.
# (About one of three such storms has early drops: a burst usually reaches the limit in bytes first.)
for _ in 1 2 3 4 5 6 7 8 9 10; do
    "$program" storm --senders 8 --packets 4008 --burst 32 --load 120 --count > "$work/output" 2> "$work/errors"
    dropped=$(grep -c '^arrive,.*,\(early\|bytes\)$' "$work/output")
    read -r _ told _ changes _ < "$work/errors"
    [ "$dropped" -gt 0 ] && [ "$changes" -ge 64 ] && break
done
bursts=$(awk -F, '{ print ($1 == "arrive" ? $2 "," $3 : "-") }' "$work/output" | uniq -c | awk '$2 != "-" { print $1 }' | sort -n | uniq -c |
    tr -s ' \n' ' ')
moments=$(awk -F, '$1 == "arrive" { i = $4 % 4294967296; last = (int(i / 32) + 1) * 32; if ($3 != (last < 4008 ? last : 4008) * 1000000) n++ }
    END { print n + 0 }' "$work/output")
if [ "$dropped" = 0 ] || [ "$changes" -lt 64 ] || [ "$bursts" != " 8 8 1000 32 " ] || [ "$moments" != 0 ] ||
    [ "$("$program" audit < "$work/output")" != "clean,$told" ] || [ "$(wc -l < "$work/errors")" != 1 ]; then
    echo "$script: a storm in bursts of 32: bursts $bursts, $moments at another moment, $dropped dropped, $(cat "$work/errors")"
    failed=1
fi
# The longest bursts: each of two senders makes one call.
"$program" storm --packets 1024 --burst 1024 > "$work/output" 2> "$work/errors"
got=$?
if [ "$got" != 0 ] || [ -s "$work/errors" ] || [ "$(grep -c '^arrive,' "$work/output")" != 2048 ] ||
    [ "$("$program" audit < "$work/output" | cut -d, -f1)" != clean ]; then
    echo "$script: a storm in the longest bursts: status $got, $(cat "$work/errors")"
    failed=1
fi
# Twenty storms of eight senders with two thousand packets each, in bursts of 1 to 32: every history is audited clean.
for seed in $(seq 20); do
    "$program" storm --senders 8 --packets 2000 --burst "$((1 << seed % 6))" --seed "$seed" > "$work/output" 2> "$work/errors"
    got=$?
    found=$("$program" audit < "$work/output")
    if [ "$got" != 0 ] || [ -s "$work/errors" ] || [ "$found" != "clean,$(($(wc -l < "$work/output") - 1))" ]; then
        echo "$script: storm $seed: status $got, $found, $(cat "$work/errors")"
        failed=1
    fi
done
# Each choice of the controller's elements, in both profiles: the history opens with it, and is clean.
for profile in 1 2; do
    for choice in --delay=stamp --picking=random --step=uncapped --size=scaled --decay=half \
        '--delay=stamp --picking=random --step=uncapped --size=scaled --decay=half'; do
        "$program" storm --senders 4 --packets 300 --load 150 --changes 3 --folds 2 --profile "$profile" $choice > "$work/output" 2> "$work/errors"
        got=$?
        opening=open3,$profile,rate,derandomized,capped,unscaled
        for word in $choice; do
            case $word in
                --delay=*) opening=${opening/,rate,/,stamp,} ;;
                --picking=*) opening=${opening/,derandomized,/,random,} ;;
                --step=*) opening=${opening/,capped,/,uncapped,} ;;
                --size=*) opening=${opening/%,unscaled/,scaled} ;;
                --decay=*) opening=$opening,half ;;
            esac
        done
        begins=$(head -n 1 "$work/output")
        if [ "$got" != 0 ] || [ -s "$work/errors" ] || [ "${begins#"$opening",bounded,0,1024,}" = "$begins" ] ||
            [ "$("$program" audit < "$work/output" | cut -d, -f1)" != clean ]; then
            echo "$script: storm --profile $profile $choice: status $got, $begins, $(cat "$work/errors")"
            failed=1
        fi
    done
done
wanted='--delay must be rate or stamp, --picking derandomized or random, --step capped or uncapped, --size unscaled or scaled, and --decay zero or half'
for words in --delay=stamps:stamp --picking=rate: --step=Capped:capped --size=scaled,:scaled --decay=quarter:; do
    option=${words%%=*} value=${words#*=} nearest=${words#*:}
    value=${value%:*}
    similar=${nearest:+"; a similar value is '$nearest'"}
    expect "storm $option=$value" 1 '' "pie: storm: $wanted\npie: '$value' is no value of $option$similar\n" '' storm "$option=$value"
done
full 'a storm' storm --packets 1 < /dev/null
exit "$failed"
