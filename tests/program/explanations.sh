#!/usr/bin/env bash
# Tests explanations of the built program, in words and as CSV: of a lost packet, of one event, of
# marks, and up to a changed verdict; requests for a missing event or tag; the event that set the
# probability; and each choice of events.
# usage: tests/program/explanations.sh [PROGRAM]      PROGRAM: crates/pie/out/pie by default
# needs: program
. "$(dirname "$0")/../shared/expect.sh"

expect 'a lost packet' 0 "$header$lost" '' "$history" explain --csv --lost
expect 'a tag' 0 "$header$lost" '' "$history" explain --tag 6 --csv
expect 'no packet lost before a changed verdict' 2 "$header" "$differs" "$changed" explain --csv --lost
expect 'an event before a changed verdict' 2 "${header}$begins" "$differs" "$changed" explain --csv --event=1
second='2,arrive,1,0,0,2,1024,enqueue,low_delay,1024,1,0,0,0,0,not,0,,1,,2048,2,0,0,0,0,1\n'
third='3,arrive,1,0,0,3,1024,enqueue,low_delay,2048,2,0,0,0,0,not,0,,1,,3072,3,0,0,0,0,1\n'
expect 'all events before a changed verdict' 2 "$header$begins$second$third" "${differs/10/4}" \
    "${history/4,1024,not,0,enqueue/4,1024,not,0,mark}" explain --csv --all
expect 'an event that is not there' 1 '' 'pie: there is no event 12: the history has 11 events\n' "$history" explain --event 12
expect 'a tag that is not there' 1 "$header" 'pie: no packet has the tag 9\n' "$history" explain --csv --tag 9
expect 'a fault of an explained history' 1 '' 'pie: record 15: wrong number of fields\n' "${changed}shown\n" explain --lost
off='1,arrive,1,1,1,1,100,enqueue,inactive,0,0,0,0,0,150000000,not,0,,0,,100,1,0,0,0,150000000,0\n'
off="${off}2,depart,2,5,5,1,100,left,,100,1,0,0,0,150000000,not,,4,0,,0,0,0,0,0,150000000,0\n"
expect 'a controller that is off' 0 "$header$off" '' \
    'open2,2,bounded,0,4,16,100\narrive,1,1,1,100,not,0,enqueue\ndepart,2,5,left,1,100,not\n' explain --all --csv
# The event that set the probability in profile two: an arrival that activates the controller; the update with low
# delay that deactivates it; no update while it is inactive.
opening='open2,2,bounded,0,8,32,100,2,1,0,850000,0,1,1500,1000000000000,1024\n'
steps='arrive,1,0,1,400,not,0\nupdate,4,1\narrive,1,1,2,100,not,0\nupdate,4,2\narrive,1,3,3,100,not,0\ndepart,3,4\nreset,4,5\ndepart,3,6\n'
printf "$opening$steps" | "$program" run > "$work/turned"
set_by=$("$program" explain --all < "$work/turned" | grep -o 'as at the opening\|set by event [0-9]*' | tr '\n' ';')
want='as at the opening;as at the opening;as at the opening;'
want="${want}set by event 3;set by event 4;set by event 5;set by event 5;set by event 7;"
if [ "$set_by" != "$want" ]; then
    echo "$script: what set the probability: $set_by"
    failed=1
fi
# The words for these: no update so far, an update while the controller is inactive, activation and deactivation at
# their event.
turned=$(printf '%s\n' '  this event turned the controller on' '  this event turned the controller off' '  this event turned the controller on')
if [ "$("$program" explain --all < "$work/turned" | grep turned.the)" != "$turned" ] ||
    [ "$("$program" explain --event 3 < "$work/turned" | sed -n 4p)" != "${turned%%$'\n'*}" ] ||
    [ "$("$program" explain --event 4 < "$work/turned" | sed -n 5p)" != '  this event turned the controller off' ]; then
    echo "$script: an event turns the controller on or off, and is not said to"
    failed=1
fi
expect 'an update while the controller is off' 0 'event 2: an update
  the controller is turned off: the update takes no delay, and makes no probability
  at 0.000001 ms, by caller 4
  before it: 1 packets, 400 bytes, a delay of 0.000000 ms
  probability 0.0000 %%, as at the opening; no update so far; burst allowance 0.000000 ms
' '' "$(cat "$work/turned")" explain --event 2
expect 'a packet that turns the controller on' 0 'event 3: packet 2, 100 bytes, Not-ECT: queued
  at 0.000001 ms, by caller 1
  the controller is turned off
  this event turned the controller on
  before it: 1 packets, 400 bytes, a delay of 0.000000 ms
  probability 0.0000 %%, as at the opening; last update at 0.000001 ms; burst allowance 0.000000 ms
' '' "$(cat "$work/turned")" explain --event 3
# a reset sets the probability, and there was no update before
expect 'a reset and no update' 0 'event 2: no packet was there to leave
  at 0.000002 ms, by caller 1
  before it: 0 packets, 0 bytes, a delay of 0.000000 ms
  probability 0.0000 %%, set by event 1; no update so far; burst allowance 150.000000 ms
' '' 'open,0,4,16,100\nreset,1,1,done\ndepart,1,2,empty\n' explain --event 2
# An enqueued packet, and the least time during which packets are safe: because burst allowance is
# left, and because the accumulated probability is small.
expect 'a burst that is allowed' 0 'event 1: packet 7, 1000 bytes, Not-ECT: queued
  at 0.000002 ms, by caller 1
  a burst is allowed: 150.000000 ms are left of it
  with unchanged parameters nothing is marked or dropped early before 150.000001 ms
  before it: 0 packets, 0 bytes, a delay of 0.000000 ms
  probability 0.0000 %%, as at the opening; no update so far; burst allowance 150.000000 ms
' '' 'open,1,4,16,100\narrive,1,2,7,1000,not,0,enqueue\n' explain --event 1
# With a max_burst below the remaining allowance a reset or a calm update leaves max_burst of it: 20 ms after the last
# update, or nothing. An arrival after that time has no promise either.
for lowered in 20000000 0; do
    lasts='  with unchanged parameters nothing is marked or dropped early before 20.000000 ms\n'
    [ "$lowered" = 0 ] && lasts=''
    expect "a max_burst of $lowered below the allowance" 0 "event 2: packet 0, 1000 bytes, Not-ECT: queued
  at 0.000002 ms, by caller 1
  a burst is allowed: 150.000000 ms are left of it
$lasts  before it: 0 packets, 0 bytes, a delay of 0.000000 ms
  probability 0.0000 %%, as at the opening; no update so far; burst allowance 150.000000 ms
" '' "open,0,4,16,100\nparams,1,1,15000000,15000000,$lowered,125,1250,1024,262144,100000000000,1024,done\narrive,1,2,0,1000,not,0,enqueue\n" \
        explain --event 2
done
expect 'an arrival at the end of the promise' 0 'event 1: packet 7, 1000 bytes, Not-ECT: queued
  at 150.000001 ms, by caller 1
  a burst is allowed: 150.000000 ms are left of it
  before it: 0 packets, 0 bytes, a delay of 0.000000 ms
  probability 0.0000 %%, as at the opening; no update so far; burst allowance 150.000000 ms
' '' 'open,1,4,16,100\narrive,1,150000001,7,1000,not,0,enqueue\n' explain --event 1
# The probability is 0.903954174169, which is not below a marking threshold of 0.9. With nine
# packets that pass because of their random words, the tenth makes a sum above 8.5.
begun='arrive,1,0,1,1024,not,0\narrive,1,0,2,1024,not,0\narrive,1,0,3,1024,not,0\narrive,1,0,4,1024,not,0\n'
begun="${begun}depart,3,1000\ndepart,3,1001000\nupdate,4,1001000\nupdate,4,1001001\nupdate,4,1001002\n"
# Without the last of these updates the probability is 0.053955024169; sixteen times that is 0.85.
printf "open,0,32,64,100,2,1,0,850000,0,1,100000,900000000000,1024\n${begun%update*}arrive,1,1001003,5,500,ect0,0\n" | "$program" run > "$work/little"
expect 'little that is accumulated' 0 'event 9: packet 5, 500 bytes, ECT(0): queued
  at 1.001003 ms, by caller 1
  the accumulated probability, with this one, is 5.3955 %%, below 85 %%
  where each counts as this one, at most one of 16 considered packets in a row is picked
  before it: 2 packets, 2048 bytes, a delay of 2.000000 ms
  probability 5.3955 %%, set by event 8; last update at 1.001001 ms; burst allowance 0.000000 ms
' '' "$(cat "$work/little")" explain --event 9
printf "open,0,32,64,100,2,1,0,850000,0,1,100000,900000000000,1024\n${begun}arrive,1,1001003,5,500,ect0,0\n" | "$program" run > "$work/below"
below='10,arrive,1,1001003,1001003,5,500,'
below="${below}early,picked_by_word_not_below,2048,2,2000000,903954174169,0,0,ect0,0,,1,9,2048,2,2000000,903954174169,0,0,1\n"
expect 'a mark that is not given' 0 "$header$below" '' "$(cat "$work/below")" explain --csv --event 10
{
    printf "open,0,32,64,100,2,1,0,850000,0,1,100000,1000000000000,1024\n$begun"
    for tag in 1 2 3 4 5 6 7 8 9 10; do echo "arrive,1,1001003,$tag,500,ect0,18446744073709551615"; done
} | "$program" run > "$work/sum"
sum=19,arrive,1,1001003,1001003,10,500,mark,picked_by_sum,6548,11,6394531,903954174169,8135587567521,0
expect 'a mark by the sum' 0 "$header$sum,ect0,18446744073709551615,,1,9,7048,12,6882812,903954174169,0,0,1\n" '' \
    "$(cat "$work/sum")" explain --csv --event 19
choices='pie: explain takes only one of --event N, --tag T, --lost, --marked and --all; see pie explain --help\n'
# Without a choice the output is the summary of all events.
for form in '' --csv; do
    summary=$(printf "$history" | "$program" explain --summary --all $form; echo x)
    summary=${summary%x}
    expect "no choice $form" 0 "${summary//%/%%}" '' "$history" explain $form
done
expect 'two choices' 1 '' "${choices}pie: --lost and --all are both given\n" "$history" explain --lost --all
expect 'two choices of packets' 1 '' "${choices}pie: --lost and --marked are both given\n" "$history" explain --lost --marked
marked='10,arrive,1,1001003,1001003,5,500,mark,picked_by_word,2048,2,2000000,903954174169,0,0,ect0,0,,1,9,2548,3,2488281,903954174169,0,0,1\n'
expect 'a marked packet' 0 "$header$marked" '' "$history" explain --csv --marked
expect 'a marked packet in words' 0 'event 10: packet 5, 500 bytes, ECT(0): queued and marked
  at 1.001003 ms, by caller 1
  picked: its random word, 0.0000 %%, is below the probability, 90.3954 %%
  marked: its endpoints understand a mark, and the probability is below 100.0000 %%
  before it: 2 packets, 2048 bytes, a delay of 2.000000 ms
  probability 90.3954 %%, set by event 9; last update at 1.001002 ms; burst allowance 0.000000 ms
' '' "$history" explain --marked
# an excerpt whose first record does not name the event that set the probability
"$program" cut --event 487 "$top/examples/marks.history" | awk -F, -v OFS=, '$1 == "resume" {$31 = ""} {print}' > "$work/unnamed"
unnamed=$("$program" explain --event 487 "$work/unnamed" | tail -n 1)
if [ "$unnamed" != '  probability 6.5027 %, set before this text begins; last update at 405.000000 ms; burst allowance 0.000000 ms' ]; then
    echo "$script: an event that is not named set the probability: $unnamed"
    failed=1
fi
expect 'no packet marked before a changed verdict' 2 "$header" "$differs" "$changed" explain --csv --marked

# Each selection of events, in words and CSV, with each exit status: 0; 2 if the tenth event differs; 1 if a fault
# follows that event. In the last two cases the output is that of the first ten records. The reference program of
# bench/ checks --all --csv.
first=$(printf "$history" | head -n 10)
for form in '' --csv; do
    for choice in '--event 1' '--tag 1' --lost --marked --all; do
        "$program" explain $choice $form < <(echo "$first") > "$work/before" 2> "$work/errors"
        [ "$?" = 0 ] && ! [ -s "$work/errors" ] || {
            echo "$script: explain $choice $form of nine events: $(cat "$work/errors")"
            failed=1
        }
        written=$(cat "$work/before"; echo x)
        written=${written%x}
        written=${written//%/%%}
        expect "explain $choice $form and an event that differs" 2 "$written" "$differs" "$changed" explain $choice $form
        expect "explain $choice $form and a fault" 1 "$written" 'pie: record 15: wrong number of fields\n' "${changed}shown\n" explain $choice $form
    done
done
words='event 11: packet 6, 500 bytes, Not-ECT: DROPPED early
  at 1.001003 ms, by caller 2
  picked: its random word, 0.0000 %%, is below the probability, 90.3954 %%
  dropped: its endpoints do not understand a mark
  before it: 3 packets, 2548 bytes, a delay of 2.488281 ms
  probability 90.3954 %%, set by event 9; last update at 1.001002 ms; burst allowance 0.000000 ms
'
for choice in '--event 11' '--tag 6' --lost; do
    expect "explain $choice" 0 "$words" '' "$history" explain $choice
done

full explanations explain --all < <(printf "$history")
exit "$failed"
