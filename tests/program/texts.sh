#!/usr/bin/env bash
# Runs the program on many short texts: each fault of a trace and of a history, findings of audits, and the output
# of migrations and explanations. The expected output was computed by hand from docs/FORMATS.md and the rules.
# usage: tests/program/texts.sh [PROGRAM]      PROGRAM: crates/pie/out/pie by default
# needs: program
. "$(dirname "$0")/../shared/script.sh"
tried=0

# says STATUS OUTPUT ERRORS INPUT WORDS..: compares the result of the program; texts are written as
# for printf
says() {
    local status=$1 output=$2 errors=$3 input=$4
    shift 4
    printf "$output" > "$work/output.want"
    printf "$errors" > "$work/errors.want"
    printf "$input" | "$program" "$@" > "$work/output" 2> "$work/errors"
    local got=$?
    tried=$((tried + 1))
    if [ "$got" != "$status" ] || ! cmp -s "$work/output" "$work/output.want" || ! cmp -s "$work/errors" "$work/errors.want"; then
        echo "$script: pie $* of '$input': status $got and not $status, or another output:"
        diff "$work/output.want" "$work/output"
        diff "$work/errors.want" "$work/errors"
        failed=1
    fi
}

kind='unknown kind' fields='wrong number of fields' number='not a number in range' word='unknown word'
none='the first record is not an open record'

# opening FAULT TEXT: the fault of the first record of a trace, before any output; the same for a history
opening() {
    says 1 '' "pie: $1\n" "$2" run
    says 1 '' "pie: $1\n" "$2" audit
    says 1 '' "pie: $1\n" "$2" migrate
}
opening "$none" ''
opening "$none" 'depart,1,5'
opening "$none" 'show\n'
opening "$none" 'opening,0,4,16,100\n'
opening "record 1: $fields" 'open,0,4,16,100,1\n'
opening "record 1: $fields" 'open,0,4,16\n'
opening "record 1: $fields" 'open,0,4,16,100,done\n'
opening "record 1: $fields" 'rolling\n'
opening "record 1: $number" 'rolling,0,4,16,x\n'
opening "record 1: $number" 'open,0,4,016,100\n'
opening "record 1: $number" 'open,0,4294967296,16,100\n'
# version two: the number of fields, the profile, the mode
opening "record 1: $fields" 'open2,1,bounded,0,4,16\n'
opening "record 1: $number" 'open2,3,loose,0,4,16,100\n'
opening "record 1: $number" 'open2,3,bounded,0,4,16,100\n'
opening "record 1: $word" 'open2,1,loose,0,4,16,100\n'
opening "record 1: $number" 'open2,bounded,1,0,4,16,100\n'
# version three: the number of fields, and then the fields from left to right
opening "record 1: $fields" 'open3,1,rate,random,capped,scaled,bounded,0,4,16\n'
opening "record 1: $number" 'open3,3,rat,random,capped,scaled,bounded,0,4,16,100\n'
opening "record 1: $word" 'open3,2,rat,random,capped,scaled,bounded,x,4,16,100\n'
opening "record 1: $word" 'open3,2,stamp,capped,random,scaled,bounded,x,4,16,100\n'
opening "record 1: $word" 'open3,2,stamp,random,capped,,bounded,x,4,16,100\n'
opening "record 1: $word" 'open3,2,stamp,random,capped,scaled,full,x,4,16,100\n'
opening "record 1: $number" 'open3,2,stamp,random,capped,scaled,rolling,x,4,16,100\n'
opening "record 1: $word" 'open3,1,rate,derandomized,capped,unscaled,bounded,0,4,16,100,100\n'
# its limits may exceed those of earlier versions; limits are checked before the moment
opening 'record 1: limits out of range' 'open3,1,rate,derandomized,capped,unscaled,bounded,0,1048577,16,100\n'
opening 'record 1: limits out of range' 'open3,1,rate,derandomized,capped,unscaled,bounded,1152921504606846976,4,16,140737488355329\n'
opening 'record 1: moment out of range' 'open3,1,rate,derandomized,capped,unscaled,bounded,1152921504606846976,65537,16,100\n'
opening 'record 1: limits out of range' 'open2,1,bounded,1152921504606846976,65537,16,100\n'
opening 'record 1: limits out of range' 'rolling,0,4,16,1099511627777\n'
opening 'record 1: limits out of range' 'open,0,65537,16,100\n'
opening 'record 1: limits out of range' 'open2,2,rolling,0,0,16,100\n'
opening 'record 1: limits out of range' 'open,1152921504606846976,0,4,2\n'
opening 'record 1: limits out of range' 'open,0,0,4,2\n'
opening 'record 1: limits out of range' 'rolling,0,4,1048577,2\n'
opening 'record 1: moment out of range' 'open,1152921504606846976,4,4,2\n'
# the first bad parameter is reported before limits and moment, and a field that is no number before
# any parameter
opening 'record 1: target out of range' 'open,1152921504606846976,0,4,2,1,0,0,0,0,1,1,0,1000\n'
opening 'record 1: t_update out of range' 'open,1152921504606846976,0,4,2,2,0,0,0,0,1,1,0,1000\n'
opening 'record 1: max_burst out of range' 'open,0,4,4,2,2,1,1000000000001,1000001,0,1,1,0,1024\n'
opening 'record 1: alpha out of range' 'open,0,4,4,2,2,1,0,1000001,1000001,1,1,0,1024\n'
opening 'record 1: beta out of range' 'open,0,4,4,2,2,1,0,0,1000001,0,1,0,1024\n'
opening 'record 1: mean_pkt out of range' 'open,0,4,4,2,2,1,0,0,0,0,0,0,1024\n'
opening 'record 1: limit_bytes out of range' 'open,0,4,4,2,2,1,0,0,0,1,0,1000000000001,1024\n'
opening 'record 1: mark_ecnth out of range' 'open,0,4,4,2,2,1,0,0,0,1,1,1000000000001,1000\n'
opening 'record 1: dq_threshold out of range' 'rolling,0,4,4,2,2,1,0,0,0,1,1,0,1000\n'
opening "record 1: $number" 'open,0,4,4,2,1,0,0,0,0,1,1,0,1e3\n'
opening "record 1: $fields" 'open,0,4,4,2,2,1,0,0,0,1,1,0\n'

# record FAULT RECORD: the fault of a trace's third record; the history of the records before it is
# written, and nothing after it is read
record() {
    says 1 'open,0,4,16,100\ndepart,1,1,empty\n' "pie: record 3: $1\n" "open,0,4,16,100\ndepart,1,1\n$2\ndepart,1,2\n" run
}
for it in dep,1,1 open,0,4,16,100 rolling,0,4,16,100 open2,1,bounded,0,4,16,100 Show shown; do record "$kind" "$it"; done
for it in show,1 tally, fold update,1 reset,1,2,3 params,1,2,3 depart,1 depart,1,1,empty arrive,1,10,7,1500,ect0; do record "$fields" "$it"; done
for it in fold,-1 fold,18446744073709551616 update,1,1.5 reset,65536,1 params,1,1,1,1,1,1,1,1,1,1,0x400 \
    params,1,1,18446744073709551616,1,1,1,1,1,1,1,1 depart,01,1 depart,00,1 depart,+1,1 'depart, 1,1' depart,1a,1 depart,1, depart,65536,1 \
    depart,1,18446744073709551616 arrive,1,10,7,4294967296,ect0,0 arrive,1,10,7,1500,ect0,18446744073709551616; do
    record "$number" "$it"
done
record "$word" arrive,1,10,7,1500,ECT0,0
# a clock record is accepted in version three only, and is copied
record "$kind" clock,1,2
record "$kind" clock
says 1 'open2,2,bounded,0,4,16,100\n' "pie: record 2: $kind\n" 'open2,2,bounded,0,4,16,100\nclock,1,2\n' run
third=open3,1,stamp,derandomized,capped,unscaled,bounded,0,4,16,100
timed="$third\nclock,0,1795550400000000000\ndepart,1,1,empty\nclock,1152921504606846975,18446744073709551615\nclock,9,0\n"
says 0 "$timed" '' "${timed/,empty/}" run
says 0 'clean,1\n' '' "$timed" audit
says 0 "$timed" '' "$timed" migrate
# clocked FAULT RECORD: the fault of a record in a trace and in a history of version three
clocked() {
    says 1 "$third\ndepart,1,1,empty\n" "pie: record 3: $1\n" "$third\ndepart,1,1\n$2\ndepart,1,2\n" run
    says 1 '' "pie: record 3: $1\n" "$third\ndepart,1,1,empty\n$2\n" audit
}
for it in clock clock,1 clock,1, clock,1,2,3; do
    case $it in clock,1,) clocked "$number" "$it" ;; *) clocked "$fields" "$it" ;; esac
done
for it in clock,x,2 clock,1152921504606846976,2 clock,01,2 clock,1,18446744073709551616 clock,1,-1 clock,,1; do clocked "$number" "$it"; done
clocked "$kind" Clock,1,2
clocked "$kind" clocks,1,2
# the same in an excerpt, after the queued packets
nine=15000000,15000000,150000000,125,1250,1024,262144,100000000000,16384
resumed=resume,1,stamp,derandomized,capped,unscaled,bounded,0,4,16,100,$nine,$nine
none_waits=$resumed,0,0,0,0,0,0,0,0,150000000,0,0,0,0,0,0,1,0,0,0,0,0,0,0,0,0,0,0,0,0,0,0
one_waits=$resumed,1,0,1,1500,10,0,0,0,150000000,0,0,0,0,0,0,1,1,1,0,0,0,0,0,0,0,0,0,0,1500,0,0
says 0 'clean,1\n' '' "$none_waits\nclock,0,5\ndepart,1,1,empty\nclock,0,6\n" audit
says 1 '' "pie: record 2: $number\n" "$none_waits\nclock,0,x\n" audit
says 0 'clean,2\n' '' "$one_waits\nqueued,7,1500,ect0,10\nclock,1,2\ndepart,1,20,left,7,1500,ect0\n" audit
says 1 '' 'pie: record 1: fewer packets than were announced\n' "$one_waits\nclock,1,2\nqueued,7,1500,ect0,10\n" audit
# the first bad field is reported
record "$number" arrive,1,10,7,-1,ect2,0
record "$word" arrive,1,10,7,1500,ect2,-1

# line FIRST FINDING RECORD: the audit of a history with one record after the first
line() {
    case $2 in
        clean,* | differs,*) says $([ "${2%,*}" = clean ]; echo $(($? * 2))) "$2\n" '' "$1\n$3\n" audit ;;
        *) says 1 '' "pie: record 2: $2\n" "$1\n$3\n" audit ;;
    esac
}
one=open,0,4,16,100
for it in refused,18446744073709551615,0 folded,18446744073709551615 shown,1,2,3,4,5,6,7,8,9,10,1 \
    tallied,1,2,3,4,5,6,7,8,9,10,11,12,13,14,340282366920938463463374607431768211455; do
    line $one clean,0 $it
done
for it in shown,1,2,3,4,5,6,7,8,9,10,2 tallied,1,2,3,4,5,6,7,8,9,10,11,12,13,14,340282366920938463463374607431768211456 \
    tallied,1,2,3,4,5,6,7,8,9,10,11,12,13,18446744073709551616,1 update,1,1,1,1,-1 reset,65536,1,done; do
    line $one "$number" $it
done
for it in params,1,8,1,1,0,850000,0,1,100000,0,1024 refused,2 folded,2,3 shown,1,2,3,4,5,6,7,8,9,10 shown,1,2,3,4,5,6,7,8,9,10,1,1 depart,1,1; do
    line $one "$fields" $it
done
for it in params,1,8,1,1,0,850000,0,1,100000,0,1024,set depart,1,1,left depart,1,1,empty,1,1,not depart,1,1,left,1,1,NOT \
    arrive,1,10,7,1500,ect0,0,empty reset,1,1,empty; do
    line $one "$word" $it
done
for it in open,0,4,16,100 show fold,1; do line $one "$kind" $it; done
# parameters out of their ranges
line $one differs,1 params,1,8,1,1,0,850000,0,1,100000,0,1024,done
line $one "$kind" clock,1,2
# in version two `shown` ends with the activity of the controller
two=open2,2,bounded,0,4,16,100
line $two clean,0 shown,1,2,3,4,5,6,7,8,9,10,1,0
line $two clean,0 shown,1,2,3,4,5,6,7,8,9,10,0,1
line $two "$fields" shown,1,2,3,4,5,6,7,8,9,10,1
line $two "$number" shown,1,2,3,4,5,6,7,8,9,10,2,1
line $two "$number" shown,1,2,3,4,5,6,7,8,9,10,1,2
line $two "$kind" open2,2,bounded,0,4,16,100
line $two "$kind" clock,1,2

# found FINDING HISTORY: the audit of a history
found() {
    case $1 in
        clean,*) says 0 "$1\n" '' "$2" audit ;;
        differs,*) says 2 "$1\n" '' "$2" audit ;;
        *) says 1 '' "pie: $1\n" "$2" audit ;;
    esac
}
# after FINDING EVENTS: the audit of the events after an opening
after() {
    found "$1" "open,0,4,16,100\n$2"
}
after clean,0 ''
after clean,2 'depart,1,1,empty\ndepart,65535,0,empty\n'
after differs,1 'depart,1,1,left,1,100,not\n'
# refused, although the answer is the one that an update there would have
after differs,1 'update,1,14999999,0,0,150000000\n'
after clean,1 'update,1,15000000,0,0,150000000\n'
after differs,1 'update,1,15000000,0,0,15\n'
after differs,1 'depart,1,1152921504606846976,empty\n'
after differs,1 'arrive,1,1,1,0,not,0,enqueue\n'
after differs,1 'arrive,1,1,1,65536,not,0,enqueue\n'
# the first of two events that differ is reported
after differs,3 'depart,1,1,empty\nreset,1,1,done\ndepart,1,2,left,1,1,not\ndepart,1,3,left,1,1,not\n'
# parameters out of their ranges: the target is 1
bad=params,1,0,1,15000000,150000000,125,1250,1024,262144,100000000000,16384,done
after differs,1 "$bad\n"
after differs,1 "$bad\ndepart,1,1,empty\n"
# notes are no events, and their numbers are not checked
tallied=tallied,1,2,3,4,5,6,7,8,9,10,11,12,13,14,340282366920938463463374607431768211455
after differs,1 "folded,9\nrefused,1,18446744073709551615\nshown,9,9,9,9,9,9,9,9,9,9,1\n$tallied\ndepart,1,1,left,1,1,not\n"
# the tail contains one event, which is not checked; the last one has at most two events
found clean,2 'open,0,4,1,100\ndepart,1,1,empty\ndepart,1,1,empty\n'
found clean,2 'rolling,0,4,1,100\ndepart,1,1,empty\ndepart,1,1,empty\n'
found differs,3 'open,0,4,4,2\ndepart,1,1,empty\ndepart,1,1,empty\ndepart,1,1,empty\n'

# one arrival and two departures, the second from an empty queue; then its last records are changed
arrival='open,0,4,16,100\narrive,1,10,7,1500,ect0,0,enqueue\n'
left='depart,2,25,left,7,1500,ect0\n'
found clean,3 "$arrival${left}depart,2,30,empty\n"
found clean,2 "$arrival${left%\\n}"
found "record 4: $kind" "$arrival${left}dep\n"
found "record 4: $kind" "$arrival${left}open,0,4,16,100\n"
found "record 4: $fields" "$arrival${left}depart,2,30\n"
found "record 4: $word" "$arrival${left}depart,2,30,emp\n"
found "record 4: $number" "$arrival${left}depart,02,30,empty\n"
found "record 3: $fields" "${arrival}depart,2,25,left,7,15\ndepart,2,30,empty\n"
found "record 3: $word" "${arrival}depart,2,25,left,7,1500,ec\ndepart,2,30,empty\n"

# marks, drops and a lone enqueue: one record after another changed
marks=$work/marks
"$top/tests/shared/rows.sh" "$work/rows"
cp "$work/rows/marks_drops_and_a_lone_enqueue.out" "$marks"
# changed FINDING LINE RECORD
changed() {
    sed "$2s/.*/$3/" "$marks" > "$work/changed"
    found "$1" "$(cat "$work/changed")\n"
}
changed clean,14 99 ''
changed clean,14 1 'rolling,0,8,1,100,2,1,0,850000,0,1,100000,1000000000000,1024'
changed differs,4 5 'arrive,1,0,4,1024,not,0,mark'
changed differs,8 9 'update,4,1001001,2000000,53955024169,1'
changed differs,10 11 'arrive,1,1001003,5,500,ect0,0,early'
changed differs,11 12 'arrive,2,1001003,6,500,ect0,0,early'
changed "record 13: $fields" 13 'arrive,2,1001003'
changed clean,13 16 'folded,18446744073709551615'
changed differs,14 18 'depart,5,1001005,empty'
changed "record 20: $number" 20 'refused,20,-7'
# a fault is reported even if an earlier event differs
sed -i '5s/enqueue/mark/' "$marks"
changed "record 13: $fields" 13 'arrive,2,1001003'
# a marked packet departs with CE, whatever its ECN field was on arrival
head -n 11 "$work/rows/marks_drops_and_a_lone_enqueue.out" > "$marks"
leaving='depart,3,1001003,left,3,1024,not\ndepart,3,1001004,left,4,1024,not\ndepart,3,1001005,left,5,500'
found clean,13 "$(cat "$marks")\n$leaving,ce\n"
found differs,13 "$(cat "$marks")\n$leaving,ect0\n"

# migrated HISTORY WANTED: a history in version two
migrated() {
    says 0 "$2" '' "$1" migrate
    says 0 "$2" '' "$2" migrate
}
records='depart,1,9,empty\ndepart,1,5,empty\nshown,2,9,0,0,0,0,0,150000000,0,0,0'
refused='refused,5,3\nupdate,2,15000000,0,0,150000000\nrefused,7,1\n'
migrated "open,0,4,16,100\n$records\n$refused" "open2,1,bounded,0,4,16,100\n$records,1\n$refused"
records='folded,0\nparams,5,6,1,1,50,850000,0,1,100000,1000000000000,1024,done\ntallied,0,0,0,0,0,0,0,0,0,0,0,0,0,0,0\n'
opened=5,4,16,100,2,1,0,850000,0,1,100000,1000000000000,1024
migrated "rolling,$opened\n$records" "open2,1,rolling,$opened\n$records"
kept='open2,2,bounded,0,8,32,100\nshown,0,0,0,0,0,0,0,5,0,0,0,0\nreset,1,2,done\n'
migrated "$kept" "$kept"
says 1 'open2,1,bounded,0,4,16,100\ndepart,1,9,empty\n' "pie: record 3: $fields\n" \
    'open,0,4,16,100\ndepart,1,9,empty\nshown,1,9,0,0,0,0,0,150000000,0,0,0,1\n' migrate
kept='open2,1,rolling,0,4,16,100\nshown,0,0,0,0,0,0,0,5,0,0,0,1\n'
says 1 "$kept" "pie: record 3: $kind\n" "${kept}open2,1,rolling,0,4,16,100\n" migrate

# cause NUMBER RECORD HISTORY: the record of the explanation of one event, with the numbers after it
header='number,kind,caller,moment,effective_moment,tag,size,verdict,cause,bytes,packets,delay,probability,accumulated_probability,burst_allowance'
header="$header,ecn,word,waited,active,set_by,bytes_after,packets_after,delay_after,probability_after,accumulated_probability_after"
header="$header,burst_allowance_after,active_after\\n"
cause() {
    says 0 "$header$1,$2\n" '' "$3" explain --csv --event "$1"
}
# room for one packet, and for 1500 bytes
room='open,0,1,32,100,2,1,1000,850000,0,1,1500,1000000000000,1024
arrive,1,0,1,1024,not,0,enqueue
arrive,1,0,2,100,not,0,packets
arrive,1,0,3,1000,not,0,bytes
'
cause 1 arrive,1,0,0,1,1024,enqueue,burst_allowed,0,0,0,0,0,1000,not,0,,1,,1024,1,0,0,0,1000,1 "$room"
cause 2 arrive,1,0,0,2,100,packets,no_room_in_packets,1024,1,0,0,0,1000,not,0,,1,,1024,1,0,0,0,1000,1 "$room"
cause 3 arrive,1,0,0,3,1000,bytes,no_room_in_bytes,1024,1,0,0,0,1000,not,0,,1,,1024,1,0,0,0,1000,1 "$room"
# four packets arrive and two depart, so that an update finds a delay of two milliseconds
four='arrive,1,0,1,1024,not,0,enqueue
arrive,1,0,2,1024,not,0,enqueue
arrive,1,0,3,1024,not,0,enqueue
arrive,1,0,4,1024,not,0,enqueue
depart,3,1000,left,1,1024,not
depart,3,1001000,left,2,1024,not
'
# with gains of 0 the probability stays 0; then the queue is emptied
zero="open,0,8,32,100,2,1,0,0,0,1,100000,1000000000000,1024
${four}update,4,1001000,2000000,0,0
arrive,1,1001000,5,500,not,0,enqueue
depart,3,1001000,left,3,1024,not
depart,3,1001000,left,4,1024,not
depart,3,1001000,left,5,500,not
arrive,1,1001000,6,500,not,0,enqueue
"
cause 8 arrive,1,1001000,1001000,5,500,enqueue,no_probability,2048,2,2000000,0,0,0,not,0,,1,7,2548,3,2488281,0,0,0,1 "$zero"
cause 12 arrive,1,1001000,1001000,6,500,enqueue,short_queue,0,0,0,0,0,0,not,0,,1,7,500,1,473141,0,0,0,1 "$zero"
# a probability of less than a thousandth
little="open,0,16,32,100,2,1,0,850000,0,1,100000,1000000000000,1024
${four}update,4,1001000,2000000,830077294,0
arrive,1,1001000,5,500,not,0,enqueue
"
counted=2548,3,2488281,830077294,830077294,0,1
cause 8 "arrive,1,1001000,1001000,5,500,enqueue,little_accumulated,2048,2,2000000,830077294,0,0,not,0,,1,7,$counted" "$little"
# at a probability above 0.9, nine packets pass because of their random words, and the sum picks the
# tenth
nine="open,0,16,32,100,2,1,0,850000,0,1,100000,1000000000000,1024
${four}update,4,1001000,2000000,830077294,0
update,4,1001001,2000000,53955024169,0
update,4,1001002,2000000,903954174169,0
$(for tag in 5 6 7 8 9 10 11 12 13; do echo "arrive,2,1001003,$tag,500,not,18446744073709551615,enqueue"; done)
arrive,2,1001003,14,500,not,18446744073709551615,early
"
last=not,18446744073709551615,,1,9,6548,11,6394531,903954174169
cause 18 "arrive,2,1001003,1001003,13,500,enqueue,word_not_below,6048,10,5906250,903954174169,7231633393352,0,$last,8135587567521,0,1" "$nine"
cause 19 "arrive,2,1001003,1001003,14,500,early,picked_by_sum_not_capable,6548,11,6394531,903954174169,8135587567521,0,$last,0,0,1" "$nine"
# the arrival and departure of a packet, by its tag
tagged='1,arrive,1,0,0,1,1024,enqueue,low_delay,0,0,0,0,0,0,not,0,,1,,1024,1,0,0,0,0,1\n'
tagged="${tagged}5,depart,3,1000,1000,1,1024,left,,4096,4,0,0,0,0,not,,1000,1,,3072,3,0,0,0,0,1\n"
says 0 "$header$tagged" '' "$little" explain --csv --tag 1

echo "$script: $tried short texts"
exit "$failed"
