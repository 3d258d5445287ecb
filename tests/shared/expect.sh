# Shared by scripts that run the program on texts; source it. It contains script.sh, and texts that several scripts
# use.
. "$(dirname "${BASH_SOURCE[0]}")/script.sh"

# expect NAME STATUS OUTPUT ERRORS INPUT WORDS..: texts as printf reads them
expect() {
    local name=$1 status=$2
    printf -- "$3" > "$work/output.want"
    printf "$4" > "$work/errors.want"
    printf "$5" > "$work/input"
    shift 5
    "$program" "$@" < "$work/input" > "$work/output" 2> "$work/errors"
    local got=$?
    if [ "$got" != "$status" ] || ! cmp -s "$work/output" "$work/output.want" || ! cmp -s "$work/errors" "$work/errors.want"; then
        echo "$script: $name: status $got and not $status, or another output:"
        diff "$work/output.want" "$work/output"
        diff "$work/errors.want" "$work/errors"
        failed=1
    fi
}

# full NAME WORDS..: an output that can't be written, of what standard input has
full() {
    local name=$1
    shift
    "$program" "$@" > /dev/full 2> "$work/errors"
    local got=$?
    if [ "$got" != 1 ] || [ "$(cat "$work/errors")" != $'pie: No space left on device (os error 28)\npie: cannot write the output' ]; then
        echo "$script: $name on a full device: status $got, $(cat "$work/errors")"
        failed=1
    fi
}

# The example of `pie run --help`, and its history.
trace=$(cat "$top/tests/shared/worked.trace")
trace+=$'\nshow\ntally\n'
history='open,0,8,32,100,2,1,0,850000,0,1,100000,1000000000000,1024
arrive,1,0,1,1024,not,0,enqueue
arrive,1,0,2,1024,not,0,enqueue
arrive,1,0,3,1024,not,0,enqueue
arrive,1,0,4,1024,not,0,enqueue
depart,3,1000,left,1,1024,not
depart,3,1001000,left,2,1024,not
update,4,1001000,2000000,830077294,0
update,4,1001001,2000000,53955024169,0
update,4,1001002,2000000,903954174169,0
arrive,1,1001003,5,500,ect0,0,mark
arrive,2,1001003,6,500,not,0,early
shown,11,1001003,3,2548,903954174169,2000000,0,0,1001002,1000000,1
tallied,6,4,1,1,0,0,2,2048,0,3,0,0,4096,2000000,1002000
'
# this history with a changed verdict, and the error that reports it
changed=${history/ect0,0,mark/ect0,0,early}
differs='pie: event 10 is not what the rules give there, so it and later events are not explained\n'
# The output of an explanation of this history: the header, the lost packet, the first event
header='number,kind,caller,moment,effective_moment,tag,size,verdict,cause,bytes,packets,delay,probability,accumulated_probability,burst_allowance'
header="$header,ecn,word,waited,active,set_by,bytes_after,packets_after,delay_after,probability_after,accumulated_probability_after"
header="$header,burst_allowance_after,active_after\\n"
lost='11,arrive,2,1001003,1001003,6,500,early,'
lost="${lost}picked_by_word_not_capable,2548,3,2488281,903954174169,0,0,not,0,,1,9,2548,3,2488281,903954174169,0,0,1\n"
begins='1,arrive,1,0,0,1,1024,enqueue,low_delay,0,0,0,0,0,0,not,0,,1,,1024,1,0,0,0,0,1\n'
# A history of version one, and the same in version two
ends='refused,5,3\nupdate,2,15000000,0,0,150000000\nrefused,7,1\n'
one="open,0,4,16,100\ndepart,1,9,empty\ndepart,1,5,empty\nshown,2,9,0,0,0,0,0,150000000,0,0,0\n$ends"
two="open2,1,bounded,0,4,16,100\ndepart,1,9,empty\ndepart,1,5,empty\nshown,2,9,0,0,0,0,0,150000000,0,0,0,1\n$ends"
