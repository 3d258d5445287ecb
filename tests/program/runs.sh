#!/usr/bin/env bash
# Runs the built program, and compares its status, its output and its error stream. Only this script
# and the others that source expect.sh see what `main` does with the end of `command`. This script
# runs, audits and migrates standard input, counts, and fails to read and write.
# usage: tests/program/runs.sh [PROGRAM]      PROGRAM: crates/pie/out/pie by default
# needs: program
. "$(dirname "$0")/../shared/expect.sh"

expect 'a run' 0 'open,0,4,16,100\ndepart,1,9,empty\n' '' 'open,0,4,16,100\ndepart,1,9\n' run
expect 'a refused record is no fault' 0 'open,0,4,1,100\ndepart,1,1,empty\nrefused,3,5\n' '' \
    'open,0,4,1,100\ndepart,1,1\ndepart,1,1\n' run
many=$(printf 'depart,1,1\\n%.0s' $(seq 120))
expect '119 refused records are none either' 0 "open,0,4,1,100\ndepart,1,1,empty\n$(printf 'refused,%s,5\\n' $(seq 3 121))" '' \
    "open,0,4,1,100\n$many" run
expect 'a run of version two' 0 'open2,2,rolling,0,4,16,100\nshown,0,0,0,0,0,0,0,150000000,0,0,0,0\n' '' \
    'open2,2,rolling,0,4,16,100\nshow\n' run
# The example of its help.
expect 'a mark and an early drop' 0 "$history" '' "$trace" run
expect 'no record' 1 '' 'pie: the first record is not an open record\n' '' run
expect 'a fault' 1 'open,0,4,16,100\ndepart,1,9,empty\n' 'pie: record 3: unknown kind\n' \
    'open,0,4,16,100\ndepart,1,9\ndep,1,10\ndepart,1,11\n' run
expect 'limits out of range' 1 '' 'pie: record 1: limits out of range\n' 'open,0,0,16,100\n' run
expect 'a number that is not canonical' 1 'open,0,4,16,100\n' 'pie: record 2: not a number in range\n' 'open,0,4,16,100\ndepart,2,05\n' run
expect 'refusals of three kinds' 0 'open,0,4,1,100\ndepart,1,1,empty\nrefused,3,5\nrefused,4,3\nrefused,5,6\n' '' \
    'open,0,4,1,100\ndepart,1,1\ndepart,1,1\nupdate,1,1\nfold,2\n' run
expect 'a bad parameter' 1 '' 'pie: record 1: target out of range\n' 'open,0,4,16,100,1,1,0,0,0,1,1,0,1024\n' run
# The histories of these runs are clean, and a history with a changed verdict is not.
expect 'an audit' 0 'clean,11\n' '' "$history" audit
expect 'a history without events' 0 'clean,0\n' '' 'open,0,4,16,100\n' audit
expect 'a changed verdict' 2 'differs,10\n' '' "$changed" audit
expect 'a history with a fault' 1 '' 'pie: record 3: unknown kind\n' 'open,0,4,16,100\ndepart,1,9,empty\ndep,1,10\n' audit
expect 'a fault after a changed verdict' 1 '' 'pie: record 15: wrong number of fields\n' "${changed}shown\n" audit
expect 'limits of a history out of range' 1 '' 'pie: record 1: limits out of range\n' 'open,0,0,16,100\n' audit
expect 'an empty history' 1 '' 'pie: the first record is not an open record\n' '' audit
# Migration: the same history in version two, with the same finding.
expect 'a migration' 0 "$two" '' "$one" migrate
expect 'a migration of a migration' 0 "$two" '' "$two" migrate
expect 'an audit of a migration' 0 'clean,3\n' '' "$two" audit
expect 'a migrated opening with its parameters' 0 'open2,1,rolling,5,8,32,100,2,1,5,850000,0,1,9000,1000000000000,1024\n' '' \
    'rolling,5,8,32,100,2,1,5,850000,0,1,9000,1000000000000,1024\n' migrate
expect 'a fault of a migrated history' 1 'open2,1,rolling,0,4,16,100\ndepart,1,9,empty\n' 'pie: record 3: unknown kind\n' \
    'rolling,0,4,16,100\ndepart,1,9,empty\ndep,1,10\n' migrate
# Counts are written to standard error only, and not after a fault.
expect 'a counted run' 0 'open,0,4,1,100\ndepart,1,1,empty\nrefused,3,5\nrefused,4,3\n' 'pie: 1 events, 2 refused records\n' \
    'open,0,4,1,100\ndepart,1,1\ndepart,1,1\nupdate,1,1\n' run --count
expect 'a counted run with a fault' 1 'open,0,4,16,100\ndepart,1,9,empty\n' 'pie: record 3: unknown kind\n' \
    'open,0,4,16,100\ndepart,1,9\ndep,1,10\ndepart,1,11\n' run --count
# An output that cannot be written.
full 'a run' run < <(printf 'open,0,4,16,100\n')
full 'a finding' audit < <(printf 'open,0,4,16,100\n')
full 'a migration' migrate < <(printf "$one")
# An input that cannot be read.
"$program" audit < / > "$work/output" 2> "$work/errors"
got=$?
if [ "$got" != 1 ] || [ -s "$work/output" ] || [ "$(cat "$work/errors")" != $'pie: Is a directory (os error 21)\npie: cannot read the input' ]; then
    echo "$script: an audit of a directory: status $got, $(cat "$work/errors")"
    failed=1
fi
if [ "$("$program" run < "$top/crates/pie/stdin" | "$program" migrate | "$program" audit)" != clean,3 ]; then
    echo "$script: the migrated history of the stored trace is not clean"
    failed=1
fi
# The two commands as a pipe, over the program's stored trace, and in the form of the help.
if [ "$("$program" run < "$top/crates/pie/stdin" | "$program" audit)" != clean,3 ]; then
    echo "$script: the history of the stored trace is not clean"
    failed=1
fi
example='open,0,4,16,100\narrive,1,10,7,1500,ect0,0\ndepart,2,25\n'
found=$(printf "$example" | "$program" run | "$program" audit)
other=$(printf "$example" | "$program" run | sed s/enqueue/mark/ | "$program" audit)
if [ "$found $other" != 'clean,2 differs,1' ]; then
    echo "$script: the examples of audit --help end with $found and $other"
    failed=1
fi
exit "$failed"
