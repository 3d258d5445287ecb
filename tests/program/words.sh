#!/usr/bin/env bash
# Tests the texts of the built program's command line: each help, each mistake, the version.
# usage: tests/program/words.sh [PROGRAM]      PROGRAM: crates/pie/out/pie by default
# needs: program
. "$(dirname "$0")/../shared/expect.sh"

expect 'a version' 0 'pie 0.1.0\n' '' '' --version
expect 'a version, in short' 0 'pie 0.1.0\n' '' '' -V

# Each help must be the stored text, a section of help.txt: `== NAME` for `pie NAME --help`, `== NAME.short` for
# `pie NAME -h`, and `== pie` and `== pie.short` for `pie --help` and `pie -h`. A short one fits on a screen of 80 by
# 24, with the next prompt.
mkdir "$work/help"
awk -v to="$work/help/" '/^== / { file = to $2 ".txt"; next } { print > file }' "$here/help.txt"
# help NAME WORDS..
help() {
    local want=$work/help/$1.txt
    shift
    "$program" "$@" < /dev/null > "$work/output" 2> "$work/errors"
    local got=$?
    if [ "$got" != 0 ] || [ -s "$work/errors" ] || ! cmp -s "$work/output" "$want"; then
        echo "$script: $*: status $got, or other help:"
        diff "$want" "$work/output"
        cat "$work/errors"
        failed=1
    fi
}
help pie --help
help pie.short -h
help pie help
for name in run audit explain cut migrate storm params what-if advise; do
    help "$name" "$name" --help
    help "$name.short" "$name" -h
    help "$name" help "$name"
done

for text in "$work"/help/*.short.txt; do
    lines=$(wc -l < "$text") columns=$(wc -L < "$text")
    if [ "$lines" -gt 23 ] || [ "$columns" -gt 80 ]; then
        echo "$script: $(basename "$text") has $lines lines, and $columns columns"
        failed=1
    fi
done

# After a mistake the status is 1, the output is empty, and the first line on the error stream names
# the mistake and the word, also for the ninth and any later word.
# mistake LINE WORDS..
mistake() {
    local line=$1
    shift
    "$program" "$@" < /dev/null > "$work/output" 2> "$work/errors"
    local got=$?
    if [ "$got" != 1 ] || [ -s "$work/output" ] || [ "$(head -n 1 "$work/errors")" != "$line" ]; then
        echo "$script: $*: status $got, and not the mistake '$line':"
        cat "$work/output" "$work/errors"
        failed=1
    fi
}
mistake "error: 'pie' requires a subcommand but one was not provided"
mistake "error: unrecognized subcommand 'runs'" runs
mistake "error: unrecognized subcommand ''" ''
mistake "error: unrecognized subcommand 'walk'" help walk
mistake "error: unexpected argument '--fast' found" --fast
mistake "error: unexpected argument 'more' found" run one more
mistake "error: unexpected argument 'more' found" migrate one more
mistake 'pie: one: No such file or directory (os error 2)' audit one more
for name in run audit cut migrate; do
    mistake "error: unexpected argument '--wrong' found" "$name" --wrong
    mistake "error: unexpected argument '-x' found" "$name" -x
done
mistake "error: invalid value '0' for '--event <N>': 0 is not in 1..18446744073709551615" explain --event 0
mistake "error: invalid value 'one' for '--event <N>': invalid digit found in string" explain --event one
mistake "error: unexpected argument '-1' found" explain --tag -1
mistake "error: invalid value '18446744073709551616' for '--tag <N>': number too large to fit in target type" explain --tag 18446744073709551616
mistake "error: a value is required for '--tag <N>' but none was supplied" explain --tag
mistake "error: unexpected value 'yes' for '--lost' found; no more were expected" explain --lost=yes
mistake "error: the argument '--lost' cannot be used multiple times" explain --lost --lost
mistake "error: unexpected argument 'more' found" explain one more
mistake "error: invalid value '0' for '--event <N>': 0 is not in 1..18446744073709551615" cut --event 0
mistake "error: a value is required for '--from <MOMENT>' but none was supplied" cut --from
mistake "error: unexpected argument 'more' found" cut one more
mistake 'pie: --full needs --every' explain --full
mistake 'pie: --full needs --every' explain --summary --full
mistake 'pie: --summary cannot be combined with --every, which writes a line for each interval' explain --summary --every 1s
# Words that choose no events, or choose in two ways.
unchosen='pie: cut needs --from, --to or both; or --event N, with or without --around M; or --last N; or --every N; see pie cut --help'
for words in '' '--around 3' '--event 3 --from 2' '--event 3 --to 2' '--around 3 --from 2' '--event 3 --around 1 --from 1 --to 2' \
    '--last 3 --event 3' '--last 3 --every 3' '--every 3 --to 1s' '--last 3 --around 1' '--every 3 --around 1' '--last 3 --from 0'; do
    mistake "$unchosen" cut $words
done
mistake 'pie: --from must not be after --to' cut --from 2 --to 1ns
for words in '' -; do
    mistake 'pie: cut --last reads its input twice, so it needs a file' cut --last 3 $words
done
mistake "error: invalid value '0' for '--last <N>': 0 is not in 1..18446744073709551615" cut --last 0
mistake "error: invalid value '0' for '--every <N>': 0 is not in 1..18446744073709551615" cut --every 0
mistake 'pie: one: No such file or directory (os error 2)' cut --last 3 one
mistake 'pie: --from: a moment must be a whole number of nanoseconds, or a number with ns, us, ms, s, m or h, such as 1.5ms or 2m' cut --from soon
mistake "error: invalid value '1' for '--senders <N>': 1 is not in 2..=8" storm --senders 1
mistake "error: invalid value '9' for '--senders <N>': 9 is not in 2..=8" storm --senders 9
mistake "error: invalid value 'two' for '--senders <N>': invalid digit found in string" storm --senders two
mistake "error: invalid value '0' for '--packets <N>': 0 is not in 1..=10000" storm --packets 0
mistake "error: invalid value '10001' for '--packets <N>': 10001 is not in 1..=10000" storm --packets 10001
mistake "error: invalid value '0' for '--burst <N>': 0 is not in 1..=1024" storm --burst 0
mistake "error: invalid value '1025' for '--burst <N>': 1025 is not in 1..=1024" storm --burst 1025
mistake "error: invalid value '18446744073709551616' for '--seed <N>': number too large to fit in target type" storm --seed 18446744073709551616
mistake "error: unexpected argument '-1' found" storm --seed -1
mistake "error: invalid value '33' for '--alpha <N>': 33 is not in 0..=32" params --alpha 33
mistake "error: invalid value '49' for '--load <N>': 49 is not in 50..=200" storm --load 49
mistake "error: invalid value '201' for '--load <N>': 201 is not in 50..=200" storm --load 201
mistake "error: invalid value '101' for '--changes <N>': 101 is not in 0..=100" storm --changes 101
mistake "error: invalid value '101' for '--folds <N>': 101 is not in 0..=100" storm --folds 101
mistake "error: unexpected argument '--fast' found" storm --fast
# The ninth word, and the tenth to the twelfth.
mistake "error: unexpected argument '--fast' found" storm --senders 3 --packets 10 --seed 7 --fast
mistake "error: unexpected argument 'more' found" storm --senders 3 --packets 10 --seed 7 more
mistake "error: the argument '--seed <N>' cannot be used multiple times" storm --senders 3 --packets 10 --seed 7 --seed 8
mistake "error: a value is required for '--tag <N>' but none was supplied" explain --csv --lost --all --event 1 --tag
mistake 'pie: explain takes only one of --event N, --tag T, --lost, --marked and --all; see pie explain --help' \
    explain --csv --lost --all --event 1 --tag 2
mistake "error: unexpected argument 'eleven' found" explain --csv --lost --all --event 1 --tag 2 ten eleven
mistake "error: unexpected argument '--twelve' found" explain --csv --lost --all --event 1 --tag 2 --twelve

# The last line names what the option takes, the nearest keyword, or the two options that exclude each other; a line of
# clap's the nearest option or subcommand.
# hint LINE WORDS..
hint() {
    local line=$1
    shift
    "$program" "$@" < /dev/null > "$work/output" 2> "$work/errors"
    if ! grep -qxF -- "$line" "$work/errors"; then
        echo "$script: $*: no line '$line':"
        cat "$work/errors"
        failed=1
    fi
}
hint 'pie: --event takes a whole number from 1 to 18446744073709551615, such as --event 1' explain --csv --event abc
hint 'pie: --event takes a whole number from 1 to 18446744073709551615, such as --event 1' explain --tag 7 --event=0
hint 'pie: --senders takes a whole number from 2 to 8, such as --senders 2' storm --seed 3 --senders 9
hint "pie: 'stampp' is no value of --delay; a similar value is 'stamp'" storm --delay stampp
hint "pie: 'uncaped' is no value of --step; a similar value is 'uncapped'" storm --step uncaped
hint "pie: 'often' is no value of --picking" storm --picking often
hint "pie: 'hal' is no value of --decay; a similar value is 'half'" params --decay hal
hint "pie: 'adls' is no value of --linklayer; a similar value is 'adsl'" params --linklayer adls
hint "pie: 'ether' is no value of --linklayer" params --linklayer ether
hint 'pie: --tag and --lost are both given' explain --lost --tag 2
hint 'pie: --event and --last are both given' cut --last 3 --event 3
hint 'pie: --around needs --event' cut --around 3 --from 2
hint 'pie: --every: a moment must be a whole number of nanoseconds, or a number with ns, us, ms, s, m or h, such as 1.5ms or 2m' explain --every abc
hint "  tip: a similar argument exists: '--every'" explain --evry 10ms
hint "  tip: a similar subcommand exists: 'explain'" explian

"$program" > "$work/output" 2> "$work/errors" < /dev/null
got=$?
if [ "$got" != 1 ] || [ -s "$work/output" ] || ! [ -s "$work/errors" ]; then
    echo "$script: without a subcommand: status $got"
    failed=1
fi
# Words that are no command line: a text only on the error stream.
for words in walk 'run fast' 'audit twice' 'explain --csv --fast' 'cut --from' 'migrate now'; do
    "$program" $words > "$work/output" 2> "$work/errors" < /dev/null
    got=$?
    if [ "$got" != 1 ] || [ -s "$work/output" ] || ! [ -s "$work/errors" ]; then
        echo "$script: pie $words: status $got"
        failed=1
    fi
done
# Help is written to the output, with an example.
for words in --help 'run --help' 'audit --help' 'explain --help' 'cut --help' 'migrate --help' 'storm --help' help; do
    "$program" $words > "$work/output" 2> "$work/errors" < /dev/null
    got=$?
    if [ "$got" != 0 ] || [ -s "$work/errors" ] || ! grep -q Example "$work/output"; then
        echo "$script: pie $words: status $got"
        failed=1
    fi
done
for words in --help --version 'audit --help' 'run --help'; do
    full "pie $words" $words < /dev/null
done
exit "$failed"
