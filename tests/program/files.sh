#!/usr/bin/env bash
# Checks files named on the command line: input files, and output files after -o, none of which may be destroyed;
# and the progress line of a long input.
# usage: tests/program/files.sh [PROGRAM]      PROGRAM: crates/pie/out/pie by default
# needs: program
. "$(dirname "$0")/../shared/expect.sh"

# The progress line is written on request, to standard error only, on one line that is cleared at the end and before
# a fault. Without the option there is none, because this standard error is not a terminal; there is none for a
# short text either.
awk 'BEGIN { print "rolling,0,4,16,1099511627776"; for (i = 1; i <= 1000000; i++) print "depart,1," i }' > "$work/long.trace"
"$program" run "$work/long.trace" > "$work/long"
wiped=$(printf '\r\033[K')
for words in "run $work/long.trace" "audit $work/long" "explain --summary $work/long" "migrate $work/long"; do
    "$program" $words > "$work/output.want" 2> "$work/errors.want"
    "$program" $words --progress > "$work/output" 2> "$work/errors"
    other=$(tr '\r' '\n' < "$work/errors" | sed 's/^\x1b\[K//' | grep -vE '^([0-9]+\.[0-9] million records, [0-9]+ MB(, [0-9]+ MB\/s)?)?$')
    if [ -s "$work/errors.want" ] || ! cmp -s "$work/output" "$work/output.want" || [ -n "$other" ] || ! grep -q 'million records' "$work/errors" \
        || [ "$(tail -c 4 "$work/errors")" != "$wiped" ]; then
        echo "$script: $words with and without --progress: another output, or on standard error $(cat -v "$work/errors.want" "$work/errors")"
        failed=1
    fi
done
echo dep >> "$work/long.trace"
"$program" run --progress "$work/long.trace" > "$work/output" 2> "$work/errors"
kinds='arrive, depart, update, reset, params, fold, show, tally'
told=$(tr '\r' '\n' < "$work/errors" | tail -n 2)
if ! cmp -s "$work/output" "$work/long" || [ "$told" != "$(printf '\033[Kpie: record 1000002: unknown kind\npie: line 1000002 of %s, field 1 (kind): "dep"; allowed are %s' "$work/long.trace" "$kinds")" ]; then
    echo "$script: progress before a fault: $(cat -v "$work/errors")"
    failed=1
fi
rm "$work/long.trace" "$work/long"
expect 'progress of a short trace' 0 'open,0,4,16,100\ndepart,1,9,empty\n' '' 'open,0,4,16,100\ndepart,1,9\n' run --progress

# Files: the output for one file, and for -, is the output for standard input.
printf "$trace" > "$work/trace"
printf "$history" > "$work/history"
printf "$changed" > "$work/changed"
printf 'open,0,4,16,100\ndepart,1,9,empty\ndep,1,10\n' > "$work/faulty"
printf 'open,0,4,16,100\ndepart,1,9\ndepart,1\n' > "$work/faulty.trace"
printf "$one" > "$work/one"
printf 'open,0,4,16,100\n' > "$work/none"
# the lines about the event that differs: its record and the right one; and the explanation of the right one
records="pie: $work/changed: event 10 is recorded as arrive,1,1001003,5,500,ect0,0,early\n"
records+="pie: $work/changed: the rules give arrive,1,1001003,5,500,ect0,0,mark\n"
audited="${records}pie: $work/changed: pie explain --event 10 $work/changed explains it\n"
right=$("$program" explain --event=10 "$work/history" | sed 's/%/%%/g; s/$/\\n/' | tr -d '\n')
explained="$differs$records$right"
allowed='arrive, depart, update, reset, params, refused, folded, shown, tallied'
expect 'a run of a file' 0 "$history" '' '' run "$work/trace"
expect 'a counted run of a file' 0 "$history" 'pie: 11 events, 0 refused records\n' '' run "$work/trace" --count
expect 'a run of -' 0 "$history" '' "$trace" run -
expect 'a run of a file with a fault' 1 'open,0,4,16,100\ndepart,1,9,empty\n' "pie: record 3: wrong number of fields\npie: line 3 of $work/faulty.trace: 2 fields; depart has 3\n" '' run "$work/faulty.trace"
expect 'an explained file' 0 "$header$lost" '' '' explain --csv --lost "$work/history"
expect 'an explained file that differs' 2 "${header}$begins" "$explained" '' explain "$work/changed" --csv --event=1
expect 'a migrated file' 0 "$two" '' '' migrate "$work/one"
expect 'an audit of a file' 0 "$work/history: clean,11\n" '' '' audit "$work/history"
expect 'an audit of -' 0 '-: clean,11\n' '' "$history" audit -
expect 'audits of files' 0 "$work/history: clean,11\n$work/none: clean,0\n-: clean,11\n" '' "$history" audit "$work/history" "$work/none" -
expect 'audits of which one differs' 2 "$work/history: clean,11\n$work/changed: differs,10\n$work/none: clean,0\n" "$audited" '' \
    audit "$work/history" "$work/changed" "$work/none"
expect 'audits of which one has a fault' 1 "$work/history: clean,11\n$work/none: clean,0\n" "pie: $work/faulty: record 3: unknown kind\npie: line 3 of $work/faulty, field 1 (kind): \"dep\"; allowed are $allowed\n" '' \
    audit "$work/history" "$work/faulty" "$work/none"
expect 'a fault is worse than a difference' 1 "$work/changed: differs,10\n$work/none: clean,0\n" "${audited}pie: $work/faulty: record 3: unknown kind\npie: line 3 of $work/faulty, field 1 (kind): \"dep\"; allowed are $allowed\n" '' \
    audit "$work/changed" "$work/faulty" "$work/none"
expect 'a difference is no better behind a fault' 1 "$work/changed: differs,10\n" "pie: $work/faulty: record 3: unknown kind\npie: line 3 of $work/faulty, field 1 (kind): \"dep\"; allowed are $allowed\n$audited" '' \
    audit "$work/faulty" "$work/changed"
expect 'standard input, twice' 1 '-: clean,11\n' 'pie: -: standard input has already been read\n' "$history" audit - -
missing="$work/missing: No such file or directory (os error 2)"
expect 'a missing file' 1 "$work/none: clean,0\n" "pie: $missing\n" '' audit "$work/missing" "$work/none"
# A name of 240 bytes is valid: its file is audited, and its fault is reported.
long=$work/$(printf 'n%.0s' $(seq 240))
cp "$work/history" "$long"
expect 'audits of which one has a long name' 0 "$long: clean,11\n$work/none: clean,0\n" '' '' audit "$long" "$work/none"
expect 'a joined audit of a file with a long name' 0 "$long: clean,11\n" '' '' audit --joined "$long"
cp "$work/faulty" "$long"
expect 'a fault of a file with a long name' 1 "$work/none: clean,0\n" "pie: $long: record 3: unknown kind\npie: line 3 of $long, field 1 (kind): \"dep\"; allowed are $allowed\n" '' audit "$long" "$work/none"
rm "$long"
expect 'no file of a long name' 1 "$work/none: clean,0\n" "pie: $long: No such file or directory (os error 2)\n" '' audit "$long" "$work/none"
# A name with characters that have a meaning for a shell is quoted in the suggested command, which does what it says. Control characters are
# written with a backslash.
number=0
for odd in 'a b;c' "it's" '$(date)' $'new\nline' $'bell\033[31m' '-x' ü; do
    number=$((number + 1))
    mkdir -p "$work/odd"
    cp "$work/changed" "$work/odd/$odd"
    (cd "$work/odd" && "$program" audit -- "$odd" > "$work/output" 2> "$work/errors")
    if [ "$(wc -l < "$work/output")" != 1 ] || [ "$(wc -l < "$work/errors")" != 3 ] || LC_ALL=C grep -q $'\033' "$work/output" "$work/errors"; then
        fail "an audit of the file '$odd': $(cat -v "$work/output" "$work/errors")"
    fi
    suggested=$(sed -n 's/.*: pie explain \(.*\) explains it$/\1/p' "$work/errors")
    (cd "$work/odd" && eval "\"$program\" explain $suggested" > "$work/output" 2> "$work/errors")
    grep -q 'event 10 is recorded as arrive,1,1001003,5,500,ect0,0,early' "$work/errors" || fail "the command for '$odd': $suggested: $(cat -v "$work/errors")"
    printf 'depart,1' >> "$work/odd/$odd"
    (cd "$work/odd" && "$program" explain --all -- "$odd" > /dev/null 2> "$work/errors")
    if [ "$(wc -l < "$work/errors")" != 2 ] || LC_ALL=C grep -q $'\033' "$work/errors"; then
        fail "a fault of the file '$odd': $(cat -v "$work/errors")"
    fi
done
rm -r "$work/odd"
[ "$number" = 7 ] || fail "odd names: $number"
# A name that is not UTF-8 is reported, and the other files are audited.
odd=$work/$(printf 'odd\377')
cp "$work/history" "$odd"
shown="$work/odd\357\277\275: the name is not valid UTF-8\n"
expect 'audits of which one has a name that is not UTF-8' 1 "$work/history: clean,11\n$work/none: clean,0\n" "pie: $shown" '' \
    audit "$work/history" "$odd" "$work/none"
expect 'an audit of a file whose name is not UTF-8' 1 '' "pie: $shown" "$history" audit "$odd"
expect 'a run of a file whose name is not UTF-8' 1 '' "pie: $shown" "$trace" run "$odd"
expect 'a run to a file whose name is not UTF-8' 1 '' "pie: $shown" "$trace" run --force -o "$odd"
printf -- "$history" | cmp - "$odd" || fail 'a file whose name is not UTF-8: it was changed'
rm "$odd"
printf 'dep\n' > "$work/unopened"
for name in run migrate 'explain --all' 'cut --last 1'; do
    openings='open, rolling, open2, open3, resume'
    [ "$name" = migrate ] && openings=${openings%, resume}
    expect "$name of a missing file" 1 '' "pie: $missing\n" '' $name "$work/missing"
    expect "$name of a folder" 1 '' "pie: $work: Is a directory (os error 21)\n" '' $name "$work"
    expect "$name of a file with a fault" 1 '' "pie: the first record is not an open record\npie: line 1 of $work/unopened, field 1 (kind): \"dep\"; allowed are $openings\n" '' $name "$work/unopened"
done
# -o writes the output to a new file and leaves no other file in the folder.
made=$work/folder/made
mkdir "$work/folder"

# holds NAME [TEXT]: checks that the file has this text, as for printf, or without TEXT that it does not
# exist; and that the folder has no partial file of it
holds() {
    [ $# = 1 ] && [ -e "$made" ] && fail "$1: the file is there"
    [ $# = 1 ] || { printf -- "$2" | cmp - "$made" || fail "$1: the file has another text"; }
    [ "$(find "$work/folder" -mindepth 1 ! -name made | wc -l)" = 0 ] || fail "$1: something is left: $(ls -A "$work/folder")"
}

# written NAME STATUS TEXT INPUT WORDS..: checks that the file has this text and standard output is
# empty; also if it replaces another file with --force
written() {
    local name=$1 status=$2 text=$3 input=$4
    shift 4
    rm -f "$made"
    expect "$name" "$status" '' "${errors-}" "$input" "$@" -o "$made"
    holds "$name" "$text"
    expect "$name, again" 1 '' "pie: $made: the file exists; --force replaces it\n" "$input" "$@" -o "$made"
    holds "$name, again" "$text"
    printf 'older text, longer than what comes\n%.0s' 1 2 3 4 5 6 7 8 9 > "$made"
    chmod 640 "$made"
    expect "$name, by --force" "$status" '' "${errors-}" "$input" "$@" -o "$made" --force
    holds "$name, by --force" "$text"
    [ "$(stat -c %a "$made")" = 640 ] || fail "$name, by --force: another may read it than could"
    rm "$made"
}
written 'a run to a file' 0 "$history" "$trace" run
written 'a run of a file to a file' 0 "$history" '' run "$work/trace"
written 'explanations to a file' 0 "$header$lost" "$history" explain --csv --lost
written 'a migration to a file' 0 "$two" "$one" migrate
errors=$explained written 'explanations up to an event that differs, to a file' 2 "${header}$begins" '' explain "$work/changed" --csv --event=1

# After a fault the partial output remains in FILE.partial, and an existing file is unchanged. The partial output of
# an earlier fault remains too.
until='this file has the incomplete output'
fault="pie: record 3: wrong number of fields\npie: line 3 of $work/faulty.trace: 2 fields; depart has 3\n"
begun='open,0,4,16,100\ndepart,1,9,empty\n'
expect 'a fault, to a file' 1 '' "${fault}pie: $made.partial: $until\n" '' run "$work/faulty.trace" -o "$made"
printf older > "$made"
expect 'a fault, to a file that is there' 1 '' "${fault}pie: $made.partial.2: $until\n" '' run "$work/faulty.trace" --force -o "$made"
[ "$(cat "$made")" = older ] || fail 'a fault, to a file that is there: it was replaced'
for name in partial partial.2; do
    printf "$begun" | cmp - "$made.$name" || fail "a fault, to a file: $name has another text"
done
rm "$made".*
expect 'a fault before anything was written, to a file' 1 '' 'pie: the first record is not an open record\n' 'dep\n' run --force -o "$made"
holds 'a fault before anything was written, to a file' older
expect 'a mistake that is found late, to a file' 1 '' 'pie: --from must not be after --to\n' "$history" \
    explain --all --from 2 --to 1 --force -o "$made"
holds 'a mistake that is found late, to a file' older
rm "$made"

# During a run: the partial file of a private file is private from the start. A file that appears under
# the name of -o meanwhile is unchanged without --force.
mkfifo "$work/slow"

# slowly MODE ACT WORDS..: runs a trace that ends only when the partial file of -o exists, has this
# mode, and ACT was done. Sets status.
slowly() {
    local mode=$1 act=$2
    shift 2
    "$program" run -o "$made" "$@" < "$work/slow" > "$work/output" 2> "$work/errors" &
    local running=$!
    exec 9> "$work/slow"
    printf -- "$trace" >&9
    until [ -e "$made.partial" ] || ! kill -0 $running; do sleep 0.01; done
    [ -z "$mode" ] || [ "$(stat -c %a "$made.partial")" = "$mode" ] || fail "a run in place of a private file: beside it others may read"
    eval "$act"
    exec 9>&-
    wait $running
    status=$?
}
umask=$(umask)
umask 022
printf older > "$made"
chmod 600 "$made"
slowly 600 '' --force
[ $status = 0 ] && [ "$(stat -c %a "$made")" = 600 ] || fail "a run in place of a private file: status $status, $(cat "$work/errors")"
holds 'a run in place of a private file' "$history"
rm "$made"
# The new file has the permissions of the replaced one, also those that the umask would take away.
umask 077
for mode in 600 644 664 666; do
    printf older > "$made"
    chmod $mode "$made"
    "$program" run --force -o "$made" "$work/trace" 2> "$work/errors" && [ "$(stat -c %a "$made")" = $mode ] ||
        fail "a run in place of a file of mode $mode: $(stat -c %a "$made"), $(cat "$work/errors")"
    holds "a run in place of a file of mode $mode" "$history"
    rm "$made"
done
umask "$umask"
slowly '' 'printf appeared > "$made"'
[ $status = 1 ] && printf "pie: $made: File exists (os error 17)\npie: $made.partial: this file has the output\n" | cmp -s - "$work/errors" ||
    fail "a file that appears: status $status, $(cat "$work/errors")"
[ "$(cat "$made")" = appeared ] && printf -- "$history" | cmp - "$made.partial" || fail 'a file that appears: it was replaced'
rm -f "$made" "$made.partial"
slowly '' 'printf appeared > "$made"' --force
[ $status = 0 ] || fail "a file that appears, by --force: status $status, $(cat "$work/errors")"
holds 'a file that appears, by --force' "$history"
rm "$made" "$work/slow"

# The input file is never overwritten, by whatever name: its own, another path, a hard link, a symbolic link, or as
# standard input.
ln "$work/trace" "$work/hard"
ln -s trace "$work/symbolic"
mkdir "$work/other"
for name in "$work/trace" "$work/./trace" "$work/other/../trace" "$work/hard" "$work/symbolic"; do
    for words in '' --force; do
        for command in run migrate 'explain --all'; do
            says="pie: $name: the input file cannot be the output file\n"
            expect "$command $words of a file to itself as $name" 1 '' "$says" '' $command $words "$work/trace" -o "$name"
        done
        "$program" run $words -o "$name" < "$work/trace" > "$work/output" 2> "$work/errors"
        [ $? = 1 ] && [ "$(cat "$work/errors")" = "pie: $name: the input file cannot be the output file" ] ||
            fail "run $words of standard input to itself as $name: $(cat "$work/errors")"
        printf -- "$trace" | cmp -s - "$work/trace" || fail "$name: what was read was destroyed"
    done
done
rm "$work/hard" "$work/symbolic"

# Standard output that is the input file, as with >>, is refused before anything is written.
for words in run audit migrate 'explain --all' 'cut --from 0ms' 'what-if --from 0ms --target 5ms'; do
    cp "$work/trace" "$work/itself"
    "$program" $words "$work/itself" >> "$work/itself" 2> "$work/errors"
    [ $? = 1 ] && [ "$(cat "$work/errors")" = "pie: $work/itself: the input file cannot be the output file" ] ||
        fail "$words of a file that is standard output: $(cat "$work/errors")"
    "$program" $words < "$work/itself" >> "$work/itself" 2> "$work/errors"
    [ $? = 1 ] && [ "$(cat "$work/errors")" = "pie: the input file cannot be the output file" ] ||
        fail "$words of standard input that is standard output: $(cat "$work/errors")"
    cmp -s "$work/trace" "$work/itself" || fail "$words: the file that is standard input and output was changed"
done
rm "$work/itself"

# Two files are one only if their devices are the same too: the first files of two new file systems have one number.
if unshare -rm true 2> "$work/said"; then
    printf -- "$trace" > "$work/other/trace"
    unshare -rm bash -c '
        mkdir "$0/one" "$0/two"
        for it in one two; do mount -t tmpfs tmpfs "$0/$it" && cp "$0/trace" "$0/$it/it"; done
        [ "$(stat -c %i "$0/one/it")" = "$(stat -c %i "$0/two/it")" ] || { echo "the two files have different numbers"; exit 1; }
        "$1" run "$0/one/it" --force -o "$0/two/it" && "$1" audit < "$0/two/it"' "$work/other" "$program" > "$work/output" 2> "$work/errors"
    [ "$(cat "$work/output")" = clean,11 ] || fail "a run to a file of the same number on another device: $(cat "$work/output" "$work/errors")"
else
    echo "NOT RUN: $script: no file systems can be mounted here, so no file has the same number on another device: $(cat "$work/said")"
fi

# A symbolic link to another file counts as an existing file, also if that file does not exist.
# --force replaces the link itself.
printf older > "$work/else"
for there in else nowhere; do
    ln -s "../$there" "$made"
    expect "a link to $there" 1 '' "pie: $made: the file exists; --force replaces it\n" "$trace" run -o "$made"
    expect "a link to $there, by --force" 0 '' '' "$trace" run -o "$made" --force
    [ -L "$made" ] && fail "a link to $there, by --force: it was followed"
    holds "a link to $there, by --force" "$history"
    rm "$made"
done
[ "$(cat "$work/else")" = older ] && ! [ -e "$work/nowhere" ] || fail 'what a link leads to was changed'

# Standard output by its names, pipes and devices are opened and written directly.
for name in /dev/stdout /dev/fd/1 /proc/self/fd/1; do
    expect "a run to $name" 0 "$history" '' "$trace" run -o "$name"
done
printf 'before\n' > "$work/appended"
printf -- "$trace" | "$program" run -o /dev/stdout >> "$work/appended" || fail 'a run to /dev/stdout, appended: no status 0'
printf -- "before\n$history" | cmp - "$work/appended" || fail 'a run to /dev/stdout, appended: another text'
mkfifo "$work/folder/pipe"
cat "$work/folder/pipe" > "$work/piped" &
expect 'a run to a pipe' 0 '' '' "$trace" run -o "$work/folder/pipe"
wait $!
printf -- "$history" | cmp - "$work/piped" || fail 'a run to a pipe: another text'
rm "$work/folder/pipe"
expect 'a run to no device' 0 '' '' "$trace" run -o /dev/null
expect 'a run to -' 0 "$history" '' "$trace" run -o -
[ ! -e - ] || fail 'a run to -: a file has that name'
expect 'a run to a full device' 1 '' 'pie: /dev/full: No space left on device (os error 28)\npie: cannot write the output\n' "$trace" run -o /dev/full
holds 'pipes and devices'

for name in run migrate 'explain --all'; do
    expect "$name to a folder" 1 '' "pie: $work: Is a directory (os error 21)\n" "$one" $name -o "$work"
    expect "$name to a folder that isn't there" 1 '' "pie: $work/no/made: No such file or directory (os error 2)\n" \
        "$one" $name --output "$work/no/made"
    expect "$name to no name" 1 '' 'pie: : No such file or directory (os error 2)\n' "$one" $name -o ''
done
expect 'an audit of a folder' 1 '' "pie: $work: Is a directory (os error 21)\n" '' audit "$work"
exit "$failed"
