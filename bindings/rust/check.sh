#!/usr/bin/env bash
# Builds the static libraries, and runs in Rust, without a network: the worked rows, the documentation's examples, the
# events, the flight recorder, the calls at a link, and the example queues. It audits the history of the recorded queue,
# the events that four threads at a link fold, and the texts of a queue with a flight recorder. One text is written
# while the queue runs. Another is written after the queue was killed; the recorder in C must write an equal one. Then
# the script compares the programs of bench/peer with `pie run`. Prints a line NOT RUN if there is no cargo 1.82 or
# later, or no C compiler to link with.
# needs: library, program
set -eu
cd "$(dirname "$0")/../.."
least=$(sed -n 's/^rust-version = "\(.*\)"$/\1/p' bindings/rust/Cargo.toml)
if ! command -v cargo > /dev/null || ! command -v cc > /dev/null || [ "$(rustc --version | cut -d. -f2)" -lt "${least#1.}" ]; then
    echo "NOT RUN: bindings/rust: no cargo ($least or later; Debian 12 has 1.63) and C compiler here, so the rows and the examples in Rust were not built"
    exit 0
fi
bindings/c/library.py > /dev/null
program=$PWD/crates/pie/out/pie
cd bindings/rust
# (each build here is run once: nothing is kept for a next build, nor for a debugger)
export CARGO_INCREMENTAL=0 CARGO_PROFILE_DEV_DEBUG=0 CARGO_PROFILE_TEST_DEBUG=0
cargo test --offline --locked --quiet
cargo test --offline --locked --quiet --features link -- --include-ignored
cargo run --offline --locked --quiet --example queue | tail -n 1
work=$(mktemp -d)
working=
trap '[ -z "$working" ] || kill -KILL "$working" 2> /dev/null || true; rm -rf "$work"' EXIT
history=$work/history
# the compiler of the target comes before CC, and a library may be in any folder of a prefix
target=$(rustc -vV | sed -n 's/^host: //p')
mkdir -p "$work/prefix/lib/x86_64-linux-gnu"
cp ../../crates/pie_c/out/libpie_c.a "$work/prefix/lib/x86_64-linux-gnu"
ln -s "$(command -v cc)" "$work/target_cc"
for choice in "CC_$target" "CC_${target//-/_}" HOST_CC; do
    rm -rf "$work/built"
    env PIE_C_PREFIX= CC=false "$choice=$work/target_cc" cargo build --offline --locked --quiet --target-dir "$work/built" ||
        { echo "bindings/rust/check.sh: the build does not use $choice" && exit 1; }
done
rm -rf "$work/built"
! env PIE_C_PREFIX= CC=false cargo build --offline --locked --quiet --target-dir "$work/built" 2> /dev/null ||
    { echo "bindings/rust/check.sh: the build does not use CC" && exit 1; }
PIE_C_PREFIX=$work/prefix cargo run --offline --locked --quiet --target-dir "$work/built" --example queue > /dev/null ||
    { echo "bindings/rust/check.sh: the library below a prefix is not found" && exit 1; }
rm -rf "$work/built"
cargo run --offline --locked --quiet --features std --example recorded > "$history"
events=$(grep -c -E '^(arrive|depart|update|reset|params),' "$history")
found=$("$program" audit < "$history")
if [ "$found" != "clean,$events" ]; then
    echo "bindings/rust/check.sh: the recorded queue's history is not clean: $found of $events events"
    exit 1
fi
times=$("$program" explain --all --csv --wall < "$history" | awk -F, 'NR == 2 { first = $NF } END { print first, $NF }')
if [ "$times" != '2026-11-24T20:00:00.000500000Z 2026-11-24T20:00:01.000000002Z' ]; then
    echo "bindings/rust/check.sh: the times of day of the recorded queue's first and last event are told as $times"
    exit 1
fi
echo "bindings/rust: the audit finds the recorded queue's history clean ($events events, at $times)"
cargo run --offline --locked --quiet --features link --example link > "$history"
events=$(grep -c -E '^(arrive|depart|update|reset|params),' "$history")
found=$("$program" audit < "$history")
if [ "$found" != "clean,$events" ]; then
    echo "bindings/rust/check.sh: what threads at a link folded is not clean: $found of $events events"
    exit 1
fi
# callers 1 and 2 send packets 1 to 20000, each in its order
for caller in 1 2; do
    if ! grep -o "^arrive,$caller,[0-9]*,[0-9]*" "$history" | cut -d, -f4 | cmp -s - <(seq 20000); then
        echo "bindings/rust/check.sh: sender $caller's arrivals at a link are not all there, once and in order"
        exit 1
    fi
done
echo "bindings/rust: four threads at a link: the audit finds their history clean ($events events)"

# clean TEXT: audits an excerpt and sets `found` to the number of its last event; each event must have a wall-clock
# time
clean() {
    [ "$(grep -c '^clock,0,1795550400000000000$' "$1")" = 1 ] || { echo "bindings/rust/check.sh: a text without the time of day" && exit 1; }
    found=$("$program" audit < "$1")
    case $found in
        clean,*) found=${found#clean,} ;;
        *) echo "bindings/rust/check.sh: a text of the flight recorder is not clean: $found" && exit 1 ;;
    esac
}

# is_there FILE: waits for it, ten minutes at most
is_there() {
    local tries
    for tries in {1..6000}; do
        [ ! -e "$1" ] || return 0
        sleep 0.1
    done
    echo "bindings/rust/check.sh: the queue with a flight recorder wrote no $1 in $((tries / 10)) seconds"
    exit 1
}
cargo build --offline --locked --quiet --features std --example flight
example=$(cargo metadata --offline --locked --no-deps --format-version 1 | sed 's/.*"target_directory":"\([^"]*\)".*/\1/')/debug/examples/flight
"$example" keep "$work/flight" &
working=$!
texts=0
for tries in 1 2 3; do
    is_there "$work/flight.history"
    mv "$work/flight.history" "$work/text"
    clean "$work/text"
    texts=$((texts + 1))
done
kill -KILL "$working"
wait "$working" 2> /dev/null || true
working=
"$example" text "$work/flight" > "$work/text"
before=$found
clean "$work/text"
if [ "$found" -lt "$before" ]; then
    echo "bindings/rust/check.sh: the killed queue left event $found, and wrote event $before before"
    exit 1
fi
cd ../..
shared=examples/shared
"${CC:-cc}" -O1 -std=c11 -Iinclude -I$shared -o "$work/flight_text" $shared/flight_text.c $shared/flight_file.c $shared/output.c \
    crates/pie_c/out/libpie_c.a -pthread -lm
"$work/flight_text" "$work/flight" | cmp - "$work/text"
echo "bindings/rust: $texts texts of a working queue are clean, and what it left when it was killed is too ($found events), as C writes it as well"
# bench/peer: the programs in Rust that docs/PERFORMANCE.md compares with `pie run`, over crate csv of Debian's packages
registry=/usr/share/cargo/registry
if ! compgen -G "$registry/csv-[0-9]*" > /dev/null; then
    echo "NOT RUN: bindings/rust: no crate csv in $registry, so bench/peer was not built"
    exit 0
fi
mkdir "$work/bench"
cp -r bench/peer "$work/bench"
ln -s "$PWD/bindings" "$work/bindings"
(cd "$work/bench/peer" && cargo build --offline --quiet --target-dir "$work/peers" --config 'source.crates-io.replace-with="debian"' \
    --config "source.debian.directory='$registry'")
for kind in plain mixed; do
    python3 bench/trace.py 2000 1 $kind > "$work/trace"
    "$program" run < "$work/trace" > "$history"
    peer=$work/peers/debug/peer
    [ $kind = plain ] || peer=$work/peers/debug/mixed
    "$peer" < "$work/trace" | cmp - "$history"
done
echo "bindings/rust: the programs of bench/peer write what pie run writes"
