#!/usr/bin/env bash
# Compares the interval records that the library for C writes while it decides with those of `pie
# explain --every --csv` for the same history, byte for byte. The histories are the worked rows, the
# examples, random events (bindings/c/events.c), and one without events. Intervals have 1 ns up to the
# greatest time, with and without wall-clock times. The comparison must find a caller that writes a
# record one event too late, and one that writes it before a refused call.
#
# usage: tests/libraries/period.sh [PIE]      PIE: crates/pie/out/pie by default
# needs: library, program
. "$(dirname "$0")/../shared/script.sh"
cd "$top"
lib=crates/pie_c/out/libpie_c.a
cc=${CC:-cc}
if ! command -v "$cc" > /dev/null; then
    echo "NOT RUN: $script: no C compiler ($cc) here"
    exit 0
fi
"$cc" -O2 -std=c11 -Wall -Wextra -Werror -Iinclude -o "$work/period" tests/libraries/period.c $lib || exit 1
"$cc" -O2 -std=c11 -Iinclude -o "$work/events" bindings/c/events.c $lib || exit 1
histories=()
tests/shared/rows.sh "$work/rows"
for trace in "$work"/rows/*.out "$work"/rows/choices/*.out; do
    # (an output that does not begin with an opening is omitted)
    head -n 1 "$trace" | grep -q -E '^(open|rolling)' && histories+=("$trace")
done
for trace in examples/*.trace; do
    "$program" run < "$trace" > "$work/$(basename "$trace").history" 2> /dev/null && histories+=("$work/$(basename "$trace").history")
done
for history in examples/*.history bindings/c/example.history; do
    [ -e "$history" ] && histories+=("$history")
done
for seed in 1 2 3 4 5 6 7 8 9 10 11 12 13 14 15 16; do
    "$work/events" $seed 3000 > "$work/random$seed" || exit 1
    histories+=("$work/random$seed")
done
head -n 1 examples/overload.history > "$work/empty"
histories+=("$work/empty")
rows=0 late=0 early=0
for history in "${histories[@]}"; do
    for every in 1 1000 777777 15000000 100000000 1000000000 1152921504606846975; do
        for wall in 0 1; do
            words=(--every "$every" --csv)
            [ $wall = 1 ] && words+=(--wall)
            "$program" explain "${words[@]}" < "$history" > "$work/wanted" 2> "$work/why" || continue
            if ! "$work/period" "$every" $wall < "$history" > "$work/made" 2> "$work/why"; then
                fail "$history, every $every: $(cat "$work/why")"
            elif ! cmp -s "$work/made" "$work/wanted"; then
                fail "$history, every $every, wall $wall: $(diff "$work/made" "$work/wanted" | head -n 4)"
            fi
            rows=$((rows + $(wc -l < "$work/wanted") - 1))
        done
    done
    for wrong in late early; do
        "$work/period" 15000000 0 $wrong < "$history" > "$work/$wrong" 2> /dev/null
        "$program" explain --every 15ms --csv < "$history" 2> /dev/null | cmp -s - "$work/$wrong" || ((++$wrong))
    done
done
[ $rows -gt 20000 ] || fail "only $rows records were compared"
[ $late -gt 10 ] || fail "a caller that makes records late was found in $late histories only"
[ $early -gt 10 ] || fail "a caller that writes before a refusal was found in $early histories only"
[ $failed = 0 ] && echo "$script: $rows records of periods of ${#histories[@]} histories are those of pie explain; a late caller was found in $late, an early one in $early"
exit $failed
