#!/usr/bin/env bash
# Counts the instructions of calls of the library on each processor of dist/, beside plain C with the same steps for the same processor, under qemu's user
# mode, which logs each instruction. A count is a mean over 200 calls outside of main; the counts do not depend on the load. gcc -O2 compiles plain C. For
# processors with 32-bit words gcc has no 128-bit numbers, so there is no plain C. The last number is a check of the whole state, which an update contains.
# Prints the rows of docs/PERFORMANCE.md.
#
# usage: bench/pie_processors.sh
set -eu
cd "$(dirname "$0")/.."
work=$(mktemp -d)
trap 'rm -rf "$work"' EXIT

# counted EMULATOR SIDE KIND: prints the instructions of a call
counted() {
    local calls
    for calls in 100 300; do
        "$1" -singlestep -d exec,nochain -D "$work/log" "$work/program" "$2" "$3" "$calls" || return 1
        awk '/^Trace/ && $NF != "main" { n++ } END { print n }' "$work/log" > "$work/$calls"
    done
    echo $((($(cat "$work/300") - $(cat "$work/100")) / 200))
}

for it in x86_64:x86_64-linux-gnu:x86_64 aarch64:aarch64-linux-gnu:aarch64 riscv64:riscv64-linux-gnu:riscv64 armv7:arm-linux-gnueabihf:arm mipsel:mipsel-linux-gnu:mipsel; do
    IFS=: read -r processor prefix emulator <<< "$it"
    if ! command -v "$prefix-gcc" > /dev/null || ! command -v "qemu-$emulator" > /dev/null; then
        echo "NOT RUN: bench/pie_processors.sh: no $prefix-gcc or qemu-$emulator here"
        continue
    fi
    make -s CC="$prefix-gcc" BUILD="$work/$processor" "$work/$processor/libpie_c.a"
    "$prefix-gcc" -O2 -static -Iinclude -Ibench -o "$work/program" bench/pie_processors.c "$work/$processor/libpie_c.a"
    row="| $processor"
    for kind in arrive depart update; do
        library=$(counted "qemu-$emulator" library "$kind")
        if plain=$(counted "qemu-$emulator" plain "$kind" 2> /dev/null) && [ "$plain" -gt 0 ]; then
            row="$row | $library | $plain | $(awk "BEGIN { printf \"%.2f\", $library / $plain }")"
        else
            row="$row | $library | |"
        fi
    done
    echo "$row | $(counted "qemu-$emulator" library check) |"
done
