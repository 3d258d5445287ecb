#!/usr/bin/env bash
# Builds and runs bench/pie_c.c over the static library, which `rt lib` in crates/pie_c builds: with DPDK's
# rte_pie.h if Debian's libdpdk-dev is installed. Prints the least and the median of each, and the ratios; and the
# instructions of a call (bench/pie_c_count.sh) if valgrind is installed.
#
# On some processors (Intel's from Skylake to Cascade Lake) a branch costs more if it crosses a multiple of 32 bytes.
# The script therefore measures four programs of the same code, in which the library and the rest begin at an even or
# an odd multiple of 16 bytes. The first table covers all four. A table for each place of the library follows.
set -eu
cd "$(dirname "$0")/.."
work=$(mktemp -d)
trap 'rm -rf "$work"' EXIT
calls="arrive_library/arrive_c arrive_library/arrive_c_checked depart_library/depart_c"
calls="$calls depart_library/depart_c_moment depart_library/depart_c_checked"
pairs="$calls update_library/update_c stream_library/stream_none stream_library/stream_c"
alone="wait_library dropped_library wait_c dropped_c"
dpdk=""
if [ -e /usr/include/dpdk/rte_pie.h ]; then
    dpdk="-DWITH_DPDK -DALLOW_EXPERIMENTAL_API $(pkg-config --cflags libdpdk) -Wno-unused-function"
    link="-lrte_eal"
    pairs="$pairs stream_library/stream_dpdk"
    alone="$alone wait_dpdk dropped_dpdk"
else
    echo "bench/pie_c.sh: no rte_pie.h here, so nothing of DPDK is measured"
    link=""
fi
cc=${CC:-cc}
"$cc" -O2 -Iinclude $dpdk -c -o "$work/pie_c.o" bench/pie_c.c
for bytes in 0 16; do
    printf '.text\n.balign 16\n.skip %d, 0x90\n.section .note.GNU-stack,"",@progbits\n' $bytes > "$work/skip.s"
    "$cc" -c -o "$work/skip$bytes.o" "$work/skip.s"
done
for bytes in 0 16; do
    for before in 0 16; do
        "$cc" -o "$work/pie_c" "$work/skip$before.o" "$work/pie_c.o" "$work/skip$bytes.o" crates/pie_c/out/libpie_c.a $link
        "$work/pie_c" >> "$work/lines$bytes"
        for call in pie_arrive pie_depart; do
            nm "$work/pie_c" | awk -v call=$call '$3 == call {print call " at .." substr($1, 15)}'
        done >> "$work/places$bytes"
    done
done
cat "$work/lines0" "$work/lines16" > "$work/lines"
python3 bench/ratios.py "$work/lines" $pairs $alone
for bytes in 0 16; do
    echo "alone where $(sort -u "$work/places$bytes" | paste -s -d , | sed 's/,/, /g')"
    python3 bench/ratios.py "$work/lines$bytes" $calls | tail -n +4
done
echo "the library and plain C make the same decisions"
bench/pie_c_count.sh
