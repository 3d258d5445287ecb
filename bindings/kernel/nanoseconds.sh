#!/usr/bin/env bash
# Measures the time of enqueue and dequeue of pfifo, the kernel's pie and pie_recorded on this processor, without a
# boot. The objects that kbuild makes of the queue disciplines are linked into a program (measure/user), with a clock of
# the same steps as the kernel's. sch_pie.c and sch_fifo.c are those of Debian's linux-source-6.1. The times leave out
# locks, interrupts, other users of the caches, and the kernel's generator of random numbers, which pie calls for some
# arrivals. TURNS is the number of turns of each queue (2000).
# needs: a request
#
# usage: [HEADERS=folder] [KEEP=folder for all files] [TURNS=2000] bindings/kernel/nanoseconds.sh [RELEASE]
set -eu
cd "$(dirname "$0")/../.."
me=bindings/kernel/nanoseconds.sh
headers=${HEADERS:-/usr/src}
source=/usr/src/linux-source-6.1.tar.xz
release=${1:-$(cd "$headers" && echo linux-headers-6.1*-amd64 | tr ' ' '\n' | sort -V | tail -n 1 | sed 's/^linux-headers-//')}
if ! [ -d "$headers/linux-headers-$release" ] || ! [ -e $source ]; then
    echo "NOT RUN: $me: no headers of Linux 6.1 in $headers, or no $source"
    exit 0
fi
work=${KEEP:-$(mktemp -d)}
[ -n "${KEEP-}" ] || trap 'rm -rf "$work"' EXIT
mkdir -p "$work/source" "$work/user/include"
[ -e "$work/source/sch_pie.c" ] ||
    xz --decompress --stdout --threads=0 $source |
    tar --extract --directory "$work/source" --strip-components=3 linux-source-6.1/net/sched/sch_pie.c linux-source-6.1/net/sched/sch_fifo.c
cp "$work"/source/*.c bindings/kernel/measure/user/* bindings/kernel/*.[chS] "$work/user/"
cp bindings/kernel/include/* include/pie*.h "$work/user/include/"
make -s -C "$headers/linux-headers-$release" M="$work/user" queues.o sch_pie.o sch_fifo.o sch_pie_recorded_main.o pie_kernel_x86.o > "$work/make.log" 2>&1 ||
    { cat "$work/make.log" >&2; exit 1; }
objcopy --redefine-sym init_module=pie_init_module --redefine-sym cleanup_module=pie_cleanup_module "$work/user/sch_pie.o"
objcopy --redefine-sym init_module=recorded_init_module --redefine-sym cleanup_module=recorded_cleanup_module "$work/user/sch_pie_recorded_main.o"
"${CC:-cc}" -O2 -Wall -Wextra -fno-builtin -no-pie -o "$work/queues" "$work/user/main.c" \
    "$work/user"/{queues,sch_pie,sch_fifo,sch_pie_recorded_main,pie_kernel_x86}.o -Wl,--unresolved-symbols=ignore-all -Wl,--no-warnings 2> "$work/link.log" ||
    { cat "$work/link.log" >&2; exit 1; }
echo "bindings/kernel: nanoseconds on $(sed -n 's/^model name[^:]*: //p' /proc/cpuinfo | head -n 1), load $(cut -d' ' -f1 /proc/loadavg), code for Linux $release"
"$work/queues" "${TURNS:-2000}"
