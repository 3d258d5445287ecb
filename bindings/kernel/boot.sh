#!/usr/bin/env bash
# Boots a kernel of Debian under qemu with the module, in simulated time. TCP and pings pass from one network namespace
# through a second to a third (boot_init.sh). Afterwards sums.py audits each record and compares its
# sums with those of `tc -s -j` and of the receiver. The kernel must not warn. Then the same boot loads modules with one
# fault each (the first four of mutants.txt), and sums.py must find each fault. It takes a minute of one processor, and
# two with --all.
#
# --all     all faults, the kernel's own queues in the same place, and a gigabyte by TCP over lo
# --processor aarch64
#           boots Debian's kernel for arm64 instead. Debian's cross compiler builds the module, pie-tap and pie. The other
#           files are in ROOT, build/debian-aarch64 by default; if ROOT does not exist, packages.sh makes it
# SEED      the seed of the simulation, 1 by default
# ROOT      has a kernel's boot/ and lib/modules/, of an installed package (/, the default) or an unpacked one
# HEADERS   the folder above the kernel's headers, /usr/src by default
# needs: program
#
# usage: [PIE=program] [SEED=1] [HEADERS=folder] [KEEP=folder for all files] bindings/kernel/boot.sh [--all] [--processor aarch64] [ROOT]
set -eu
cd "$(dirname "$0")/../.."
all=0 processor=x86_64
while [[ ${1-} = --* ]]; do
    case "$1 ${2-}" in
        "--all "*) all=1 ;;
        "--processor aarch64")
            processor=$2
            shift
            ;;
        *)
            echo "usage: bindings/kernel/boot.sh [--all] [--processor aarch64] [ROOT]" >&2
            exit 2
            ;;
    esac
    shift
done
me=bindings/kernel/boot.sh
pie=${PIE:-$PWD/crates/pie/out/pie}
[ -x "$pie" ] || { echo "NOT RUN: $me: no program $pie"; exit 0; }
# shellcheck source=guest.sh
. bindings/kernel/guest.sh
build_module . "$work/root/mods/sch_pie_recorded.ko"
mutants=$(awk -v RS= '!/\n(survives|alone): /' "$work/source/mutants.txt" | sed -n 's/^name: //p')
[ $all = 1 ] || mutants=$(head -n 4 <<< "$mutants")
echo "$mutants" > "$work/root/mods/faults"
"$work/source/mutant.py" > "$work/build/bindings/kernel/sch_pie_recorded_main.c"
build_module . "$work/root/mods/faulty.ko"
fill_root bindings/kernel/boot_init.sh veth sch_htb sch_tbf sch_netem sch_pie failover net_failover virtio_net
truncate -s 256M "$work/disk"
# shellcheck disable=SC2086
boot "all=$all transfer=$([ $all = 1 ] && echo 1G || echo 8M)" $SIMULATED -drive "file=$work/disk,format=raw,if=virtio" \
    -device virtio-net-pci,romfile=,speed=10,duplex=full -device virtio-net-pci,romfile=,speed=1000,duplex=full -device virtio-net-pci,romfile=
mkdir "$work/records"
tar -C "$work/records" -xf "$work/disk"
# what was followed while the queue worked begins with what was dumped: behind the first record, which is an opening there and of an excerpt here, only
# the time of day may have been read at another moment
for name in history followed; do
    sed 1d "$work/records/flows.$name" | grep -v '^clock,' > "$work/$name"
done
head -n "$(wc -l < "$work/history")" "$work/followed" | cmp - "$work/history"
"$pie" explain --every 1s --csv "$work/records/flows.followed" > "$work/every"
cut -d, -f1-"$(head -n 1 "$work/every" | tr ',' '\n' | wc -l)" "$work/records/flows.periods" | cmp - "$work/every"
grep -E '^TOLD' "$work/console" | tr -d '\r' | sed 's/^TOLD/ /'
echo "bindings/kernel: Linux $release"
# a purge pauses for a millisecond after each PR_PURGE_MOST packets
longest=$(awk -F, '$1 == "depart" && $2 == 4 { run = $3 - last < 500000 ? run + 1 : 1; last = $3; if (run > most) most = run; all++ }
    END { print (all > 2 * most ? most + 0 : "none: " all + 0) }' "$work/records/long.history")
if [ "$longest" != 1024 ]; then
    echo "$me: packets purged without a pause: $longest" >&2
    exit 1
fi
# the guest's own program audited the histories, and found the same
if [ -n "$system" ]; then
    for history in "$work"/records/*.history; do
        echo "${history##*/} $("$pie" audit < "$history")"
    done | sort > "$work/audits"
    sort "$work/records/audits" | cmp - "$work/audits"
    echo "bindings/kernel: pie on $processor audits $(ls "$work"/records/*.history | wc -l) histories as here"
fi
# the limits by a rate, in bytes and packets, are those of `pie params`; a record has room for at most 65536 packets
for file in "$work"/records/rate_*.excerpt; do
    rate=${file##*/rate_}
    wanted=$("$pie" params --rate "${rate%.excerpt}" 2> /dev/null | awk -F, -v OFS=, '{ print ($9 < 65536 ? $9 : 65536), $18 }')
    limits=$(head -n 1 "$file" | cut -d, -f9,18)
    if [ "$limits" != "$wanted" ]; then
        echo "$me: ${file##*/} has the limits $limits, and pie params $wanted" >&2
        exit 1
    fi
done
# shellcheck disable=SC2086
bindings/kernel/sums.py "$pie" "$work/records" $mutants consumed
