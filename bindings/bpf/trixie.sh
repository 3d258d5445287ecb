#!/usr/bin/env bash
# Boots a fresh Debian 13 with the kernel of its backports under qemu, with four processors. It installs the packages juniperbowls and juniperbowls-qdisc
# there by `apt install`, and runs the commands of the README: attach, record, audit, explain, show, detach (trixie_init.sh). The installed pie must find the
# record clean, with each event that pie-qdisc counted, and name the cause of each drop that tc counted. Then each processor sends to one queue, and to four
# queues below mq at once; sums.py audits their records, and compares their sums with those of `tc -s -j` and of `pie-qdisc show --json`. mmdebstrap makes
# the system; it has the packages that those of Juniperbowls depend on. The archive is that of apt's own sources.
#
# PACKAGES  the folder with juniperbowls_*.deb and juniperbowls-qdisc_*.deb. By default dpkg-buildpackage makes them from the files of this repository
# SYSTEM    a folder with a Debian 13 that an earlier run made, or the folder to which this run copies it
# needs: a request
#
# usage: [PACKAGES=folder] [SYSTEM=folder] [PROCESSORS=4] [KEEP=folder for all files] bindings/bpf/trixie.sh
set -eu
cd "$(dirname "$0")/../.."
me=bindings/bpf/trixie.sh
for program in mmdebstrap mke2fs dpkg-buildpackage dh qemu-system-x86_64 zstd python3 clang-19 bpftool; do
    PATH=$PATH:/usr/sbin command -v $program > /dev/null || { echo "NOT RUN: $me: no $program here (tests/install.sh bindings/bpf, bindings/linux/install.sh)"; exit 0; }
done
work=${KEEP:-$(mktemp -d)}
[ -n "${KEEP-}" ] || trap 'rm -rf "$work"' EXIT
mkdir -p "$work"
packages=${PACKAGES-}
if [ -z "$packages" ]; then
    mkdir -p "$work/package/source"
    git ls-files -z | tar --create --null --files-from=- | tar --extract -C "$work/package/source"
    (cd "$work/package/source" && DEB_BUILD_OPTIONS='nocheck noautodbgsym' dpkg-buildpackage -us -uc -b > "$work/package/log" 2>&1) ||
        { cat "$work/package/log" >&2; exit 1; }
    packages=$work/package
fi
system=${SYSTEM:-$work/system}
if [ ! -e "$system/boot" ]; then
    # shellcheck source=../../tests/shared/apt_uri.sh
    . tests/shared/apt_uri.sh
    archive=$(apt_uri) security=$(apt_uri security)
    mmdebstrap --quiet --mode=root --variant=minbase \
        --include="linux-base/trixie-backports,linux-image-amd64/trixie-backports,initramfs-tools,iproute2,iperf3,kmod,procps,perl,python3,libbpf1,zstd" trixie "$system" \
        "deb $archive trixie main" "deb $archive trixie-updates main" "deb $security trixie-security main" "deb $archive trixie-backports main" \
        > "$work/system.log" 2>&1 || { cat "$work/system.log" >&2; exit 1; }
fi
release=$(basename "$system"/boot/vmlinuz-*)
release=${release#vmlinuz-}
rm -f "$system"/root/*
cp "$packages"/juniperbowls_*_amd64.deb "$packages"/juniperbowls-qdisc_*_amd64.deb "$system/root/"
install -m 755 bindings/bpf/trixie_init.sh "$system/trixie_init.sh"
bindings/kernel/vmlinux.py "$system/boot/vmlinuz-$release" "$work/vmlinux"
rm -f "$work/disk" "$work/records"
PATH=$PATH:/usr/sbin mke2fs -q -t ext4 -d "$system" "$work/disk" 3G > /dev/null
truncate -s 1G "$work/records"
timeout "${LIMIT:-3600}" qemu-system-x86_64 -nodefaults -display none -monitor none -no-reboot -kernel "$work/vmlinux" -initrd "$system/boot/initrd.img-$release" \
    -append "console=ttyS0 quiet panic=-1 panic_on_warn=1 mitigations=off root=/dev/vda rw net.ifnames=0 init=/trixie_init.sh no_timer_check nowatchdog rcupdate.rcu_cpu_stall_suppress=1" \
    -serial "file:$work/console" -m 2048 -smp "${PROCESSORS:-4}" -accel tcg,thread=multi -cpu Nehalem,+rdrand \
    -drive "file=$work/disk,format=raw,if=virtio,cache=unsafe" -drive "file=$work/records,format=raw,if=virtio" < /dev/null > "$work/qemu.log" 2>&1 || true
if ! grep -q '^ended' "$work/console" || grep -E '^FAILED|WARNING:|BUG:|Oops' "$work/console"; then
    cat "$work/qemu.log" "$work/console" >&2
    echo "$me: Debian 13 with Linux $release did not end well" >&2
    exit 1
fi
mkdir -p "$work/steps"
tar -C "$work/steps" -xf "$work/records"
echo "bindings/bpf: Debian $(cat "$system/etc/debian_version"), Linux $release, $(basename "$packages"/juniperbowls-qdisc_*_amd64.deb)"
grep -E '^TOLD' "$work/console" | tr -d '\r' | sed 's/^TOLD/ /'
# field NAME FILE: prints the number of a field of a queue's statistics
field() {
    sed -n "s/.*\"$1\":\([0-9]*\).*/\1/p" "$2"
}
# equal WHAT A B
equal() {
    [ "$2" = "$3" ] || { echo "$me: $1: $2, and not $3" >&2; exit 1; }
}
plain=$work/steps/plain
drops=$(field drops "$plain.show")
equal 'the finding of pie-qdisc record | pie audit' "$(cat "$plain.finding")" "clean,$(field events "$plain.show")"
cause='^event .*: DROPPED( early|, no room in (bytes|packets))'
equal 'the lost packets of pie explain' "$(grep -c '^event ' "$plain.lost")" "$drops"
equal 'the lost packets with a cause' "$(grep -c -E "$cause" "$plain.lost")" "$drops"
[ "$drops" -gt 0 ] || { echo "$me: no packet was dropped" >&2; exit 1; }
echo "  pie-qdisc record | pie audit: $(cat "$plain.finding")"
echo "  pie explain --lost: $drops packets, each with its cause: $(grep -o -E "$cause" "$plain.lost" | sed 's/.*DROPPED,* //' | sort | uniq -c | xargs)"
largest=$(awk -F, '$1 == "arrive" && $5 > largest { largest = $5 } END { print largest }' "$work/steps/segments.history")
echo "  one segment for a packet: packets of at most $largest bytes"
dpkg-deb --extract "$packages"/juniperbowls_*_amd64.deb "$work/installed"
bindings/bpf/sums.py "$work/installed/usr/bin/pie" "$work/steps"
[ "$largest" -le 1514 ] || { echo "$me: a packet of several segments" >&2; exit 1; }
