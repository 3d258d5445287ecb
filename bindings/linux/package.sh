#!/usr/bin/env bash
# Boots an unmodified Debian 12 under qemu with two processors, installs the packages juniperbowls and juniperbowls-watch there by `apt install`, and records
# the traffic of eth0 through the kernel's own pie and fq_pie (package_init.sh). The installed pie must find each step clean and name the cause of each drop.
# sums.py compares the steps with the counters of tc. mmdebstrap makes the system; it has the libraries that pie-watch needs (iproute2 needs one of
# them), and perl and python3, which the package juniperbowls needs.
#
# --kernel 6.12
#           boots the kernel of Debian 12's backports, as boot.sh does
# PACKAGES  the folder with juniperbowls_*.deb and juniperbowls-watch_*.deb. By default dpkg-buildpackage makes them from the files of this repository
# PACKETS   the packets of the kernel's packet generator for pie, and a quarter of it for fq_pie
# ENQUEUES  the least number of recorded enqueues, and a quarter of it of fq_pie
# needs: a request
#
# usage: [PACKAGES=folder] [BYTES=4M] [PACKETS=200000] [ENQUEUES=200000] [HEADERS=folder] [KEEP=folder for all files] bindings/linux/package.sh [--kernel 6.12] [ROOT]
set -eu
cd "$(dirname "$0")/../.."
me=bindings/linux/package.sh
# shellcheck source=kernel.sh
. bindings/linux/kernel.sh
for program in mmdebstrap mke2fs dpkg-buildpackage dh; do
    PATH=$PATH:/usr/sbin command -v $program > /dev/null || { echo "NOT RUN: $me: no $program here (bindings/linux/install.sh, tests/install.sh bindings/c)"; exit 0; }
done
# shellcheck source=../kernel/guest.sh
. bindings/kernel/guest.sh
packages=${PACKAGES-}
if [ -z "$packages" ]; then
    mkdir -p "$work/package/source"
    git ls-files -z | tar --create --null --files-from=- | tar --extract -C "$work/package/source"
    (cd "$work/package/source" && DEB_BUILD_OPTIONS='nocheck noautodbgsym' dpkg-buildpackage -us -uc -b > "$work/package/log" 2>&1) ||
        { cat "$work/package/log" >&2; exit 1; }
    packages=$work/package
fi
# shellcheck source=../../tests/shared/apt_uri.sh
. tests/shared/apt_uri.sh
archive=$(apt_uri) security=$(apt_uri security)
mmdebstrap --quiet --mode=root --variant=minbase --include="linux-image-$release,iproute2,iperf3,kmod,perl,python3,libmicrohttpd12,libncursesw6" \
    bookworm "$work/system" "deb $archive bookworm main" "deb $archive bookworm-updates main" "deb $security bookworm-security main" \
    "deb $archive bookworm-backports main" > "$work/system.log" 2>&1 || { cat "$work/system.log" >&2; exit 1; }
cp "$packages"/juniperbowls_*_amd64.deb "$packages"/juniperbowls-watch_*_amd64.deb "$work/system/root/"
cp bindings/linux/guest_watch.sh "$work/system/watch.sh"
install -m 755 bindings/linux/package_init.sh "$work/system/package_init.sh"
cp -L "$work/system/boot/initrd.img-$release" "$work/initrd"
PATH=$PATH:/usr/sbin mke2fs -q -t ext4 -d "$work/system" "$work/disk" 3G > /dev/null
rm -rf "$work/system"
truncate -s 1G "$work/records"
# shellcheck disable=SC2086
boot "root=/dev/vda rw net.ifnames=0 init=/package_init.sh bytes=${BYTES:-4M} packets=${PACKETS:-200000} no_timer_check nowatchdog rcupdate.rcu_cpu_stall_suppress=1" \
    -m 1536 -smp 2 -accel tcg,thread=single $machine -drive "file=$work/disk,format=raw,if=virtio,cache=unsafe" -drive "file=$work/records,format=raw,if=virtio" \
    -netdev hubport,id=n0,hubid=0 -device virtio-net-pci,romfile=,netdev=n0 -netdev hubport,id=n1,hubid=0 -device virtio-net-pci,romfile=,netdev=n1
mkdir "$work/steps"
tar -C "$work/steps" -xf "$work/records"
grep -E '^TOLD' "$work/console" | tr -d '\r' | sed 's/^TOLD/ /'
echo "bindings/linux: Linux $release, $(basename "$packages"/juniperbowls-watch_*_amd64.deb)"
for text in "$work"/steps/*.csv; do
    # each refused enqueue has a cause
    refused=$(awk -F, '$3 == "enq" && $17 != "0"' "$text" | wc -l)
    explained=$(grep -c -E 'DROPPED (early|over)' "${text%.csv}.lost") || true
    [ "$refused" = "$explained" ] || { echo "$me: $text: $refused enqueues were refused, and $explained have a cause" >&2; exit 1; }
    echo "  $(basename "$text"): $refused dropped packets, each with its cause"
done
bindings/linux/sums.py "$work/steps" "${ENQUEUES:-200000}"
