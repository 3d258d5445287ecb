#!/usr/bin/env bash
# Tries the packages as a new user does. It installs Debian 12 with a kernel, its headers and the packages juniperbowls
# and juniperbowls-dkms in a folder by apt, which builds the module by DKMS, and debian/tests/kernel runs there. qemu boots that folder with a link of
# 0.5 Mbit/s as eth0, and the commands of README's "First use" run there: tc qdisc replace, pie-tap follow, pie explain.
# Datagrams are sent faster than the link, and each drop that tc counts must be explained. It needs root, debootstrap,
# dpkg-buildpackage with debhelper, qemu and the archive of apt's own sources, and takes some minutes.
# needs: a request
#
# usage: [DEBS=folder with packages] [KEEP=folder for all files] bindings/kernel/trial.sh
set -eu
cd "$(dirname "$0")/../.."
. tests/shared/apt_uri.sh
me=bindings/kernel/trial.sh
for program in debootstrap dpkg-buildpackage dh_dkms qemu-system-x86_64 busybox cpio python3; do
    command -v $program > /dev/null || { echo "NOT RUN: $me: no $program here"; exit 0; }
done
[ "$(id -u)" = 0 ] || { echo "NOT RUN: $me: debootstrap needs root"; exit 0; }
work=${KEEP:-$(mktemp -d)}
debian=$work/debian
leave() {
    umount "$debian/proc" 2> /dev/null || true
    [ -n "${KEEP-}" ] || rm -rf "$work"
}
trap leave EXIT
mkdir -p "$work"
if [ -z "${DEBS-}" ]; then
    DEBS=$work/debs
    mkdir -p "$DEBS/source"
    git ls-files -z | tar --create --null --files-from=- | tar --extract -C "$DEBS/source"
    (cd "$DEBS/source" && DEB_BUILD_OPTIONS='nocheck noautodbgsym' dpkg-buildpackage -us -uc -b) > "$work/packages.log" 2>&1
fi
# inside TEXT..: runs a command in the folder
inside() {
    chroot "$debian" /usr/bin/env -i DEBIAN_FRONTEND=noninteractive PATH=/usr/sbin:/usr/bin:/sbin:/bin "$@"
}
[ -e "$debian/etc/debian_version" ] || debootstrap --variant=minbase --include=iproute2,kmod,procps bookworm "$debian" "$(apt_uri)" > "$work/debootstrap.log" 2>&1
echo "deb $(apt_uri security) bookworm-security main" >> "$debian/etc/apt/sources.list"
mount -t proc proc "$debian/proc"
ln -sfn /proc/self/fd "$debian/dev/fd"
# no boot loader reads this kernel's own initrd
inside dpkg-divert --local --rename --add /usr/sbin/update-initramfs > /dev/null
ln -sf /bin/true "$debian/usr/sbin/update-initramfs"
{
    inside apt-get update
    inside apt-get install --yes --no-install-recommends linux-image-amd64 linux-headers-amd64
} > "$work/kernel.log" 2>&1
cp "$DEBS"/juniperbowls_*.deb "$DEBS"/juniperbowls-dkms_*.deb "$debian/root/"
inside sh -c 'cd /root && apt-get install --reinstall --yes --no-install-recommends ./juniperbowls_*.deb ./juniperbowls-dkms*.deb' \
    > "$work/install.log" 2>&1 ||
    { cat "$work/install.log" >&2; exit 1; }
inside dkms status
# the package's own test of the module, in the same Debian
cp debian/tests/kernel "$debian/root/kernel.test"
inside sh /root/kernel.test
umount "$debian/proc"
release=$(cd "$debian/lib/modules" && echo *)

# the first file system has what mounts the folder
mkdir -p "$work/first"/{bin,dev,new,mods}
cp "$(command -v busybox)" "$work/first/bin/"
modules="virtio_ring virtio virtio_pci_legacy_dev virtio_pci_modern_dev virtio_pci netfs fscache 9pnet 9pnet_virtio 9p"
modules="$modules failover net_failover virtio_net"
for name in $modules; do
    find "$debian/lib/modules/$release/kernel" -name "$name.ko*" -exec cp {} "$work/first/mods/" \;
done
cat > "$work/first/init" << END_INIT
#!/bin/busybox sh
for name in $modules; do
    [ ! -e /mods/\$name.ko ] || /bin/busybox insmod /mods/\$name.ko
done
/bin/busybox mount -t 9p -o trans=virtio,version=9p2000.L,ro root /new && exec /bin/busybox switch_root /new /bin/bash /root/trial
END_INIT
chmod +x "$work/first/init"
(cd "$work/first" && find . | cpio -o -H newc --quiet | gzip -1) > "$work/first.initrd"

cat > "$debian/root/trial" << 'END_TRIAL'
mount -t devtmpfs dev /dev
mount -t proc proc /proc
mount -t sysfs sys /sys
mount -t tmpfs run /run
mount -t tmpfs tmp /tmp
exec > /dev/ttyS0 2>&1
cd /tmp
ip link set "$(ls /sys/class/net | grep -v lo)" name eth0
ip address add 10.0.0.1/24 dev eth0
ip link set eth0 up
ip neighbour add 10.0.0.2 lladdr 02:00:00:00:00:02 dev eth0
tc qdisc replace dev eth0 root pie_recorded target 15ms ecn || echo "FAILED tc"
tc qdisc show dev eth0
pie-tap follow --flows flows eth0 > history &
tap=$!
pie-tap follow eth0 | pie explain --lost > lost &
for sender in 1 2 3 4 5 6 7 8; do
    dd if=/dev/zero bs=1400 count=300 status=none > /dev/udp/10.0.0.2/900$sender &
    senders="$senders $!"
done
wait $senders
sleep 1
tc -s qdisc show dev eth0
pie-tap list
kill $tap $(pgrep -f 'pie-tap follow eth0')
wait
echo "audit: $(pie audit < history)"
echo "dropped: $(tc -s qdisc show dev eth0 | sed -n 's/.*(dropped \([0-9]*\).*/\1/p'), explained: $(grep -c DROPPED lost)"
head -n 12 lost
cat flows
dmesg | grep -E 'WARNING|BUG|Oops'
echo ended
echo o > /proc/sysrq-trigger
sleep 10
END_TRIAL

# the link: reads what eth0 sends at 0.5 Mbit/s
cat > "$work/link.py" << 'END_LINK'
import socket
import sys
import time

listener = socket.socket(socket.AF_UNIX)
listener.bind(sys.argv[1])
listener.listen(1)
link = listener.accept()[0]
due = time.monotonic()
while got := link.recv(2500):
    due = max(due, time.monotonic() - 0.1) + len(got) / 62_500
    time.sleep(max(0, due - time.monotonic()))
END_LINK
rm -f "$work/link"
python3 "$work/link.py" "$work/link" &
until [ -S "$work/link" ]; do sleep 0.1; done
timeout 900 qemu-system-x86_64 -nodefaults -display none -no-reboot -m 1024 -cpu Nehalem,+rdrand -kernel "$debian/boot/vmlinuz-$release" \
    -initrd "$work/first.initrd" -append "console=ttyS0 quiet panic=-1 panic_on_warn=1 rdinit=/init" -serial "file:$work/console" \
    -fsdev "local,id=root,path=$debian,security_model=none,readonly=on" -device virtio-9p-pci,fsdev=root,mount_tag=root \
    -netdev "stream,id=link,server=off,addr.type=unix,addr.path=$work/link" -device virtio-net-pci,netdev=link < /dev/null
wait
tr -d '\r' < "$work/console"
# each drop that tc counts is explained
if ! grep -q '^ended' "$work/console" || ! grep -q '^audit: clean,' "$work/console" || grep -q '^FAILED' "$work/console" ||
    ! tr -d '\r' < "$work/console" | grep -q -x -E 'dropped: ([1-9][0-9]*), explained: \1'; then
    echo "$me: the trial failed" >&2
    exit 1
fi
