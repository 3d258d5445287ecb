# For the first processes of the kernels that scripts boot here (boot_init.sh, beside_pie.sh, measure.sh, sanitized/init). guest.sh copies this file to
# /net.sh, and each reads it by `.` there. Namespace a has senders, r the queue on the device rb, and b the receivers. A local sender's queue would stay
# short, since TCP limits it, so packets are routed.
box=/bin/busybox

# begins: mounts the file systems of the kernel, and prints to the console from now on
begins() {
    $box mkdir -p /etc
    $box mount -t proc proc /proc
    $box mount -t sysfs sys /sys
    $box mount -t devtmpfs dev /dev
    $box mount -t tmpfs run /run
    exec > /dev/console 2>&1
}

# loads MODULE..: loads modules. One that is built into the kernel is no file in /mods
loads() {
    for name in "$@"; do
        [ ! -e /mods/$name.ko ] || $box insmod /mods/$name.ko || echo "FAILED insmod $name"
    done
}

# finds_disk: makes the disk that guest.sh's boot may have /dev/vda
finds_disk() {
    loads virtio_ring virtio virtio_pci_legacy_dev virtio_pci_modern_dev virtio_pci virtio_blk
}

# connects QUEUES: connects the namespaces a, r and b, with QUEUES transmit queues of rb
connects() {
    for name in a r b; do
        /bin/ip netns add $name
        /bin/ip -n $name link set lo up
    done
    /bin/ip link add a0 netns a type veth peer name ra netns r
    /bin/ip link add b0 netns b type veth peer name rb numtxqueues $1 numrxqueues $1 netns r
    /bin/ip -n a addr add 10.0.1.1/24 dev a0
    /bin/ip -n r addr add 10.0.1.2/24 dev ra
    /bin/ip -n b addr add 10.0.2.1/24 dev b0
    /bin/ip -n r addr add 10.0.2.2/24 dev rb
    for at in a:a0 r:ra r:rb b:b0; do
        /bin/ip -n ${at%:*} link set ${at#*:} up
    done
    /bin/ip -n a route add default via 10.0.1.2
    /bin/ip -n b route add default via 10.0.2.2
    /bin/ip netns exec r $box sysctl -q -w net.ipv4.ip_forward=1
}
