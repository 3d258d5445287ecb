#!/bin/bash
# The first process of the Linux that run.sh boots: it mounts what a system has, loads the modules, runs the command, and ends that Linux.
# STATE, a word of its command line, is the folder of run.sh.
export PATH=/usr/sbin:/usr/bin:/sbin:/bin
mount -t proc proc /proc
mount -t sysfs sysfs /sys
mount -t tmpfs tmpfs /run
mkdir -p /run/lib /run/tmp /dev/shm /dev/pts
mount -t tmpfs tmpfs /dev/shm
mount -t devpts devpts /dev/pts
for name in fd:/proc/self/fd stdin:/proc/self/fd/0 stdout:/proc/self/fd/1 stderr:/proc/self/fd/2; do
    [ -e "/dev/${name%%:*}" ] || ln -s "${name#*:}" "/dev/${name%%:*}"
done
# its modules lie in a folder of their own; what the kernel asks for itself comes from there too (one made by build.sh has all built in)
if [ -d "/usr/lib/uml/modules/$(uname -r)" ]; then
    ln -s /usr/lib/uml/modules /run/lib/modules
    printf '#!/bin/sh\nexec modprobe -d /run "$@"\n' > /run/modprobe
    chmod +x /run/modprobe
    echo /run/modprobe > /proc/sys/kernel/modprobe
    for module in tun veth sch_htb sch_pie sch_fq_codel sch_cake sch_netem tcp_bbr; do
        modprobe -d /run "$module" || echo "bench/uml/boot.sh: no module $module" >&2
    done 2>> "$STATE/err"
fi
ip link set lo up
export TMPDIR=/run/tmp
bash "$STATE/command" > "$STATE/out" 2>> "$STATE/err" < /dev/null
echo $? > "$STATE/status"
halt -f 2> /dev/null || echo o > /proc/sysrq-trigger
