#!/bin/sh
# The first process of the Debian that check.sh boots: loads the modules without the patches, and then with them, and runs the tests of tdc.
export PATH=/usr/sbin:/usr/bin:/sbin:/bin HOME=/root
exec > /dev/ttyS0 2>&1
mount -t tmpfs tmp /tmp
ip link set lo up
modprobe -a dummy veth sch_tbf
cd /root/tc-testing || exit
for which in before after; do
    rmmod sch_fq_pie sch_pie 2> /dev/null
    insmod /root/$which/sch_pie.ko || echo "FAILED insmod"
    insmod /root/$which/sch_fq_pie.ko || echo "FAILED insmod"
    python3 tdc.py -e 6159 615a 615b 83c0 83c1 83c2 > /tmp/$which.tap 2> /tmp/$which.errors
    cat /tmp/$which.tap /tmp/$which.errors
done
cd /tmp || exit
tar -cf /dev/vdb ./*.tap
sync
echo ended
echo o > /proc/sysrq-trigger
sleep 60
