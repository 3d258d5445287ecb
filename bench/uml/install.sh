#!/usr/bin/env bash
# for: user-mode Linux (bench/uml), in which TCP goes through the link without root, and through the kernel's own queues
. "$(dirname "$0")/../../tests/shared/packages.sh"
PATH=$PATH:/usr/sbin:/sbin
programs linux.uml modprobe ip tc iperf3 ping sysctl timeout taskset python3
required 'sch_pie below /usr/lib/uml/modules' sh -c 'find /usr/lib/uml/modules -name sch_pie.ko | grep -q .'
# Linux 6.1 in a process can't save the registers of AMX; build.sh changes that
[ -n "${UML_LINUX:-}" ] || required "a processor without AMX, UML_LINUX, or what bench/uml/build.sh needs" \
    sh -c '! grep -qw amx_tile /proc/cpuinfo || "$0"/build.sh --check' "$(dirname "$0")"
packages user-mode-linux kmod iproute2 iperf3 iputils-ping procps util-linux python3 flent
