#!/usr/bin/env bash
# for: pie-watch, built and booted with Debian's kernel (bindings/linux)
. "$(dirname "$0")/../../tests/shared/packages.sh"
packages gcc make binutils clang bpftool libbpf-dev libmicrohttpd-dev libncurses-dev prometheus tmux dwarves linux-headers-amd64 linux-image-amd64 linux-source-6.1 qemu-system-x86 busybox-static iproute2 iperf3 cpio mmdebstrap e2fsprogs
