#!/usr/bin/env bash
# Installs the Debian packages that programs, tests and measurements need. Root is needed, except with --missing and
# --check. A folder's requirements are in the function of its name below; the folders bench/steps, bench/uml and
# bindings/linux have an install.sh of their own.
#
#   tests/install.sh [FOLDER..]              installs the packages that are missing
#   tests/install.sh --missing [FOLDER..]    prints them, and installs nothing
#   tests/install.sh --check FOLDER          prints a line for each requirement that is missing; the exit status is 1 if
#                                            one is
#
# FOLDER: for example bindings/ns3; all by default. For each folder it prints its purpose.
set -eu
top=$(cd "$(dirname "$0")/.." && pwd)
mode=
case ${1-} in --missing | --check) mode=$1 && shift ;; esac

# for: measurements: the library compared with DPDK's rte_pie.h, instructions by valgrind, system calls by strace, crate csv for bench/peer, pictures
bench() {
    packages gcc libc6-dev python3 pkg-config libdpdk-dev valgrind strace librust-csv-dev gnuplot-nox
}

# for: pie-qdisc, built and booted with the kernel of Debian 13's backports (bindings/bpf)
bindings_bpf() {
    packages gcc make binutils clang-19 bpftool libbpf-dev qemu-system-x86 busybox-static iproute2 iperf3 cpio zstd
    if [ "$mode" != --missing ] && [ ! -e /var/cache/juniperbowls/debian-bpf ]; then
        "$top/bindings/bpf/packages.sh"
    fi
}

# for: the library for C in C and C++, what is built over it installed, its instructions counted, requests for memory refused, Debian's packages built, and all of it for other processors (bindings/c, tests/libraries)
bindings_c() {
    packages gcc g++ libc6-dev make cmake clang binutils xz-utils python3 pkg-config valgrind dpkg-dev debhelper dh-python dh-dkms lintian \
        gcc-aarch64-linux-gnu gcc-riscv64-linux-gnu gcc-arm-linux-gnueabihf gcc-mipsel-linux-gnu gcc-mips-linux-gnu \
        libc6-dev-arm64-cross libc6-dev-riscv64-cross libc6-dev-armhf-cross libc6-dev-mipsel-cross libc6-dev-mips-cross qemu-user clang-19
}

# for: the stage for DPDK's data planes, pie-fwd, and promtool, which checks the metrics of pie-fwd (bindings/dpdk)
bindings_dpdk() {
    programs cc make pkg-config python3
    required 'libdpdk 22.11' pkg-config --atleast-version=22.11 libdpdk
    packages gcc make pkg-config python3 dpdk-dev libdpdk-dev prometheus
}

# for: the kernel's module built for Debian's kernels (bindings/kernel)
bindings_kernel() {
    packages gcc make binutils linux-headers-amd64 linux-image-amd64 qemu-system-x86 busybox-static iproute2 iperf3 cpio \
        gcc-aarch64-linux-gnu gcc-riscv64-linux-gnu qemu-user qemu-system-arm
}

# for: the queue discipline of ns-3, and its simulations (bindings/ns3)
bindings_ns3() {
    programs c++ make awk
    required ns-3 test -e /usr/include/ns3/core-module.h
    packages g++ make python3 libns3-dev libgsl-dev libsqlite3-dev libxml2-dev gnuplot-nox
}

# for: the packages for OpenWrt built with musl (bindings/openwrt)
bindings_openwrt() {
    packages gcc make musl-tools xz-utils
}

# for: the library for C in Python, with numpy and pandas, its wheel, tests and chart (bindings/python)
bindings_python() {
    programs cc make python3
    for module in numpy pandas matplotlib pip setuptools wheel; do
        required "$module" python3 -c "import importlib.util, sys; sys.exit(importlib.util.find_spec('$module') is None)"
    done
    packages gcc make libc6-dev binutils python3 python3-numpy python3-pandas python3-pytest python3-matplotlib \
        python3-pip python3-setuptools python3-wheel mypy
}

# for: the library for C in Rust (bindings/rust), by cargo 1.82 or later, which Debian has from version 13 on, and before that rustup
bindings_rust() {
    if command -v cargo > /dev/null && [ "$(rustc --version | cut -d. -f2)" -ge 82 ]; then
        packages gcc libc6-dev
    else
        packages gcc libc6-dev cargo rustc
    fi
}

# Creates a network namespace with a TUN device, which is removed when the script ends.
makes_devices() {
    namespace=link-check-$$
    trap 'ip netns del "$namespace" 2> /dev/null' EXIT
    trap 'exit 130' INT TERM HUP
    ip netns add "$namespace" && ip netns exec "$namespace" ip tuntap add dev look mode tun
}

# for: real TCP through the link in user space and flent through it (tests/program/link.sh, flent.sh, examples/link), and pictures of it and of examples/
# The link also needs root and /dev/net/tun, which no package provides; --check reports them too.
examples_link() {
    required 'root (network namespaces and TUN devices are for root)' test "$(id -u)" = 0
    required '/dev/net/tun (modprobe tun, or a container that is given the device)' test -c /dev/net/tun
    programs ip iperf3 ping sysctl timeout cc make awk
    if [ "$lacking" = 0 ]; then
        required 'permission to create network namespaces and TUN devices' makes_devices
    fi
    packages iproute2 iperf3 iputils-ping procps gcc libc6-dev make gawk gnuplot-nox flent irtt
}

# for: a capture that is replayed through the controller, and comments in captures (tests/program/replay.py and comments.sh, examples/replay)
examples_replay() {
    programs cc make python3
    required libpcap test -e /usr/include/pcap/pcap.h
    packages gcc libc6-dev make libpcap-dev python3 tcpdump tshark
}

# for: a fleet of histories on Dask, and over SSH (fleet/, docs/OPERATING.md)
fleet() {
    packages python3-distributed parallel rsync openssh-client openssh-server
}

# for: the tests of reports in a browser, of metrics and a dashboard by promtool, and of captures by tshark (tests/report), and of objects of JSON by jq (tests/program); reports of pages; the page needs libjs-dygraphs
report() {
    packages chromium chromium-driver firefox-esr libjs-dygraphs nodejs python3-selenium prometheus tshark jq
}

# folder_of FUNCTION: installs or checks what this function lists
folder_of() (
    . "$top/tests/shared/packages.sh" "$mode"
    "$1"
)

folders=(bench bench/steps bench/uml bindings/bpf bindings/c bindings/dpdk bindings/kernel bindings/linux bindings/ns3 bindings/openwrt bindings/python
    bindings/rust examples/link examples/replay fleet report)
failed=()
for folder in "${@:-${folders[@]}}"; do
    folder=${folder%/} name=${folder//\//_}
    if [ -x "$top/$folder/install.sh" ] && [ "$folder" != tests ]; then
        purpose=$(sed -n 's/^# for: //p' "$top/$folder/install.sh")
        run=("$top/$folder/install.sh" ${mode:+"$mode"})
    elif declare -F "$name" > /dev/null; then
        purpose=$(sed -n "/^# for: /{s///;h}; /^$name() {/{g;p}" "$top/tests/install.sh")
        run=(folder_of "$name")
    else
        echo "tests/install.sh: no requirements of $folder are known" >&2
        exit 2
    fi
    [ "$mode" = --check ] || echo "$folder: $purpose"
    "${run[@]}" || failed+=("$folder")
done
if [ ${#failed[@]} != 0 ]; then
    [ "$mode" = --check ] || echo "tests/install.sh: failed: ${failed[*]}" >&2
    exit 1
fi
