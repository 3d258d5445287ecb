#!/usr/bin/env bash
# Boots the kernel of Debian 13's backports under qemu, in simulated time, with pie-qdisc. TCP and UDP pass through its queues (boot_init.sh). pie audits
# each record, and sums.py compares its sums with those of `tc -s -j` and of `pie-qdisc show --json`. The kernel must not warn. The instructions that the
# kernel's verifier processed for each program must be at most half more than verified.txt has. Then the same boot loads programs with one fault each
# (mutants.txt), and each must be found. It takes 1.8 minutes of a processor.
#
# ROOT      has kernel/vmlinuz and kernel/modules, as packages.sh unpacks them; /var/cache/juniperbowls/debian-bpf by default
# PIE       the program that audits, crates/pie/out/pie by default
# --processor aarch64     (on request) boots the kernel for aarch64 with the same BPF object file, and without the faults. ROOT is debian-bpf-aarch64
# needs: program, an early start
#
# usage: [PIE=program] [SEED=1] [KEEP=folder for all files] bindings/bpf/boot.sh [--processor aarch64] [ROOT]
set -eu
cd "$(dirname "$0")/../.."
me=bindings/bpf/boot.sh
processor=x86_64 cc=cc
if [ "${1-}" = --processor ]; then
    processor=${2:?} cc=aarch64-linux-gnu-gcc
    shift 2
    [ $# != 0 ] || set -- "/var/cache/juniperbowls/debian-bpf-$processor"
fi
root=${1:-/var/cache/juniperbowls/debian-bpf}
system=
[ "$processor" = x86_64 ] || system=$root/system
pie=${PIE:-$PWD/crates/pie/out/pie}
[ -x "$pie" ] || { echo "NOT RUN: $me: no program $pie"; exit 0; }
# shellcheck source=bindings/bpf/guest.sh
. bindings/bpf/guest.sh
requires iperf3 "$cc"
work=${KEEP:-$(mktemp -d)}
[ -n "${KEEP-}" ] || trap 'rm -rf "$work"' EXIT
unpacks

# The program, and one with each fault.
if [ "$processor" = x86_64 ]; then
    make -s -C bindings/bpf OUT="$work/built" CFLAGS='-O2 -Werror'
    mutants=$(bindings/bpf/mutant.py "$work/mutants")
else
    make -s CC=$cc BUILD="$work/built" "$work/built/libpie_c.a"
    make -s -C bindings/bpf OUT="$work/built" CFLAGS='-O2 -Werror' CC="$cc --sysroot=$system" PIE_C="$work/built/libpie_c.a"
    mutants=
fi
for name in $mutants; do
    cp bindings/bpf/*.[ch] bindings/bpf/Makefile "$work/mutants/$name/" -n
    make -s -C "$work/mutants/$name" OUT="$work/mutants/$name/out" MODULE="$work/mutants/$name/pie_c.ll" CPPFLAGS="-I$PWD/include" \
        TOP="$PWD" PIE_C="$PWD/dist/x86_64/pie_c.S"
    cp "$work/mutants/$name/out/pie-qdisc" "$work/root/bin/pie-qdisc-$name"
done
echo "$mutants" > "$work/root/mods/mutants"
modules sch_netem sch_htb
programs iperf3 bpftool "$work/built/pie-qdisc"
boots bindings/bpf/boot_init.sh
# shellcheck disable=SC2086
bindings/bpf/sums.py "$pie" "$work/records" $mutants
