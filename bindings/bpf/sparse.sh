#!/usr/bin/env bash
# Measures the waits of a sparse flow among 64 flows at 10 Mbit/s behind the queue with flows (fq), fq_pie and fq_codel, in the kernel of boot.sh: 8 CUBIC
# flows that always have data, with a round trip of 20 ms, 55 flows of UDP with a packet of 200 bytes each 200 ms, and a flow with a packet of 64 bytes each
# 20 ms. The blocks have different random moments, and each queue receives the same ones. sparse.py has the plans and writes the rows. Then pie audits each
# flow's record of one more run. It takes about 2 minutes of a processor for a block.
#
# ROOT      as for boot.sh
# PIE       the program that audits, crates/pie/out/pie by default
# needs: a request
#
# usage: [PIE=program] [BLOCKS=8] [KEEP=folder for all files] bindings/bpf/sparse.sh ROWS.csv.xz [ROOT]
set -eu
rows=$(realpath -m "$1")
cd "$(dirname "$0")/../.."
me=bindings/bpf/sparse.sh
root=${2:-/var/cache/juniperbowls/debian-bpf}
pie=${PIE:-$PWD/crates/pie/out/pie}
# shellcheck source=bindings/bpf/guest.sh
. bindings/bpf/guest.sh
requires xz
[ -x "$pie" ] || { echo "NOT RUN: $me: no program $pie"; exit 0; }
work=${KEEP:-$(mktemp -d)}
[ -n "${KEEP-}" ] || trap 'rm -rf "$work"' EXIT
unpacks
make -s -C bindings/bpf OUT="$work/built" PIE_C="$PWD/dist/x86_64/pie_c.S"
gcc -O2 -Wall -Wextra -Werror -o "$work/traffic" bench/uml/traffic.c
bindings/bpf/sparse.py plans "$work/root/plans" "${BLOCKS:-8}"
modules sch_netem sch_htb sch_fq_codel sch_pie sch_fq_pie
programs "$work/traffic" "$work/built/pie-qdisc"
boots bindings/bpf/sparse_init.sh
bindings/bpf/sparse.py rows "$work/records" "${BLOCKS:-8}" | xz -9c > "$rows"
bindings/bpf/sparse.py check "$pie" "$work/records"
bindings/bpf/sparse.py table "$rows"
