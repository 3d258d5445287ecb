#!/usr/bin/env bash
# Boots kernels with sanitizers and loads the module:
#   kasan   KASAN, UBSAN, kmemleak, lockdep (PROVE_LOCKING) and failing allocations
#   kcsan   KCSAN
#   plain   Debian's own kernel with checks of freed and neighbouring memory (slub_debug, page_poison)
# By default kasan and kcsan are booted. Their kernels are built from Debian's linux-source-6.1 in BUILD, with the
# options that the scenario needs (sanitized/config). Four processors run sanitized/init: each allocation of each
# request fails once, netlink requests are random, and senders send while options change and queues are replaced. A
# kernel takes SECONDS_OF_TRAFFIC (120), and the time to build it.
# Debian's packages for a kernel: linux-source-6.1 flex bison bc libelf-dev.
# needs: a request
#
# An hour at 10 Mbit/s, with a round of changes every 10 s:
#     SECONDS_OF_TRAFFIC=3600 RATE=10mbit FLOOD=6M PAUSE=8 bindings/kernel/sanitized.sh plain
#
# usage: [BUILD=folder] [SECONDS_OF_TRAFFIC=120] [RATE=50mbit] [FLOOD=30M] [PAUSE=0] [REQUESTS=5000] [SEED=1] [JOBS=4]
#        bindings/kernel/sanitized.sh [kasan | kcsan | plain]
set -eu
cd "$(dirname "$0")/../.."
me=bindings/kernel/sanitized.sh
here=$PWD/bindings/kernel/sanitized
build=${BUILD:-$PWD/build/kernel}
source=/usr/src/linux-source-6.1
mkdir -p "$build"

# built KIND: builds a kernel, and makes the folder that guest.sh takes it from
built() {
    local kind=$1 release
    for program in flex bison bc make cc; do
        command -v $program > /dev/null || { echo "NOT RUN: $me: no $program here"; exit 0; }
    done
    [ -e $source.tar.xz ] || { echo "NOT RUN: $me: no $source.tar.xz here (the package linux-source-6.1)"; exit 0; }
    [ -e "$build/linux-source-6.1/Makefile" ] || tar -C "$build" -xf $source.tar.xz
    mkdir -p "$build/$kind"
    awk -v kind="$kind" '/^## / { is_wanted = $2 == "every" || $2 == kind; next } is_wanted' "$here/config" > "$build/$kind/wanted"
    if ! cmp -s "$build/$kind/wanted" "$build/$kind/configured"; then
        make -s -C "$build/linux-source-6.1" O="$build/$kind" KCONFIG_ALLCONFIG="$build/$kind/wanted" allnoconfig > "$build/$kind/log"
        cp "$build/$kind/wanted" "$build/$kind/configured"
    fi
    # KCSAN watches few of all accesses at a time: without the kernel's own it watches the module's
    KCSAN_SANITIZE=n nice -n "${NICE:-19}" make -s -C "$build/linux-source-6.1" O="$build/$kind" -j"${JOBS:-4}" bzImage modules > "$build/$kind/log" 2>&1
    release=$(cat "$build/$kind/include/config/kernel.release")
    rm -rf "$build/$kind-root"
    mkdir -p "$build/$kind-root/boot" "$build/$kind-root/lib/modules/$release" "$build/$kind-root/src"
    ln -s "$build/$kind/arch/x86/boot/bzImage" "$build/$kind-root/boot/vmlinuz-$release"
    ln -s "$build/$kind" "$build/$kind-root/src/linux-headers-$release"
}

# booted KIND ROOT HEADERS: boots, and writes what was printed to BUILD/KIND.console
booted() {
    local kind=$1
    HEADERS=$3
    set -- "$2"
    # shellcheck source=guest.sh
    . bindings/kernel/guest.sh
    # (also where the kernel itself has no UBSAN)
    [ $kind != kasan ] || export UBSAN_SANITIZE=y
    build_module . "$work/root/mods/sch_pie_recorded.ko"
    for symbol in $(case $kind in kasan) echo __asan_ __ubsan_ ;; kcsan) echo __tsan_ ;; esac); do
        nm "$work/root/mods/sch_pie_recorded.ko" | grep -q $symbol || { echo "$me: the module has no $symbol" >&2; exit 1; }
    done
    cc -O2 -Wall -Wextra -Iinclude -static -o "$work/root/bin/requests" "$here/requests.c"
    fill_root "$here/init" veth dummy sch_htb
    # reports of lockdep, and stacks, have the level 4; a slow machine stalls the guest, which is no error of it
    local parameters="panic=-1 nowatchdog rcupdate.rcu_cpu_stall_suppress=1"
    [ $kind = kcsan ] || parameters="$parameters panic_on_warn=1"
    [ $kind != plain ] || parameters="$parameters slub_debug=FZPU page_poison=1"
    # the other processors of an emulated machine need longer to meet a watchpoint
    [ $kind != kcsan ] || parameters="$parameters kcsan.udelay_task=1000 kcsan.udelay_interrupt=1000 kcsan.skip_watch=300"
    timeout "${LIMIT:-7200}" nice -n "${NICE:-19}" qemu-system-x86_64 -nodefaults -display none -monitor none -no-reboot -kernel "$kernel" \
        -initrd "$work/initrd" -m 3072 -smp 4 -accel tcg,thread=multi -cpu Nehalem,+rdrand -serial "file:$work/console" \
        -append "console=ttyS0 loglevel=5 $parameters mitigations=off random.trust_cpu=on rdinit=/init \
seconds=${SECONDS_OF_TRAFFIC:-120} rate=${RATE:-50mbit} flood=${FLOOD:-30M} pause=${PAUSE:-0} requests=${REQUESTS:-5000} seed=${SEED:-1}" < /dev/null || true
    tr -d '\r' < "$work/console" > "$build/$kind.console"
    echo "$release" > "$build/$kind.release"
}

for kind in ${1:-kasan kcsan}; do
    if [ "$kind" = plain ]; then
        (booted plain / /usr/src)
    else
        built "$kind"
        (booted "$kind" "$build/$kind-root" "$build/$kind-root/src")
    fi
    console=$build/$kind.console
    echo "$me: $kind, Linux $(cat "$build/$kind.release")"
    sed -n 's/^TOLD/ /p' "$console"
    if [ "$kind" = kcsan ]; then
        if ! grep -q 'setup_watchpoints: [1-9]' "$console"; then
            echo "$me: KCSAN was not at work" >&2
            exit 1
        fi
        # those with a function of the module count
        echo "  KCSAN: $(grep -c 'BUG: KCSAN' "$console" || true) reports elsewhere"
        if grep -A 40 'BUG: KCSAN' "$console" | grep -E '(data-race in|/) (pr|pie)_[a-z_]+|\b(pr|pie)_[a-z_]+\+0x'; then
            echo "$me: a data race of the module" >&2
            exit 1
        fi
    fi
    bad='^FAILED|WARNING:|BUG:|BUG [a-z]|Oops|KASAN|UBSAN|possible (circular|recursive)|unreferenced object'
    if ! grep -q '^ended' "$console" || grep -v KCSAN "$console" | grep -E "$bad"; then
        cat "$console" >&2
        echo "$me: the kernel did not end well: $kind" >&2
        exit 1
    fi
done
