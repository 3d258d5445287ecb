#!/usr/bin/env bash
# Applies the patches of this folder to Debian's sources, and tries each fault before and after.
#   6.1, 7.3    Linux: the patches for net/sched. scripts/checkpatch.pl must report nothing but the missing sign-off. steps.c decides steps by the functions of
#               sch_pie.c. The modules sch_pie and sch_fq_pie without and with the patches are built for Debian's kernel and loaded in it under qemu, and the
#               tests that the patches add to tdc must fail without them and pass with them (check_init.sh). The system is Debian 12 for 6.1, and Debian 13 with
#               its backports for 7.3, which mmdebstrap makes.
#   ns3         ns-3: its test suite of PieQueueDisc with the tests of the patches must fail without them and pass with them, over Debian's libns3-dev
# The packages and sources are those of the archive in apt's own sources.
#
# TESTS     for 6.1, which has no tests of pie: linux/tools/testing/selftests/tc-testing of KEEP of a run for 7.3
# SYSTEM    the system's folder, which is made if it is missing
# needs: a request
#
# usage: [TESTS=folder] [SYSTEM=folder] [KEEP=folder for all files] upstream/check.sh 6.1|7.3|ns3
set -eu
cd "$(dirname "$0")/.."
me=upstream/check.sh
version=${1:?6.1, 7.3 or ns3}
work=${KEEP:-$(mktemp -d)}
[ -n "${KEEP-}" ] || trap 'rm -rf "$work"' EXIT
mkdir -p "$work"
# shellcheck source=../tests/shared/apt_uri.sh
. tests/shared/apt_uri.sh
archive=$(apt_uri) security=$(apt_uri security)
fails() {
    echo "$me: $*" >&2
    exit 1
}
# lacks PROGRAM..: ends if a program is missing
lacks() {
    for program in "$@"; do
        PATH=$PATH:/usr/sbin command -v "$program" > /dev/null || { echo "NOT RUN: $me: no $program here"; exit 0; }
    done
}

if [ "$version" = ns3 ]; then
    lacks g++ git bzip2
    [ -e /usr/include/ns3.37/ns3/pie-queue-disc.h ] || [ -e /usr/include/ns3/pie-queue-disc.h ] || { echo "NOT RUN: $me: no libns3-dev here (tests/install.sh bindings/ns3)"; exit 0; }
    if [ ! -e "$work/ns3" ]; then
        mkdir -p "$work/apt"/{lists,archives}/partial "$work/apt/sources" "$work/download"
        touch "$work/apt/status"
        printf 'Types: deb-src\nURIs: %s\nSuites: bookworm\nComponents: main\nSigned-By: /usr/share/keyrings/debian-archive-keyring.gpg\n' "$archive" > "$work/apt/sources/debian.sources"
        printf 'Dir::State "%s/apt";\nDir::State::status "%s/apt/status";\nDir::Cache "%s/apt";\nDir::Etc::sourcelist "/dev/null";\nDir::Etc::sourceparts "%s/apt/sources";\nAPT::Sandbox::User "root";\n' \
            "$work" "$work" "$work" "$work" > "$work/apt.conf"
        (cd "$work/download" && APT_CONFIG=$work/apt.conf apt-get -q update && APT_CONFIG=$work/apt.conf apt-get -q --download-only source ns3) > "$work/log" 2>&1 ||
            { cat "$work/log" >&2; exit 1; }
        mkdir "$work/ns3"
        tar -xjf "$work"/download/ns3_*.orig.tar.bz2 -C "$work/ns3" --strip-components=2 --wildcards '*/src/traffic-control/model/pie-queue-disc*' \
            '*/src/traffic-control/test/pie-queue-disc-test-suite.cc'
    fi
    cp -r "$work/ns3" "$work/after"
    cp -r "$work/ns3" "$work/before"
    for patch in upstream/ns3-*.patch; do
        git -C "$work/after" apply "$PWD/$patch"
        echo "  $(basename "$patch") applies"
    done
    cp "$work"/{after,before}/src/traffic-control/test/pie-queue-disc-test-suite.cc
    # suite FOLDER: builds the class with another name, since the library has it too, and runs its suite
    suite() {
        mkdir "$work/$1/built"
        for file in model/pie-queue-disc.h model/pie-queue-disc.cc test/pie-queue-disc-test-suite.cc; do
            sed -e 's/\bPieQueueDisc/OtherPieQueueDisc/g' -e 's,"ns3/pie-queue-disc.h","pie-queue-disc.h",' -e 's/"pie-queue-disc"/"other-pie-queue-disc"/' \
                "$work/$1/src/traffic-control/$file" > "$work/$1/built/$(basename "$file")"
        done
        printf '#include "ns3/test.h"\nint main(int count, char** words) { return ns3::TestRunner::Run(count, words); }\n' > "$work/$1/built/main.cc"
        (cd "$work/$1/built" && g++ -std=c++17 -O0 -I. -o suite ./*.cc -lns3-core -lns3-network -lns3-internet -lns3-traffic-control) || fails "$1 does not compile"
        "$work/$1/built/suite" --suite=other-pie-queue-disc --verbose > "$work/$1/result" 2>&1
    }
    ! suite before || fails "the suite passes without the patches"
    for word in 'Only the packet at the high threshold should be marked' 'The measurement should have ended'; do
        grep -q "$word" "$work/before/result" || fails "without the patches no test says: $word"
        echo "  without the patches: failed: $word"
    done
    suite after || { cat "$work/after/result" >&2; fails "the suite fails with the patches"; }
    echo "  with the patches: the suite passes"
    exit
fi

lacks mmdebstrap mke2fs qemu-system-x86_64 git perl gcc
case $version in
    6.1) [ -n "${TESTS-}" ] || fails "TESTS is missing"
        suite=bookworm backports='' kernel='linux-image-amd64,linux-headers-amd64' ;;
    7.3) suite=trixie backports="deb $archive trixie-backports main" kernel='linux-base/trixie-backports,linux-image-amd64/trixie-backports,linux-headers-amd64/trixie-backports' ;;
    *) fails "usage: upstream/check.sh 6.1|7.3|ns3" ;;
esac
system=${SYSTEM:-$work/system}
if [ ! -e "$system/boot" ]; then
    mmdebstrap --quiet --mode=root --variant=minbase \
        --include="$kernel,linux-source-$version,ethtool,gcc,initramfs-tools,iproute2,iputils-ping,kmod,make,procps,python3" "$suite" "$system" \
        "deb $archive $suite main" "deb $archive $suite-updates main" "deb $security $suite-security main" ${backports:+"$backports"} \
        > "$work/system.log" 2>&1 || { cat "$work/system.log" >&2; exit 1; }
fi
release=$(basename "$system"/boot/vmlinuz-*)
release=${release#vmlinuz-}
if [ ! -e "$work/linux" ]; then
    mkdir "$work/linux"
    tar -xf "$system/usr/src/linux-source-$version.tar.xz" -C "$work/linux" --strip-components=1 --wildcards "linux-source-$version/net/sched/*pie.c" \
        "linux-source-$version/net/sched/bpf_qdisc.c" "linux-source-$version/include/net/pie.h" "linux-source-$version/tools/testing/selftests/tc-testing/*" \
        "linux-source-$version/scripts/checkpatch.pl" "linux-source-$version/scripts/*.txt" "linux-source-$version/scripts/const_structs.checkpatch" 2> "$work/log" ||
        [ "$version" = 6.1 ] || { cat "$work/log" >&2; exit 1; }
    git -C "$work/linux" init -q
    git -C "$work/linux" add -A
    git -C "$work/linux" -c user.name=none -c user.email=none commit -q -m "linux-source-$version"
fi
git -C "$work/linux" reset -q --hard
rm -rf "$work/before" "$work/after" "$work/steps"
mkdir -p "$work"/{before,after,steps}
cp "$work/linux/net/sched/"*pie.c "$work/linux/include/net/pie.h" "$work/before/"
# 6.1 has neither BPF queue disciplines nor the tests of pie, and reads parameters without READ_ONCE, so the patch of what is dumped does not apply
left=
for patch in upstream/linux-*.patch; do
    case $version-$patch in 6.1-*bpf* | 6.1-*dump*) left="$left $(basename "$patch")" && continue ;; esac
    if [ "$version" = 6.1 ]; then
        git -C "$work/linux" apply -C1 --include='net/*' --include='include/*' "$PWD/$patch" || fails "$patch does not apply"
    else
        git -C "$work/linux" apply --index "$PWD/$patch" || fails "$patch does not apply"
        (cd "$work/linux" && perl scripts/checkpatch.pl --no-tree --no-signoff "$OLDPWD/$patch") > "$work/checkpatch" 2>&1 || { cat "$work/checkpatch" >&2; exit 1; }
    fi
done
cp "$work/linux/net/sched/"*pie.c "$work/linux/include/net/pie.h" "$work/after/"
echo "$me: linux-source-$version: the patches apply${left:+, without$left}"

# The steps that a test in the kernel cannot make
for which in before after; do
    mkdir -p "$work/steps/$which"
    grep -v '^#include' "$work/$which/pie.h" > "$work/steps/$which/pie.h"
    awk -v heads='bool pie_drop_early(|void pie_process_dequeue(|void pie_calculate_probability(' '
        BEGIN { count = split(heads, head, "|") }
        { for (i = 1; i <= count; i++) if (index($0, head[i]) == 1) open = 1 }
        open { print }
        /^};?$/ { open = 0 }' "$work/$which/sch_pie.c" > "$work/steps/$which/sch_pie.c"
    gcc -O1 -Wall -Werror -I "$work/steps/$which" -o "$work/steps/$which/steps" upstream/steps.c
    "$work/steps/$which/steps" > "$work/steps/$which/faults"
done
sed 's/^/  without patch /' "$work/steps/before/faults"
[ "$(cut -d: -f1 "$work/steps/before/faults" | sort | xargs)" = '3 4 5' ] || fails "a fault is not there without the patches"
[ ! -s "$work/steps/after/faults" ] || { cat "$work/steps/after/faults" >&2; fails "a fault is there with the patches"; }
echo "  with the patches none of these faults"

# made WORDS..: runs make in the system, whose objtool reads /proc
made() {
    unshare --mount sh -c 'mount -t proc proc "$1/proc" && exec chroot "$@"' made "$system" make -s -C "/usr/src/linux-headers-$release" "$@" > "$work/make.log" 2>&1 ||
        { cat "$work/make.log" >&2; exit 1; }
}

# The modules, in the system
for which in before after; do
    rm -rf "$system/root/$which"
    mkdir -p "$system/root/$which"
    cp "$work/$which/"* "$system/root/$which/"
    sed -i 's,#include <net/pie.h>,#include "pie.h",' "$system/root/$which/"*.c
    echo 'obj-m := sch_pie.o sch_fq_pie.o' > "$system/root/$which/Makefile"
    made M="/root/$which" modules
done
if [ "$version" != 6.1 ]; then
    mkdir -p "$system/root/bpf"
    cp "$work/linux/net/sched/bpf_qdisc.c" "$system/root/bpf/"
    echo 'obj-m := bpf_qdisc.o' > "$system/root/bpf/Makefile"
    made M=/root/bpf bpf_qdisc.o
    rm -rf "$system/root/bpf"
fi
rm -rf "$system/root/tc-testing"
tests=${TESTS:-$work/linux/tools/testing/selftests/tc-testing}
cp -r "$tests" "$system/root/tc-testing"
install -m 755 upstream/check_init.sh "$system/check_init.sh"
bindings/kernel/vmlinux.py "$system/boot/vmlinuz-$release" "$work/vmlinux"
rm -f "$work/disk" "$work/records"
# (the archive of the source is not for the guest)
[ ! -e "$system/usr/src/linux-source-$version.tar.xz" ] || mv "$system/usr/src/linux-source-$version.tar.xz" "$work/"
PATH=$PATH:/usr/sbin mke2fs -q -t ext4 -d "$system" "$work/disk" 4G > /dev/null
[ ! -e "$work/linux-source-$version.tar.xz" ] || mv "$work/linux-source-$version.tar.xz" "$system/usr/src/"
truncate -s 64M "$work/records"
timeout "${LIMIT:-3600}" qemu-system-x86_64 -nodefaults -display none -monitor none -no-reboot -kernel "$work/vmlinux" -initrd "$system/boot/initrd.img-$release" \
    -append "console=ttyS0 quiet panic=-1 panic_on_warn=1 mitigations=off root=/dev/vda rw net.ifnames=0 init=/check_init.sh no_timer_check nowatchdog rcupdate.rcu_cpu_stall_suppress=1" \
    -serial "file:$work/console" -m 1536 -smp 1 -cpu Nehalem,+rdrand -drive "file=$work/disk,format=raw,if=virtio,cache=unsafe" \
    -drive "file=$work/records,format=raw,if=virtio" < /dev/null > "$work/qemu.log" 2>&1 || true
if ! grep -q '^ended' "$work/console" || grep -E '^FAILED|WARNING:|BUG:|Oops' "$work/console"; then
    cat "$work/qemu.log" "$work/console" >&2
    fails "the kernel $release did not end well"
fi
tar -C "$work" -xf "$work/records"
# result WHICH ID: prints the result of a test of tdc
result() {
    sed -n "s/^\(not ok\|ok\) [0-9]* $2 - .*/\1/p" "$work/$1.tap"
}
name() {
    sed -n "s/^.*ok [0-9]* $1 - \(.*\)/\1/p" "$work/after.tap"
}
# 6.1 has the faults whose patches do not apply before and after
for id in 6159 615a 615b 83c0 83c1 83c2; do
    wanted=ok
    case $version-$id in 6.1-615b | 6.1-83c1) wanted='not ok' ;; esac
    echo "  Linux $release: tdc $id: without the patches $(result before $id), with them $(result after $id): $(name $id)"
    [ "$(result before $id), $(result after $id)" = "not ok, $wanted" ] || { cat "$work/before.tap" "$work/after.tap" >&2; fails "the test $id"; }
done
