#!/usr/bin/env bash
# Builds a Linux in a process out of Debian's linux-source-6.1 whose time is simulated: it passes only while all its processes wait, so that what it
# measures doesn't depend on the machine's load, no update comes late, and 20 seconds take as long as their packets need. A tick is a millisecond, so
# that the kernel's pie can update each 15 ms (Debian's Linux in a process has ticks of 10). A build takes four to five processor minutes.
#
# usage: bench/uml/build.sh FOLDER      builds FOLDER/linux; run.sh and beside.py take it if UML_LINUX in the environment names it
#        bench/uml/build.sh --kept      prints the path of the Linux in the user's cache. If it is not there, it is built first
#        bench/uml/build.sh --check     prints what is missing for --kept; status 1 if anything is
set -eu
if [ $# != 1 ] || [ "$1" = --help ]; then
    sed -n '2,8s/^# \{0,1\}//p' "$0"
    [ "${1:-}" = --help ]
    exit
fi
source=/usr/src/linux-source-6.1.tar.xz
lacking=$(
    for program in make gcc flex bison bc xz flock; do
        command -v $program > /dev/null || echo "missing: $program"
    done
    [ -e $source ] || echo "missing: $source"
)
folder=$1
if [ "$1" = --kept ] || [ "$1" = --check ]; then
    # (another script or another source has another folder)
    name=$({ cat "$0" && dpkg-query --show --showformat '${Version}' linux-source-6.1; } 2> /dev/null | sha256sum)
    folder=${XDG_CACHE_HOME:-${HOME:-}/.cache}/juniperbowls
    mkdir -p "$folder" 2> /dev/null && [ -w "$folder" ] || folder=${TMPDIR:-/tmp}/juniperbowls-$(id -u)
    folder=$folder/linux-${name:0:16}
    [ ! -x "$folder/linux" ] || lacking=
fi
if [ -n "$lacking" ]; then
    echo "$lacking"
    [ "$1" = --check ] || echo "bench/uml/build.sh: bench/steps/install.sh installs it" >&2
    exit 1
fi
[ "$1" != --check ] || exit 0
mkdir -p "$folder"
folder=$(realpath "$folder")
if [ "$1" = --kept ]; then
    # (of several at once, one builds and the others wait)
    exec 9> "$folder/lock"
    flock 9
    if [ -x "$folder/linux" ]; then
        echo "$folder/linux"
        exit
    fi
fi
work=$(mktemp -d)
trap 'rm -rf "$work"' EXIT
xz --decompress --stdout --threads=0 $source | tar --extract --directory "$work" --strip-components=1 \
    --exclude='*/Documentation/*/*' --exclude='*/drivers/gpu/*.[ch]' --exclude='*/sound/*.[ch]'
cd "$work"
sed -i '/^config HZ$/,/default/s/100/1000/' arch/um/Kconfig
# (the registers of a processor with AMX have 11,008 bytes, more than this version of Linux provides; a thread keeps them on its stack)
sed -i '/HOST_FP_SIZE, 2696/s/2696/16384/' arch/x86/um/user-offsets.c
sed -i '/^config KERNEL_STACK_ORDER$/,/default/s/default 2/default 4/' arch/um/Kconfig
# (what the runs need, and nothing else)
for word in EXPERT 64BIT MULTIUSER FHANDLE POSIX_TIMERS PRINTK BUG BASE_FULL FUTEX EPOLL SIGNALFD TIMERFD EVENTFD SHMEM ADVISE_SYSCALLS MEMBARRIER \
    FILE_LOCKING NO_HZ_IDLE HIGH_RES_TIMERS BINFMT_ELF BINFMT_SCRIPT TTY UNIX98_PTYS SSL NULL_CHAN PROC_FS SYSCTL PROC_SYSCTL SYSFS TMPFS HOSTFS \
    UML_TIME_TRAVEL_SUPPORT NAMESPACES NET NET_NS UNIX PACKET INET NETDEVICES NET_CORE TUN VETH NET_SCHED NET_SCH_HTB NET_SCH_PRIO NET_SCH_PIE \
    NET_SCH_FQ_CODEL NET_SCH_CAKE NET_SCH_CODEL NET_SCH_RED NET_SCH_FQ_PIE NET_SCH_NETEM NET_CLS NET_CLS_U32 TCP_CONG_ADVANCED TCP_CONG_CUBIC TCP_CONG_BBR DEFAULT_CUBIC; do
    echo "CONFIG_$word=y"
done > wanted
make -s ARCH=um KCONFIG_ALLCONFIG=wanted allnoconfig >&2
while read -r word; do
    grep -q "^$word$" .config || { echo "bench/uml/build.sh: this Linux has no $word" >&2; exit 1; }
done < wanted
make -s ARCH=um "-j$(nproc)" linux >&2 9>&-
strip -o "$folder/linux.$$" linux
mv "$folder/linux.$$" "$folder/linux"
[ "$1" != --kept ] || echo "$folder/linux"
