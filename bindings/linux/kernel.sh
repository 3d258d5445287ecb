# For boot.sh, package.sh, situations.sh, summed.sh and measure.sh; each reads this file by `.` with its words in the folder at the top of the project.
#
# --kernel 6.12 boots the kernel of Debian 12's backports, and --kernel 7.3 the one of Debian 13's. If ROOT (build/debian-6.12 or build/debian-7.3 by default)
# does not exist, bindings/kernel/packages.sh or bindings/bpf/packages.sh makes it.
if [ "${1-}" = --kernel ]; then
    version=${2:?}
    shift 2
    [ $# != 0 ] || set -- "$PWD/build/debian-$version"
    HEADERS=${HEADERS:-$1/usr/src}
    if [ "$version" = 7.3 ] && ! [ -e "$1" ]; then
        unpacked=/var/cache/juniperbowls/debian-bpf
        [ -e "$unpacked/kernel/release" ] || bindings/bpf/packages.sh "$unpacked"
        version=$(cat "$unpacked/kernel/release")
        mkdir -p "$1/boot" "$1/lib/modules" "$1/usr/src/linux-headers-$version"
        ln -s "$unpacked/kernel/modules" "$1/lib/modules/$version"
        ln -s "$unpacked/kernel/vmlinuz" "$1/boot/vmlinuz-$version"
    fi
    [ -e "$1" ] || bindings/kernel/packages.sh "$version" "$1"
fi
