#!/usr/bin/env bash
# Builds the packages for Debian from the files of this repository, without the proved crates, by dpkg-buildpackage.
# lintian must report no error and no warning. The packages are unpacked in a folder. There the program audits a
# history, the example in C is built with the development files, the module for Python imports the shared library, and
# the kernel module is built from the files for DKMS. pie-watch runs. All packages have the version of include/pie.h.
#
# Then the packages for other architectures are built by a cross compiler: the same files, and the library alone for armhf. Packages that can be installed
# for two architectures at once (`Multi-Arch: same`) must have equal files outside of the folders of an architecture. The
# program and the example run under qemu.
#
# usage: tests/libraries/debian.sh [ARCHITECTURE..]      ARCHITECTURE: arm64, riscv64 or armhf; by default arm64 and armhf, as in the gate
# needs: nothing
set -eEuo pipefail
cd "$(dirname "$0")/../.."
repository=$PWD
work=$(mktemp -d)
trap 'rm -rf "$work"' EXIT

# fail WHY: ends the test, and prints how much memory and how much of the disk are free
fail() {
    echo "tests/libraries/debian.sh: $1; free: $(df --output=avail -h "$work" | tail -n 1 | tr -d ' ') of the disk, $(awk '/^MemAvailable/ { print $2, $3 }' /proc/meminfo) of memory" >&2
    exit 1
}
trap 'fail "line $LINENO failed: $BASH_COMMAND"' ERR

# logged COMMAND..: runs a command, and prints its output if it fails
logged() {
    local status=0
    "$@" > "$work/log" 2>&1 || status=$?
    [ "$status" = 0 ] && return
    cat "$work/log" >&2
    fail "$1 ended with status $status"
}

for program in dpkg-buildpackage dh dh_python3 dh_dkms lintian git clang clang-19 bpftool; do
    if ! PATH=$PATH:/usr/sbin command -v "$program" > /dev/null; then
        echo "NOT RUN: tests/libraries/debian.sh: no $program here, so no package was built"
        exit 0
    fi
done
version=$(sed -n 's/^#define PIE_VERSION "\(.*\)"$/\1/p' include/pie.h)
architectures=${*:-arm64 armhf}
mkdir "$work/source" "$work/root"
git ls-files -z | tar --create --null --files-from=- | tar --extract -C "$work/source"
cd "$work/source"
export DEB_BUILD_OPTIONS='nocheck noautodbgsym'
logged dpkg-buildpackage -us -uc -b
cd "$work"
logged lintian --fail-on error,warning ./*.changes
for package in juniperbowls juniperbowls-dkms juniperbowls-watch juniperbowls-qdisc libpie0 libpie-dev python3-juniperbowls; do
    set -- "$package"_"$version"_*.deb
    [ -e "$1" ] || fail "no package $package of version $version"
    dpkg-deb --extract "$1" root
done

library=$work/root/usr/lib/x86_64-linux-gnu
export LD_LIBRARY_PATH=$library
root/usr/bin/pie audit < "$repository/bindings/c/example.history" | grep '^clean,' > found || fail "the program does not audit the example"
root/usr/bin/pie-tap --help > tap
[ "$(root/usr/bin/pie-watch --version)" = "pie-watch $version" ] || fail "pie-watch has another version than $version"
[ "$(root/usr/sbin/pie-qdisc --version)" = "pie-qdisc $version" ] || fail "pie-qdisc has another version than $version"
for completed in pie-qdisc pie-watch; do
    cmp root/usr/share/bash-completion/completions/$completed "$repository/completions/$completed.bash"
done
! root/usr/sbin/pie-qdisc attach no_such_device 2> refused || fail "pie-qdisc attaches to a device that does not exist"
! root/usr/bin/pie-watch no_such_device 2> refused || fail "pie-watch records a device that does not exist"
root/usr/bin/pie audit "$repository/tests/rows/linux_steps.csv" > found 2> lost || fail "the program does not audit recorded steps of Linux: $(cat found lost)"
for depends in libbpf1 libmicrohttpd12 libncursesw6 juniperbowls; do
    dpkg-deb --field juniperbowls-watch_*.deb Depends | grep -q -w "$depends" || fail "juniperbowls-watch does not depend on $depends"
done
cc -o example "$repository/bindings/c/example.c" -Iroot/usr/include "$library/libpie.so"
./example | cmp - "$repository/bindings/c/example.history" || fail "the example in C has another history"
if /usr/bin/python3 -c 'import numpy' 2> /dev/null; then
    PYTHONPATH=root/usr/lib/python3/dist-packages /usr/bin/python3 -c 'import juniperbowls; juniperbowls.Opening.for_rate("10mbit")' || fail "the module for Python"
fi
module=root/usr/src/juniperbowls-$version
[ -e "$module/dkms.conf" ] || fail "the kernel module has another version than $version"
for headers in /usr/src/linux-headers-6.1.*-amd64; do
    [ -e "$headers/Module.symvers" ] || { echo "NOT RUN: tests/libraries/debian.sh: no headers of Linux 6.1 here, so the kernel module was not built"; break; }
    logged make -C "$headers" M="$work/$module" modules
    break
done
# libpie0.symbols lists the functions of dist/abi.txt
sed -n 's/^function \(.*\): .*/\1/p' "$repository/dist/abi.txt" | sort > wanted
sed -n -E 's/^ (\(arch=!armhf\))?(pie_.*)@PIE_0 .*/\2/p' "$repository/debian/libpie0.symbols" | sort | diff wanted - || fail "debian/libpie0.symbols lists other functions than dist/abi.txt"

# shared PACKAGE ARCHITECTURE: lists the files of a package outside of the folders of an architecture, with their checksums
shared() {
    local folder
    folder=$(mktemp --directory --tmpdir="$work")
    dpkg-deb --extract "$1_${version}_$2.deb" "$folder"
    (cd "$folder" && find . -type f ! -path './usr/lib/*' -exec sha256sum {} + | sort -k 2)
}

# cross ARCHITECTURE PREFIX EMULATOR: builds the packages for another architecture, and checks them
cross() {
    local names=(libpie-dev libpie0) package library=root/usr/lib/$2
    [ "$1" = armhf ] || names=(juniperbowls juniperbowls-dkms "${names[@]}")
    mkdir "$work/$1"
    cp -r "$work/source" "$work/$1/source"
    cd "$work/$1/source"
    logged dpkg-buildpackage -a "$1" -Pcross,nocheck -us -uc -B
    cd "$work/$1"
    logged lintian --fail-on error,warning ./*.changes
    [ "$(for it in *.deb; do echo "${it%%_*}"; done | sort)" = "$(printf '%s\n' "${names[@]}")" ] || fail "the packages for $1 are not ${names[*]}"
    for package in "${names[@]}"; do
        dpkg-deb --extract "${package}_${version}_$1.deb" root
        ! dpkg-deb --field "${package}_${version}_$1.deb" Depends | grep -q ":$1" || fail "$package for $1 depends on a package of this architecture only"
    done
    for package in libpie0 libpie-dev; do
        [ "$(dpkg-deb --field "${package}_${version}_$1.deb" Multi-Arch)" = same ] || fail "$package for $1 is not Multi-Arch: same"
        # (links need 64-bit words)
        diff <(shared "$package" "$1") <(cd "$work" && shared "$package" amd64 | if [ "$1" = armhf ]; then grep -v '/pie_link\.h$'; else cat; fi) ||
            fail "$package has other shared files for $1 than for amd64"
    done
    if [ "$1" != armhf ]; then
        [ -e "root/usr/src/juniperbowls-$version/pie_kernel_arm64.S" ] || fail "no assembly of the kernel module for arm64 in juniperbowls-dkms for $1"
        "$3" -L "/usr/$2" root/usr/bin/pie audit < "$repository/bindings/c/example.history" | grep -q '^clean,' || fail "the program for $1 does not audit the example"
    fi
    for file in libpie_c.a libpie.so; do
        "$2-gcc" -o example "$repository/bindings/c/example.c" -Iroot/usr/include "$library/$file"
        "$3" -L "/usr/$2" -E "LD_LIBRARY_PATH=$library" ./example | cmp - "$repository/bindings/c/example.history" || fail "the example for $1 with $file has another history"
    done
}

# (the shared library of amd64 is not for the emulator)
unset LD_LIBRARY_PATH
for architecture in $architectures; do
    case $architecture in
        arm64) prefix=aarch64-linux-gnu emulator=qemu-aarch64 ;;
        riscv64) prefix=riscv64-linux-gnu emulator=qemu-riscv64 ;;
        armhf) prefix=arm-linux-gnueabihf emulator=qemu-arm ;;
        *) fail "there is no architecture $architecture" ;;
    esac
    if command -v "$prefix-gcc" > /dev/null && command -v "$emulator" > /dev/null; then
        cross "$architecture" "$prefix" "$emulator"
    else
        echo "NOT RUN: tests/libraries/debian.sh: no $prefix-gcc or $emulator here, so no package for $architecture was built"
    fi
done
echo "tests/libraries/debian.sh: packages of version $version, also for $architectures"
