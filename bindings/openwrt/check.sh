#!/usr/bin/env bash
# Builds OpenWrt's packages with musl, as OpenWrt's own makefiles call this folder's Makefile: a few lines stand for rules.mk and package.mk. The
# library has at most 100 KB and the program at most 1.375 MiB, stripped. The installed program runs an example, and example.c runs over the
# library. The version is that of pie.h. Debian has musl for x86-64. For aarch64, armv7, mipsel and riscv64 the script needs its cross compiler, qemu,
# and a folder in which Debian's packages musl and musl-dev for that processor are unpacked:
#
#   mmdebstrap --variant=extract --architectures=arm64 --include=musl-dev bookworm FOLDER
#
# usage: bindings/openwrt/check.sh [PROCESSOR FOLDER]      PROCESSOR: a folder of dist/; by default x86_64
# needs: nothing
set -eu
cd "$(dirname "$0")/../.."
repository=$PWD
work=$(mktemp -d)
trap 'rm -rf "$work"' EXIT

fail() {
    echo "bindings/openwrt/check.sh: $1" >&2
    exit 1
}

processor=${1:-x86_64} root=${2:-}
case $processor in
    x86_64) arch=x86_64 prefix=x86_64-linux-gnu musl=x86_64-linux-musl emulator='' ;;
    aarch64 | riscv64 | mipsel) arch=$processor prefix=$processor-linux-gnu musl=$processor-linux-musl emulator=qemu-$processor ;;
    armv7) arch=arm prefix=arm-linux-gnueabihf musl=arm-linux-musleabihf emulator=qemu-arm ;;
    *) fail "there is no processor $processor" ;;
esac
specs=$root/usr/lib/$musl/musl-gcc.specs
for it in "$specs" "$prefix-gcc" ${emulator:+"$emulator"}; do
    if ! command -v "$it" > /dev/null && ! [ -e "$it" ]; then
        echo "NOT RUN: bindings/openwrt/check.sh: no $it here, so no package for OpenWrt was built"
        exit 0
    fi
done
version=$(sed -n 's/^#define PIE_VERSION "\(.*\)"$/\1/p' include/pie.h)
grep -qx "PKG_VERSION:=$version" bindings/openwrt/Makefile || fail "the makefile is for another version than $version"

sed "s,/usr/\(lib\|include\)/$musl,$root&,g" "$specs" > "$work/specs"
cc="$prefix-gcc -specs $work/specs"
cat > "$work/rules.mk" << END
ARCH := $arch
BUILD_DIR := \$(TOPDIR)/build_dir
TARGET_CC := $cc
TARGET_AR := $prefix-ar
TARGET_CFLAGS := -Os
TARGET_LDFLAGS := -s
INSTALL_DIR := install -d -m0755
INSTALL_BIN := install -m0755
CP := cp -fpR
END
cat > "$work/package.mk" << 'END'
all: prepare compile
prepare:
	$(Build/Prepare)
compile: prepare
	$(Build/Compile)
define BuildPackage
$(eval $(Package/$(1)))
all: $(if $(findstring $(ARCH),$(DEPENDS)),install-$(1))
install-$(1): compile
	$$(call Package/$(1)/install,$$(TOPDIR)/ipkg-$(1))
endef
define KernelPackage
$(if $(KernelPackage/$(1)),,$(error no package $(1)))
endef
END
make -s -f "$repository/bindings/openwrt/Makefile" TOPDIR="$work" INCLUDE_DIR="$work" all > "$work/log" 2>&1 || { cat "$work/log" >&2; fail "the packages are not built"; }
library=$work/ipkg-libpie/usr/lib/libpie.so.$version program=$work/ipkg-pie/usr/bin/pie
# run COMMAND..: runs a program for the processor
run() {
    if [ -z "$emulator" ]; then "$@"; else "$emulator" -L "$root" "$@"; fi
}
sizes="$processor: libpie.so has $(stat -c %s "$library") bytes"
[ "$(stat -c %s "$library")" -le 100000 ] || fail "$sizes"
if [ -e "dist/$processor/pie.S.xz" ]; then
    sizes="$sizes, pie $(stat -c %s "$program")"
    [ "$(stat -c %s "$program")" -le 1572864 ] || fail "$sizes"
    run "$program" run < examples/burst.trace | cmp - examples/burst.history || fail "the program makes another history"
    [ "$(run "$program" explain --tag 200 examples/overload.history | head -n 1)" = 'event 349: packet 200, 1250 bytes, Not-ECT: DROPPED early' ] ||
        fail "the program does not read its arguments"
fi
$cc -std=c11 -Iinclude -o "$work/example" bindings/c/example.c "$library"
LD_LIBRARY_PATH=$work/ipkg-libpie/usr/lib run "$work/example" | cmp - bindings/c/example.history || fail "the example makes another history"
echo "bindings/openwrt/check.sh: $sizes"
