# For the scripts that boot a kernel of Debian under qemu (boot.sh, measure.sh, beside_pie.sh); each reads this file by `.` in the folder at the top of
# the project. `me` is the script's name, and `processor` the kernel's, x86_64 by default. The programs of another processor's guest are in `system`.
if [ "${processor:=x86_64}" = x86_64 ]; then
    root=${1:-/} system='' cc=cc strip=strip kbuild='' console=ttyS0 machine="-cpu Nehalem,+rdrand"
    headers=${HEADERS:-/usr/src}
    needed="busybox tc ip iperf3"
else
    # (a processor without extensions of ARMv8-A)
    root=${1:-$PWD/build/debian-$processor} console=ttyAMA0 machine="-machine virt -cpu cortex-a72"
    system=$root cc=aarch64-linux-gnu-gcc strip=aarch64-linux-gnu-strip kbuild="ARCH=arm64 CROSS_COMPILE=aarch64-linux-gnu-"
    headers=${HEADERS:-$root/usr/src}
    needed=aarch64-linux-gnu-gcc-12
    [ -e "$root/boot" ] || bindings/kernel/packages.sh "$processor" "$root"
fi
for program in $needed "qemu-system-$processor" cpio "$cc" python3 strings; do
    if ! command -v $program > /dev/null; then
        echo "NOT RUN: $me: no $program here (tests/install.sh bindings/kernel)"
        exit 0
    fi
done
kernel=$(ls "$root"/boot/vmlinuz-* 2> /dev/null | sort -V | tail -n 1)
release=${kernel##*/vmlinuz-}
if [ -z "$kernel" ] || ! [ -d "$headers/linux-headers-$release" ]; then
    echo "NOT RUN: $me: no kernel in $root/boot, or no headers of it in $headers"
    exit 0
fi
work=${KEEP:-$(mktemp -d)}
[ -n "${KEEP-}" ] || trap 'rm -rf "$work"' EXIT
mkdir -p "$work/build/bindings" "$work/root"/{bin,dev,proc,sys,tmp,run,var} "$work/root/mods"
cp -r bindings/kernel "$work/build/bindings/"
cp -r bindings/kernel "$work/source"
cp -r include "$work/build/"

if bindings/kernel/vmlinux.py "$kernel" "$work/vmlinux"; then
    kernel=$work/vmlinux
fi

# build_module FOLDER FILE: builds the modules of a folder below bindings/kernel, and copies one to FILE
build_module() {
    # shellcheck disable=SC2086
    make -s -C "$headers/linux-headers-$release" M="$work/build/bindings/kernel/$1" $kbuild modules > "$work/make.log" 2>&1 ||
        { cat "$work/make.log" >&2; exit 1; }
    cp "$work/build/bindings/kernel/$1"/*.ko "$2"
    "$strip" --strip-debug "$2"
}

# place NAME: prints the file of a program of the guest
place() {
    if [ -n "$system" ]; then ls "$system"/{bin,sbin,usr/bin}/"$1" 2> /dev/null | head -n 1; else command -v "$1"; fi
}

# libraries FILE: prints the libraries that a program loads, and the libraries that these load
libraries() {
    local name path
    if [ -z "$system" ]; then
        ldd "$1" | grep -o '/[^ ]*'
        return
    fi
    for name in $(readelf -d "$1" | sed -n 's/.*(NEEDED).*\[\(.*\)\]$/\1/p'); do
        for path in "$system"/{lib,lib/*-linux-gnu,usr/lib/*-linux-gnu}/"$name"; do
            if [ -e "$path" ]; then
                echo "$path"
                libraries "$path"
            fi
        done
    done
}

# fill_root INIT MODULE..: fills the first file system: INIT is its first process; MODULE.. are modules of the kernel, as far as they are modules there
fill_root() {
    local plugins path library name
    cp "$1" "$work/root/init"
    cp bindings/kernel/guest_net.sh "$work/root/net.sh"
    chmod +x "$work/root/init"
    shift
    for name in "$@" virtio virtio_ring virtio_pci_legacy_dev virtio_pci_modern_dev virtio_pci virtio_blk; do
        find "$root/lib/modules/$release/" -name "$name.ko*" -exec cp {} "$work/root/mods/" \;
    done
    find "$work/root/mods" -name '*.xz' -exec xz -d {} +
    cp "$(place busybox)" "$work/root/bin/"
    plugins=$work/root$(strings "$(place tc)" | grep -m 1 '^/.*/tc/$')
    mkdir -p "$plugins"
    make -s CC="$cc" BUILD="$work/program" "$work/program/libpie_c.a" > "$work/make.log" 2>&1 &&
        make -s -B -C "$work/source" tools CC="$cc" PIE_C="$work/program/libpie_c.a" CPPFLAGS="-I$PWD/include" >> "$work/make.log" 2>&1 ||
        { cat "$work/make.log" >&2; exit 1; }
    cp "$work/source/q_pie_recorded.so" "$plugins"
    if [ -n "$system" ]; then
        make -s CC="$cc" BUILD="$work/program" program > "$work/make.log" 2>&1 || { cat "$work/make.log" >&2; exit 1; }
    fi
    for path in "$(place tc)" "$(place ip)" "$(place iperf3)" "$work/source/pie-tap" ${system:+"$work/program/pie"}; do
        cp "$path" "$work/root/bin/"
        for library in $(libraries "$path"); do
            name=$work/root${library#"$system"}
            mkdir -p "${name%/*}"
            cp -n -L "$library" "$name"
        done
    done
    (cd "$work/root" && find . | sort | cpio -o -H newc --quiet --reproducible) > "$work/initrd"
}

# boot PARAMETERS [OPTION..]: boots with these parameters of the kernel and options of qemu, until the first process ends. Fails if it did not end well.
boot() {
    local parameters=$1
    shift
    timeout "${LIMIT:-3600}" "qemu-system-$processor" -nodefaults -display none -monitor none -no-reboot -kernel "$kernel" -initrd "$work/initrd" \
        -append "console=$console quiet panic=-1 panic_on_warn=1 mitigations=off nokaslr random.trust_cpu=on $parameters rdinit=/init" \
        -serial "file:$work/console" "$@" < /dev/null > "$work/qemu.log" 2>&1 || true
    if ! grep -q '^ended' "$work/console" || grep -E '^FAILED|WARNING:|BUG:|Oops|KASAN|possible circular' "$work/console"; then
        cat "$work/qemu.log" "$work/console" >&2
        echo "$me: the kernel $release did not end well" >&2
        exit 1
    fi
}

# In simulated time: an instruction takes a nanosecond, and chance comes from the seed. Two runs of the same files are alike, with rare exceptions on a
# busy machine.
SIMULATED="-m 768 -smp 1 -icount shift=0,sleep=off -rtc base=2026-01-01T00:00:00,clock=vm -seed ${SEED:-1} $machine"
