# For boot.sh and sparse.sh, which read it by `.`: a kernel of Debian under qemu, in simulated time. Needs `me`, `root` and `work`; for another processor than
# x86_64 also `processor`, and `system`, a folder with programs and libraries for it.
: "${processor:=x86_64}" "${system:=}"
console=ttyS0 machine='-cpu Nehalem,+rdrand'
[ "$processor" = x86_64 ] || console=ttyAMA0 machine='-machine virt -cpu cortex-a72'

# requires PROGRAM..: ends the script if something is not here
requires() {
    local program
    for program in "qemu-system-$processor" busybox tc ip cpio zstd python3 clang-19 bpftool "$@"; do
        PATH=$PATH:/usr/sbin command -v "$program" > /dev/null || { echo "NOT RUN: $me: no $program here (tests/install.sh bindings/bpf)"; exit 0; }
    done
    [ -e /usr/include/bpf/libbpf.h ] || { echo "NOT RUN: $me: no libbpf here (tests/install.sh bindings/bpf)"; exit 0; }
    [ -e "$root/kernel/vmlinuz" ] || { echo "NOT RUN: $me: no kernel in $root (bindings/bpf/packages.sh downloads it)"; exit 0; }
}

# unpacks: unpacks the kernel here, since the guest would need 5 s of a processor for it; that for aarch64 is not compressed
unpacks() {
    mkdir -p "$work/root"/{bin,dev,proc,sys,tmp,run,mods,bpf}
    kernel=$root/kernel/vmlinuz
    [ "$processor" != x86_64 ] || { bindings/kernel/vmlinux.py "$kernel" "$work/vmlinux" && kernel=$work/vmlinux; }
}

# modules NAME..: copies modules of the kernel to /mods, and those of the disk
modules() {
    local name
    for name in "$@" veth virtio virtio_ring virtio_pci_legacy_dev virtio_pci_modern_dev virtio_pci virtio_blk; do
        find "$root/kernel/modules/" -name "$name.ko*" -exec cp {} "$work/root/mods/" \;
    done
    find "$work/root/mods" -name '*.xz' -exec xz -d {} +
}

# libraries FILE: prints the libraries that a program loads, and the libraries that these load
libraries() {
    local name path
    [ -n "$system" ] || { ldd "$1" | grep -o '/[^ ]*'; return; }
    for name in $(readelf -d "$1" | sed -n 's/.*(NEEDED).*\[\(.*\)\]$/\1/p') ld-linux-aarch64.so.1; do
        for path in "$system"/{lib,lib/*-linux-gnu,usr/lib/*-linux-gnu}/"$name"; do
            if [ -e "$path" ] && [ "${path##*/}" != "${1##*/}" ]; then
                echo "$path"
                libraries "$path"
            fi
        done
    done
}

# programs NAME|PATH..: copies programs to /bin, with their libraries
programs() {
    local path library
    for path in busybox tc ip "$@"; do
        case $path in
            */*) ;;
            *) path=$(PATH=${system:+$system/bin:$system/sbin:$system/usr/bin:$system/usr/sbin:}$PATH:/usr/sbin command -v "$path") ;;
        esac
        cp -n "$path" "$work/root/bin/"
        [ "${path##*/}" != busybox ] || continue
        for library in $(libraries "$path" | sort -u); do
            mkdir -p "$work/root$(dirname "${library#"$system"}")"
            cp -n -L "$library" "$work/root${library#"$system"}"
        done
    done
}

# boots INIT: boots with this script as the first process, which must print a line `ended`, and unpacks the disk to `records`
boots() {
    cp "$1" "$work/root/init"
    cp bindings/kernel/guest_net.sh "$work/root/net.sh"
    chmod +x "$work/root/init"
    (cd "$work/root" && find . | sort | cpio -o -H newc --quiet --reproducible) > "$work/initrd"
    truncate -s 256M "$work/disk"
    # shellcheck disable=SC2086
    timeout "${LIMIT:-3600}" "qemu-system-$processor" -nodefaults -display none -monitor none -no-reboot -kernel "$kernel" -initrd "$work/initrd" \
        -append "console=$console quiet panic=-1 panic_on_warn=1 mitigations=off nokaslr random.trust_cpu=on rdinit=/init" -serial "file:$work/console" \
        -m 1024 -smp 1 -icount shift=0,sleep=off -rtc base=2026-01-01T00:00:00,clock=vm -seed "${SEED:-1}" $machine \
        -drive "file=$work/disk,format=raw,if=virtio" < /dev/null > "$work/qemu.log" 2>&1 || true
    release=$(cat "$root/kernel/release")
    if ! grep -q '^ended' "$work/console" || grep -E '^FAILED|WARNING:|BUG:|Oops' "$work/console"; then
        cat "$work/qemu.log" "$work/console" >&2
        echo "$me: the kernel $release did not end well" >&2
        exit 1
    fi
    mkdir "$work/records"
    tar -C "$work/records" -xf "$work/disk"
    grep -E '^TOLD' "$work/console" | tr -d '\r' | sed 's/^TOLD/ /'
    echo "bindings/bpf: Linux $release, BPF object $(sha256sum < "$work/built/pie_qdisc.bpf.o" | cut -c1-16)"
}
