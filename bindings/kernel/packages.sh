#!/usr/bin/env bash
# Downloads Debian's kernel headers for another processor, and for aarch64 also its kernel and the programs that boot.sh
# runs in it; or the kernel 6.12 of Debian 12's backports, with its headers. It unpacks them to a folder. apt uses lists and a state of its own, so the packages and the architectures
# of this machine stay as they are. Debian 12 has no packages for riscv64, so these headers are Debian 13's, with the
# programs of kbuild that Debian 12 has in its backports. The archive is that of apt's own sources.
#
# usage: bindings/kernel/packages.sh aarch64|riscv64|6.12 [FOLDER]      FOLDER: build/debian-aarch64 and so on
set -eu
. "$(dirname "$0")/../../tests/shared/apt_uri.sh"
case ${1-} in
    aarch64) debian=arm64 sources='' ;;
    riscv64) debian=riscv64 sources='trixie bookworm-backports' ;;
    6.12) debian=amd64 sources=bookworm-backports ;;
    *) echo "usage: bindings/kernel/packages.sh aarch64|riscv64|6.12 [FOLDER]" >&2 && exit 2 ;;
esac
folder=$(realpath -m "${2:-$(dirname "$0")/../../build/debian-$1}")
here=$(dpkg --print-architecture)
work=$(mktemp -d)
trap 'rm -rf "$work"' EXIT
mkdir -p "$work"/{lists,archives}/partial "$work/sources" "$work/root"
touch "$work/status"
cat > "$work/apt.conf" << END
APT::Architecture "$debian";
APT::Architectures { "$debian"; "$here"; };
APT::Sandbox::User "root";
Acquire::Languages "none";
Dir::State "$work";
Dir::State::status "$work/status";
Dir::Cache "$work";
END
if [ -n "$sources" ]; then
    archive=$(apt_uri)
    printf 'Types: deb\nURIs: %s\nSuites: %s\nComponents: main\nSigned-By: /usr/share/keyrings/debian-archive-keyring.gpg\n' "$archive" "$sources" > "$work/sources/debian.sources"
    printf 'Dir::Etc::sourcelist "/dev/null";\nDir::Etc::sourceparts "%s/sources";\n' "$work" >> "$work/apt.conf"
fi
export APT_CONFIG=$work/apt.conf
# depends PACKAGE: prints the packages that it needs
depends() {
    apt-cache depends "$1" | sed -n 's/^  Depends: //p'
}
{
    apt-get --quiet update
    headers=$(depends "linux-headers-$debian")
    kbuild=$(depends "$headers" | grep '^linux-kbuild')
    runs=$kbuild
    [ $debian != riscv64 ] || runs=$(apt-cache search --names-only "^${kbuild%%.[0-9]*+*}.*+deb12$" | cut -d' ' -f1 | sort -V | tail -n 1)
    cd "$work/archives"
    # (the programs of kbuild run on this machine)
    apt-get --quiet download "$headers" "${headers%-"$debian"}-common" "$runs:$here"
    [ $debian = riscv64 ] || apt-get --quiet download "$(depends "linux-image-$debian")"
    if [ $debian = arm64 ]; then
        apt-get --quiet --yes --no-install-recommends --download-only install busybox-static iproute2 iperf3
    fi
} > "$work/log" 2>&1 || { cat "$work/log" >&2; exit 1; }
for package in "$work"/archives/{linux-,busybox-,iproute2_,iperf3_,lib,zlib1g_}*.deb; do
    [ ! -e "$package" ] || dpkg-deb --extract "$package" "$work/root"
done
[ "$runs" = "$kbuild" ] || ln -s "$runs" "$work/root/usr/lib/$kbuild"
sed -i "s|/usr/src|$folder/usr/src|" "$work/root/usr/src/$headers/Makefile"
# (with this file, kbuild needs pahole, to make the module's BTF)
rm -f "$work/root/usr/src/$headers/vmlinux"
mkdir -p "${folder%/*}"
mv "$work/root" "$folder"
