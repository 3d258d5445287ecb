#!/usr/bin/env bash
# Downloads the kernel of Debian 13's backports, which has BPF queue disciplines (Linux 6.16 and later, CONFIG_NET_SCH_BPF), and unpacks it to a folder:
# kernel/vmlinuz and kernel/modules. For aarch64, system/ gets the programs that boot.sh runs in the guest and the libraries of pie-qdisc, which are those of
# this machine's Debian. apt uses the archive of this machine's own sources, and lists and a state of its own, so the packages of this machine stay as they
# are.
#
# usage: bindings/bpf/packages.sh [--processor aarch64] [FOLDER]      FOLDER: /var/cache/juniperbowls/debian-bpf or debian-bpf-aarch64
set -eu
. "$(dirname "$0")/../../tests/shared/apt_uri.sh"
processor=x86_64 debian=amd64 ending=
if [ "${1-}" = --processor ]; then
    processor=${2-} debian=arm64 ending=-aarch64
    [ "$processor" = aarch64 ] || { echo "usage: bindings/bpf/packages.sh [--processor aarch64] [FOLDER]" >&2 && exit 2; }
    shift 2
fi
folder=$(realpath -m "${1:-/var/cache/juniperbowls/debian-bpf$ending}")
work=$(mktemp -d)
trap 'rm -rf "$work"' EXIT
mkdir -p "$work"/{lists,archives}/partial "$work"/{sources,kernel,root,system}
touch "$work/status"
archive=$(apt_uri)
printf 'Types: deb\nURIs: %s\nSuites: trixie trixie-backports\nComponents: main\nSigned-By: /usr/share/keyrings/debian-archive-keyring.gpg\n' "$archive" > "$work/sources/debian.sources"
cat > "$work/system.conf" << END
APT::Architecture "$debian";
APT::Architectures { "$debian"; };
APT::Sandbox::User "root";
Acquire::Languages "none";
Dir::State "$work";
Dir::State::status "$work/status";
Dir::Cache "$work";
END
printf 'Dir::Etc::sourcelist "/dev/null";\nDir::Etc::sourceparts "%s/sources";\n' "$work" | cat "$work/system.conf" - > "$work/kernel.conf"
{
    export APT_CONFIG=$work/kernel.conf
    apt-get --quiet update
    # the package of the version depends on those with the files
    image=$(apt-cache show --no-all-versions "linux-image-$debian/trixie-backports" | sed -n 's/^Depends:.*\(linux-image-[0-9][^ ,]*\).*/\1/p')
    release=${image#linux-image-}
    cd "$work/kernel"
    apt-get --quiet download "linux-binary-$release" "linux-modules-$release"
    if [ "$processor" = aarch64 ]; then
        export APT_CONFIG=$work/system.conf
        apt-get --quiet update
        apt-get --quiet --yes --no-install-recommends --download-only install busybox-static bpftool iproute2 iperf3 libbpf-dev
    fi
} > "$work/log" 2>&1 || { cat "$work/log" >&2; exit 1; }
for package in "$work"/kernel/*.deb; do
    dpkg-deb --extract "$package" "$work/root"
done
for package in "$work"/archives/*.deb; do
    [ ! -e "$package" ] || dpkg-deb --extract "$package" "$work/system"
done
rm -rf "$folder"
mkdir -p "$folder/kernel"
mv "$work/root/usr/lib/modules/$release/vmlinuz" "$folder/kernel/"
mv "$work/root/usr/lib/modules/$release" "$folder/kernel/modules"
echo "$release" > "$folder/kernel/release"
[ "$processor" != aarch64 ] || mv "$work/system" "$folder/system"
echo "bindings/bpf/packages.sh: Linux $release in $folder"
