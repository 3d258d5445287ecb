#!/usr/bin/env bash
# Compiles unxz.c to WebAssembly by the toolchain, with XZ Embedded of Debian's package linux-source-6.1.
#
# usage: dist/wasm/unxz.sh OUT
set -euo pipefail
here=$(dirname "$(readlink -f "$0")")
source=/usr/src/linux-source-6.1.tar.xz
kit=$(dirname "$(dirname "$(readlink -f "$(command -v rt)")")")/toolchain/bin
work=$(mktemp -d)
trap 'rm -rf "$work"' EXIT
tar --extract --xz --file $source --directory "$work" --strip-components 3 --wildcards '*/lib/xz/*.[ch]' '*/include/linux/xz.h'
mv "$work/xz.h" "$work/xz_config.h"
ln -s "$(readlink -f "$kit/ld.lld")" "$work/wasm-ld"
"$kit/clang" --target=wasm32-unknown-unknown --no-default-config -std=gnu11 -O2 -ffreestanding -mbulk-memory -Wall -isystem "$(gcc -print-file-name=include)" \
    -I "$work" -c "$here/unxz.c" -o "$work/unxz.o"
"$work/wasm-ld" --no-entry --gc-sections --fatal-warnings --strip-all --export-memory -z stack-size=65536 --max-memory=4294967296 "$work/unxz.o" -o "$1"
