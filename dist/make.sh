#!/usr/bin/env bash
# Makes dist/ anew from the committed crates: the assembly of pie_c, pie_link_c and pie for each
# processor, the module of pie_c for BPF, pie_c and the program for WebAssembly, MANIFEST, and new lines of abi.txt. It needs the toolchain (rt), and
# Debian's clang-19 for mipsel and BPF, and linux-source-6.1 for the page's unpacking of xz. Proofs that `rt ci`, `rt lib` or `rt check` left are used. The three crates themselves are
# proved again, unless bindings/c/library.py has just proved them. lower.py lowers the module of each
# crate for the other processors. Links and the program need 64-bit words (docs/DECISIONS.md).
#
# usage: dist/make.sh
set -euo pipefail
cd "$(dirname "$0")/.."
if [ -n "$(git status --porcelain crates crates.txt)" ]; then
    echo "dist/make.sh: crates/ or crates.txt has changes that are not committed, so MANIFEST could not name what dist/ was made from" >&2
    exit 1
fi
work=$(mktemp -d)
trap 'rm -rf "$work"' EXIT
tests/libraries/abi.py --write

# assembly CRATE..: proves and compiles these one after another
assembly() {
    local crate
    for crate in "$@"; do
        if ! bindings/c/library.py "$crate" > "$work/$crate.log" 2>&1 || ! [ -s "crates/$crate/out/$crate.S" ]; then
            cat "$work/$crate.log" >&2
            echo "dist/make.sh: $crate was not compiled" >&2
            return 1
        fi
    done
}
assembly pie_c pie_link_c &
libraries=$!
assembly pie
wait "$libraries"

# lowered TARGET CRATE..: lowers the crates for that processor
lowered() {
    local target=$1 crate
    shift
    mkdir -p "$work/$target"
    for crate in "$@"; do
        dist/lower.py "$target" "crates/$crate/out/$crate.bc" "$work/$target/$crate.S"
    done
}
lowered aarch64 pie_c pie_link_c pie &
first=$!
lowered riscv64 pie_c pie_link_c pie
lowered armv7 pie_c
lowered mipsel pie_c
wait "$first"
dist/lower.py bpf crates/pie_c/out/pie_c.bc "$work/pie_c.ll"
for crate in pie_c pie; do
    dist/lower.py wasm "crates/$crate/out/$crate.bc" "$work/$crate.wasm"
done
mkdir -p "$work/x86_64"
for crate in pie_c pie_link_c pie; do
    cp "crates/$crate/out/$crate.S" "$work/x86_64/"
done

for target in x86_64 aarch64 riscv64 armv7 mipsel; do
    echo "dist/make.sh: $target"
    tests/libraries/dist.py --read "$target" "$work/$target"/*.S
    mkdir -p "dist/$target"
    # (of x86-64, reviews read the libraries)
    if [ $target = x86_64 ]; then xz -9 --extreme "$work/$target/pie.S"; else xz -9 --extreme "$work/$target"/*.S; fi
    cp "$work/$target"/* "dist/$target/"
done
mkdir -p dist/bpf
cp "$work/pie_c.ll" dist/bpf/
dist/wasm/unxz.sh "$work/unxz.wasm"
xz -9 --extreme --force "$work"/*.wasm
cp "$work"/*.wasm.xz dist/wasm/
{
    echo "version $(sed -n 's/^#define PIE_VERSION "\(.*\)"$/\1/p' include/pie.h)"
    echo "commit $(git rev-list -1 HEAD -- crates crates.txt)"
    echo "crates $(git rev-parse HEAD:crates)"
    echo "rt $(rt version)"
    echo "mipsel $(clang-19 --version | head -n 1)"
    (cd dist && sha256sum -- x86_64/*.S */*.xz bpf/* wasm/*.c wasm/*.sh | sort -k 2)
} > dist/MANIFEST
cat dist/MANIFEST
