#!/usr/bin/env bash
# Makes bindings/kernel/pie_kernel_* and MANIFEST, which has the sums of the uncompressed texts, anew from the committed crates. It needs the toolchain (rt). The crate pie_c is proved and compiled
# over the libraries below it, as for dist/ (bindings/c/library.py); lower.py lowers the same LLVM module for the kernels of each processor. Run it after
# dist/make.sh.
#
# usage: bindings/kernel/make.sh
set -euo pipefail
cd "$(dirname "$0")/../.."
if [ -n "$(git status --porcelain crates crates.txt)" ]; then
    echo "bindings/kernel/make.sh: crates/ or crates.txt has changes that are not committed, so MANIFEST could not name their commit" >&2
    exit 1
fi
work=$(mktemp -d)
trap 'rm -rf "$work"' EXIT
module=crates/pie_c/out/pie_c.bc
if ! bindings/c/library.py pie_c > "$work/log" 2>&1 || ! [ -s $module ]; then
    cat "$work/log" >&2
    echo "bindings/kernel/make.sh: pie_c was not compiled" >&2
    exit 1
fi
clang=$(dirname "$(readlink -f "$(command -v rt)")")/../toolchain/bin/clang
for name in x86 arm64 riscv; do
    bindings/kernel/lower.py "$clang" $module "$work/pie_kernel_$name.S" $name
done
{
    echo "commit $(git rev-list -1 HEAD -- crates crates.txt)"
    echo "crates $(git rev-parse HEAD:crates)"
    echo "rt $(rt version)"
    (cd "$work" && sha256sum pie_kernel_*.S)
} > bindings/kernel/MANIFEST
xz -9 --extreme "$work"/pie_kernel_{arm64,riscv}.S
cp "$work"/pie_kernel_* bindings/kernel/
cat bindings/kernel/MANIFEST
