#!/usr/bin/env bash
# Checks the kernel's assembly without a boot, and builds the module. For each processor the assembly has the calls of lower.py and no others, general
# registers alone, no indirect jumps, each function within the kernel's macros, and no undefined symbol but the kernel's copies of memory; on x86-64 no red
# zone, on arm64 no register x18, on riscv64 neither gp nor tp. bindings/c/example.c decides by it as by dist/'s assembly of the same crates: its texts are
# then written by dist/'s calls. With Debian's cross compilers and qemu, this is so for the processors beside this one. With the headers of a kernel here, or
# in the folders that packages.sh makes in build/, the module is built by kbuild, with objtool, without a warning, from the tree that DKMS has.
# needs: nothing
set -eu
cd "$(dirname "$0")/../.."
here=bindings/kernel
work=$(mktemp -d)
trap 'rm -rf "$work"' EXIT
fail() {
    echo "bindings/kernel/check.sh: $*" >&2
    exit 1
}

mkdir "$work/assembly"
cp $here/pie_kernel_*.S $here/pie_kernel_*.S.xz "$work/assembly"
xz -df "$work/assembly"/*.xz
(cd "$work/assembly" && sed -n '/\.S$/p' "$OLDPWD/$here/MANIFEST" | sha256sum --check --quiet) &&
    [ "$(grep -c '\.S$' $here/MANIFEST)" = "$(ls "$work/assembly" | wc -l)" ] || fail "the assembly is not that of MANIFEST"
if [ "$(uname -m)" != x86_64 ] || ! command -v cc objcopy nm objdump > /dev/null; then
    echo "NOT RUN: bindings/kernel: no C compiler or binutils for x86-64 here, so the kernel's assembly was not assembled"
    exit 0
fi

# check_assembly NAME FOLDER PREFIX RUN FORBIDDEN: checks pie_kernel_NAME.S with the compiler and the binutils of that prefix. FOLDER is that of dist/. RUN is a
# command that runs programs. FORBIDDEN is a pattern of instructions that this kernel does not allow
check_assembly() {
    local file=$work/assembly/pie_kernel_$1.S cc=$3gcc functions outside
    if ! command -v "$cc" "$3objdump" > /dev/null || [ -n "$4" ] && ! command -v "$4" > /dev/null; then
        echo "NOT RUN: bindings/kernel: no $cc or no $4 here, so ${file##*/} was not assembled"
        return
    fi
    "$cc" -c -o "$work/kernel.o" "$file"
    "$3nm" -g --defined-only --format=just-symbols "$work/kernel.o" | sort > "$work/calls"
    sed -n '/^CALLS = """/,/"""/p' $here/lower.py | grep -o 'pie_[a-z_]*' | sort | cmp - "$work/calls" || fail "$file has other calls than lower.py lists"
    outside=$("$3nm" -u --format=just-symbols "$work/kernel.o" | grep -v -x 'memcpy\|memmove\|memset' || true)
    [ -z "$outside" ] || fail "undefined symbols of $file: $outside"
    functions=$("$3nm" --defined-only "$work/kernel.o" | grep -c -i ' t [^$.]')
    [ "$(grep -c '^SYM_FUNC_START' "$file")" = "$functions" ] && [ "$(grep -c '^SYM_FUNC_END' "$file")" = "$functions" ] ||
        fail "functions of $file are not framed by the kernel's macros"
    # (without the targets of jumps, which are not instructions)
    "$3objdump" -d --no-show-raw-insn "$work/kernel.o" | sed -n 's/^ *[0-9a-f]*:\t//p' | sed 's/\b[0-9a-f]* <.*//' > "$work/instructions"
    [ "$(wc -l < "$work/instructions")" -gt 1000 ] || fail "$file has few instructions"
    if grep -E "$5" "$work/instructions"; then
        fail "instructions of $file that a kernel does not allow"
    fi
    if [ "$(grep '^crates ' $here/MANIFEST)" != "$(grep '^crates ' dist/MANIFEST)" ]; then
        echo "NOT RUN: bindings/kernel: dist/ and ${file##*/} (see bindings/kernel/make.sh) are of different crates; the example was not compared"
        return
    fi
    make -s CC="$cc" BUILD="$work/$2" "$work/$2/pie_c.o"
    cp "$work/$2/pie_c.o" "$work/dist.o"
    "$cc" -static -Iinclude -o "$work/by_dist" bindings/c/example.c "$work/dist.o"
    "$3objcopy" --weaken "$work/dist.o"
    "$cc" -static -Iinclude -o "$work/by_kernel" bindings/c/example.c "$work/kernel.o" "$work/dist.o"
    $4 "$work/by_dist" > "$work/dist.history"
    $4 "$work/by_kernel" > "$work/kernel.history"
    cmp "$work/dist.history" "$work/kernel.history" || fail "the example's history by $file differs from that by dist/"
    cmp -s "$work/kernel.history" bindings/c/example.history || echo "bindings/kernel: the example's history by dist/ and by this assembly is older than the stored one"
    echo "bindings/kernel: the example decides by ${file##*/} as by dist/, $(wc -l < "$work/kernel.history") records"
}

# (rep bsf, which objdump calls tzcnt, is bsf on a processor without BMI; LLVM emits it where both give the same)
check_assembly x86 x86_64 '' '' '%[xyz]mm|%mm[0-7]|%st|\b(popcnt|lzcnt|shlx|mulx)|(jmp|call) +\*|-0x[0-9a-f]+\(%rsp'
[ "$(grep -c 'RET$' "$work/assembly/pie_kernel_x86.S")" -gt 9 ] || fail "returns are not the kernel's macro"
check_assembly arm64 aarch64 aarch64-linux-gnu- qemu-aarch64 '\b([xw]18|[vqdshb][0-9]+)\b|\b(br|blr)\b'
check_assembly riscv riscv64 riscv64-linux-gnu- qemu-riscv64 '\b(f[ast][0-9]+|v[0-9]+|gp|tp)\b'

# programs of 32 and of 64 bits read the same structures
for words in -m32 -m64; do
    printf '%s\n' '#include "pie_recorded.h"' \
        '_Static_assert(sizeof(struct pie_recorded_flow) == 64 && __builtin_offsetof(struct pie_recorded_flow, moment) == 16, "flow");' \
        '_Static_assert(sizeof(struct tc_pie_recorded_xstats) == 128 && __builtin_offsetof(struct tc_pie_recorded_xstats, burst) == 40, "statistics");' |
        cc $words -Wpadded -Werror -fsyntax-only -I$here -I"/usr/include/$(cc -print-multiarch)" -x c - || fail "structures differ with $words"
done

cc -O2 -Wall -Wextra -Iinclude -o "$work/pie-tap" $here/pie_tap.c -x assembler dist/x86_64/pie_c.S
if "$work/pie-tap" --help > /dev/full 2> "$work/log"; then
    fail "pie-tap does not report a full output"
fi
# a record without a complete snapshot, in a file that does not change: pie-tap copies it once
python3 -c 'import struct, sys
words = [0] * 1024
words[0], words[1:7], words[21] = 0x3154474C46454950, [2, 12, 3, 8, 2, 1], 3
sys.stdout.buffer.write(struct.pack("<1024Q", *words))' > "$work/record"
for words in dump follow record; do
    ended=0
    timeout --kill-after=60 300 "$work/pie-tap" $words "$work/record" > "$work/tapped" 2>&1 || ended=$?
    [ $ended = 1 ] && grep -q '^pie-tap: no snapshot could be copied' "$work/tapped" || { cat "$work/tapped" >&2; fail "pie-tap $words does not end: $ended"; }
done

# a queue is removed while `pie-tap list` reads the folder: the name is there, and no file
mkdir "$work/folder"
ln -s "$work/none" "$work/folder/3-2:0-1:1-1"
ln -s "$work/record" "$work/folder/3-3:0-1:2-2"
cc -O2 -DFOLDER="\"$work/folder\"" -Iinclude -o "$work/pie-tap-here" $here/pie_tap.c -x assembler dist/x86_64/pie_c.S
listed=$("$work/pie-tap-here" list) || fail "pie-tap list ends at a queue that was removed"
[ "$(wc -l <<< "$listed")" = 2 ] || fail "pie-tap list has other records: $listed"

built=
for headers in /usr/src/linux-headers-* build/debian-*/usr/src/linux-headers-*; do
    [ -e "$headers/Module.symvers" ] || continue
    release=${headers##*/linux-headers-}
    case $release in
        *-arm64) words="ARCH=arm64 CROSS_COMPILE=aarch64-linux-gnu- CC=aarch64-linux-gnu-gcc" ;;
        *-riscv64) words="ARCH=riscv CROSS_COMPILE=riscv64-linux-gnu- CC=riscv64-linux-gnu-gcc" ;;
        *) words='' ;;
    esac
    make -s -C $here dkms-tree DKMS_TREE="$work/$release"
    # shellcheck disable=SC2086
    make -C "$headers" M="$work/$release" $words modules > "$work/log" 2>&1 || { cat "$work/log" >&2; fail "the module was not built for $release"; }
    if grep -i -E 'warning|error' "$work/log" >&2; then
        fail "warnings for $release"
    fi
    built="$built $release"
done
if [ -n "$built" ]; then
    echo "bindings/kernel: the module builds without warnings for$built"
else
    echo "NOT RUN: bindings/kernel: no headers of a kernel here (tests/install.sh bindings/kernel), so the module was not built"
fi
