#!/usr/bin/env bash
# Checks the shared library made from the assembly of the proved crates: it exports exactly the functions of
# dist/abi.txt (abi.py compares these with the headers), needs only libc, has its soname, and is reproducible. The
# worked rows of bindings/c run over it. A list with one more function must be rejected. Prints a line NOT RUN for a
# missing tool.
# usage: tests/libraries/shared.sh
# needs: library
set -eu
cd "$(dirname "$0")/../.."
work=$(mktemp -d)
trap 'rm -rf "$work"' EXIT
cc=${CC:-cc}

fail() {
    echo "tests/libraries/shared.sh: $1" >&2
    exit 1
}

for program in "$cc" nm readelf make; do
    if ! command -v "$program" > /dev/null; then
        echo "NOT RUN: tests/libraries/shared.sh: no $program here, so the shared library was not made"
        exit 0
    fi
done
bindings/c/library.py > /dev/null
export PIE_C_S=$PWD/crates/pie_c/out/pie_c.S PIE_LINK_C_S=$PWD/crates/pie_link_c/out/pie_link_c.S
version=$(sed -n 's/^#define PIE_VERSION "\(.*\)"$/\1/p' include/pie.h)
make -s BUILD="$work/one" shared && make -s BUILD="$work/two" shared || fail "it is not made"
library=$work/one/libpie.so.$version
cmp "$library" "$work/two/libpie.so.$version" || fail "two of the same parts differ"
sed -n 's/^function \(.*\): .*/\1/p' dist/abi.txt | sort > "$work/wanted"
nm -D --defined-only "$library" | awk '$2 != "A" { sub("@.*", "", $3); print $3 }' | sort > "$work/found"
diff "$work/wanted" "$work/found" || fail "it exports other functions than dist/abi.txt lists (>: it alone)"
count=$(wc -l < "$work/found")
[ "$count" -gt 50 ] || fail "dist/abi.txt lists only $count functions"
[ "$(nm -D --defined-only "$library" | grep -c "@@PIE_${version%%.*}\$")" = "$count" ] || fail "its functions have no version PIE_${version%%.*}"
needed=$(readelf -d "$library" | sed -n -E 's/.*\((NEEDED|SONAME)\).*\[(.*)\]/\2/p' | sort | paste -s -d ' ')
case $needed in
    "libpie.so.${version%%.*}" | "libc.so.6 libpie.so.${version%%.*}") ;;
    *) fail "its soname and what it needs are: $needed" ;;
esac
if readelf -d "$library" | grep -q TEXTREL || readelf -lW "$library" | grep -q 'GNU_STACK.*E'; then
    fail "it has relocations in its code, or a stack that is run"
fi
"$cc" -O1 -std=c11 -Iinclude -o "$work/rows" bindings/c/rows.c "$library" || fail "bindings/c/rows.c is not linked with it"
LD_LIBRARY_PATH=$work/one "$work/rows" || fail "the worked rows do not pass over it"

# a copy of make's files, with one more function in the list
mkdir -p "$work/copy/dist"
cp -r Makefile include "$work/copy"
cp dist/*.c dist/*.h "$work/copy/dist"
cp -r --parents bindings/python/native "$work/copy"
sed 's/^function pie_due: .*/&\nfunction pie_overdue: uint64_t (const struct pie_state *state)/' dist/abi.txt > "$work/copy/dist/abi.txt"
if make -s -C "$work/copy" BUILD="$work/three" shared > "$work/said" 2>&1 || ! grep -q pie_overdue "$work/said"; then
    fail "it is made without a function of the list, or the linker does not name that: $(cat "$work/said")"
fi
echo "tests/libraries/shared.sh: libpie.so.$version exports the $count functions of dist/abi.txt, and passes the worked rows"
