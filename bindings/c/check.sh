#!/usr/bin/env bash
# Builds the static library. Builds and runs with it the worked rows, the pitfalls of
# docs/LIBRARY.md, random events and the example in C: without options, as position-independent
# executables with relro, now and -fcf-protection, with the sanitizers for addresses and undefined
# behaviour, and under valgrind. The example's history must be the stored one. If python3 is installed, the
# library is called with each number of the header's comments, and tests/shared/reference_texts.py
# computes the history again. Prints a line NOT RUN for a missing program.
# needs: library
set -eu
cd "$(dirname "$0")/../.."
cc=${CC:-cc}
if ! command -v "$cc" > /dev/null; then
    echo "NOT RUN: bindings/c: no C compiler ($cc) here, so neither the static library nor the rows and the example in C were built"
    exit 0
fi
work=$(mktemp -d)
trap 'rm -rf "$work"' EXIT
if ! bindings/c/library.py > "$work/lib.log" 2>&1; then
    cat "$work/lib.log"
    exit 1
fi
lib=crates/pie_c/out/libpie_c.a
flags="-Wall -Wextra -Werror -std=c11 -Iinclude"

check() {
    local name=$1
    shift
    for program in rows traps example events; do
        "$cc" $flags "$@" -o "$work/$program" "bindings/c/$program.c" "$lib"
    done
    "$work/rows"
    "$work/traps"
    for seed in 1 2 3 4; do
        "$work/events" $seed 500 > "$work/events.$seed"
    done
    "$work/example" > "$work/history"
    cmp "$work/history" bindings/c/example.history
    echo "bindings/c: rows, traps, events and example pass ($name)"
}

check "plain" -O2
if command -v valgrind > /dev/null; then
    for program in rows "events 1 500" example; do
        # shellcheck disable=SC2086
        valgrind --quiet --leak-check=full --error-exitcode=1 "$work/"$program > "$work/output"
    done
    echo "bindings/c: rows, events and example pass (valgrind)"
else
    echo "NOT RUN: bindings/c: no valgrind here, so rows, events and example ran without"
fi
check "position-independent executables, relro, now, -fcf-protection" -O2 -fPIE -pie -fcf-protection=full -Wl,-z,relro -Wl,-z,now
echo 'int main(void) { return 0; }' > "$work/empty.c"
sanitizers="-O1 -g -fsanitize=address,undefined -fno-sanitize-recover=all"
if "$cc" $sanitizers -o "$work/empty" "$work/empty.c" > "$work/empty.log" 2>&1; then
    check "address and undefined behaviour sanitizers" $sanitizers
else
    echo "NOT RUN: bindings/c: this compiler has no sanitizers, so the rows and the example in C ran without"
fi
if command -v c++ > /dev/null; then
    for program in rows events; do
        c++ -x c++ -Wall -Wextra -Werror -std=c++11 -Iinclude -c -o "$work/$program.o" "bindings/c/$program.c"
        c++ -o "$work/$program" "$work/$program.o" "$lib"
    done
    "$work/rows"
    "$work/events" 1 500 | cmp - "$work/events.1"
    echo "bindings/c: rows and events pass (C++)"
else
    echo "NOT RUN: bindings/c: no C++ compiler (c++) here, so the rows were not built as C++"
fi
if command -v python3 > /dev/null; then
    tests/libraries/header.py --probes > "$work/probes.c"
    "$cc" $flags -o "$work/probes" "$work/probes.c" "$lib"
    "$work/probes"
    echo "bindings/c: the library has the ranges, defaults and bounds that the comments of include/pie.h tell"
    "$work/example" trace | python3 -B tests/shared/reference_texts.py run | cmp - bindings/c/example.history
    echo "bindings/c: the reference computes the example's history again"
else
    echo "NOT RUN: bindings/c: no python3 here, so neither the numbers of the comments of include/pie.h nor the reference were tried"
fi
