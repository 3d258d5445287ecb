#!/usr/bin/env bash
# Checks what make built: the six functions of runtime.h; the worked rows and examples by the program; worked rows and examples in C, C++, Rust and
# Python over the libraries; an audit by WebAssembly. The parts run at the same time, each in a folder of its own. A line that begins with NOT RUN names what this machine lacks.
#
# usage: [CC=COMPILER] [RUN=EMULATOR] dist/check.sh [BUILD]
#        BUILD: the folder that make built in (build); COMPILER: the one that built it (cc)
#        EMULATOR: a command that runs a program for the processor of BUILD, such as qemu-aarch64; C, the program and the links are then checked
set -eu
cd "$(dirname "$0")/.."
build=$(cd "${1:-build}" && pwd)
cc=${CC:-cc}
work=$(mktemp -d)
trap 'rm -rf "$work"' EXIT
warnings="-Wall -Wextra -Werror"
export LD_LIBRARY_PATH=$build${LD_LIBRARY_PATH:+:$LD_LIBRARY_PATH}
run=${RUN-}
pie=$build/pie
if [ -n "$run" ]; then
    # (the C library of Debian's cross compilers)
    export QEMU_LD_PREFIX=${QEMU_LD_PREFIX:-/usr/$($cc -dumpmachine)}
    pie=$work/pie
    printf '#!/bin/sh\nexec %s "%s/pie" "$@"\n' "$run" "$build" > "$pie"
    chmod +x "$pie"
fi
[ -e "$build/pie" ] || pie=''

has() {
    command -v "${1%% *}" > /dev/null
}

# is_clean HISTORY: the audit finds it clean, with all of its events. On a processor without the program, its C library's sums are compared by the tests of
# processors
is_clean() {
    local events found
    events=$(grep -c -E '^(arrive|depart|update|reset|params),' "$1")
    [ -n "$pie" ] || return 0
    found=$("$pie" audit < "$1") && [ "$found" = "clean,$events" ] || { echo "dist/check.sh: ${1##*/}: $found of $events events" >&2; return 1; }
}

# compiled FOLDER PROGRAM..: compiles programs of bindings/c to object files
compiled() {
    local folder=$1 program
    shift
    for program in "$@"; do
        # shellcheck disable=SC2086
        $cc -O1 -std=c11 $warnings -Iinclude -c -o "$folder/$program.o" "bindings/c/$program.c"
    done
}

check_program() {
    [ "$("$pie" --version)" = "pie $(sed -n 's/^#define PIE_VERSION "\(.*\)"$/\1/p' include/pie.h)" ]
    tests/program/rows.sh "$pie"
    is_clean bindings/c/example.history
}

check_examples() {
    tests/program/examples.sh "$pie"
    echo "pie: $(ls examples/*.trace | wc -l) examples"
}

check_c() {
    local library program
    # shellcheck disable=SC2086
    if [ -n "$pie" ]; then
        $cc -std=c11 -D_GNU_SOURCE $warnings -Idist -o "$1/runtime_test" dist/runtime_test.c "$build/heap.o" "$build/process.o" -Wl,--wrap=main,--wrap=open
        # (an emulator cannot start the program a second time, as it does without arguments)
        if [ -n "$run" ]; then $run "$1/runtime_test" four '' last; else "$1/runtime_test"; fi
    fi
    compiled "$1" rows traps events example
    for library in libpie_c.a libpie.so; do
        for program in rows traps events example; do
            $cc -o "$1/$program" "$1/$program.o" "$build/$library"
        done
        $run "$1/rows"
        $run "$1/traps"
        $run "$1/events" 1 500 > "$1/history"
        is_clean "$1/history"
        $run "$1/example" > "$1/history"
        cmp "$1/history" bindings/c/example.history
        echo "C: rows, traps, events and example ($library)"
    done
}

threads="$build/libpie_link.a $build/libpie_c.a -pthread"
check_threads() {
    local excerpt
    compiled "$1" ports threads
    # shellcheck disable=SC2086
    $cc -o "$1/ports" "$1/ports.o" $threads -Wl,--wrap=malloc,--wrap=realloc
    $run "$1/ports"
    # shellcheck disable=SC2086
    $cc -o "$1/threads" "$1/threads.o" $threads
    (cd "$1" && $run ./threads)
    for excerpt in 1 2 3; do
        "$pie" audit < "$1/excerpt.$excerpt" > "$1/finding"
    done
    echo "C: threads at a link"
}

check_cxx() {
    local program
    if ! has "${CXX:-c++}"; then
        echo "NOT RUN: dist/check.sh: no C++ compiler (${CXX:-c++}) here, so the rows were not built as C++"
        return
    fi
    for program in rows events; do
        # shellcheck disable=SC2086
        ${CXX:-c++} -x c++ -std=c++11 $warnings -Iinclude -c -o "$1/$program.o" "bindings/c/$program.c"
        ${CXX:-c++} -o "$1/$program" "$1/$program.o" "$build/libpie_c.a"
    done
    "$1/rows"
    "$1/events" 1 500 > "$1/history"
    is_clean "$1/history"
    # shellcheck disable=SC2086
    ${CXX:-c++} -O1 -std=c++17 $warnings -Iinclude -o "$1/ports" bindings/c/ports.cc $threads
    "$1/ports"
    echo "C++: rows, events and ports"
}

check_rust() {
    local minor
    # (rustup's cargo may be here without a toolchain)
    minor=$(rustc --version 2> /dev/null | cut -d. -f2)
    if ! has cargo || [ "${minor:-0}" -lt 82 ]; then
        echo "NOT RUN: dist/check.sh: no cargo (1.82 or later) here, so the rows were not built in Rust"
        return
    fi
    # (cc builds the library from the assembly)
    export CARGO_TARGET_DIR=$1/target CARGO_INCREMENTAL=0 CARGO_PROFILE_DEV_DEBUG=0 PIE_C_PREFIX=''
    (cd bindings/rust && cargo test --offline --locked --quiet --test rows) > "$1/said" 2>&1 || { cat "$1/said"; exit 1; }
    (cd bindings/rust && cargo run --offline --locked --quiet --features std --example recorded) > "$1/history"
    is_clean "$1/history"
    echo "Rust: rows and the recorded queue"
}

check_python() {
    local python='' it
    for it in python3 /usr/bin/python3; do
        if [ -z "$python" ] && has "$it" && "$it" -c 'import numpy' 2> /dev/null; then
            python=$it
        fi
    done
    if [ -z "$python" ]; then
        echo "NOT RUN: dist/check.sh: no python3 with numpy here, so the module was not tried"
        return
    fi
    PYTHONPATH=bindings/python/src PYTHONDONTWRITEBYTECODE=1 PIE=$pie "$python" - "$1/history" << 'END'
import sys
import juniperbowls as jb
import numpy as np

with jb.Queue(jb.Opening.for_rate("10mbit", target="5ms"), history=sys.argv[1], seed=1) as queue:
    queue.offer(np.arange(2000) * 1_000_000, 1400, "10mbit")
END
    is_clean "$1/history"
    echo "Python: a queue of 2000 arrivals"
}

check_web() {
    local engine
    if command -v xz > /dev/null; then xz -dc dist/wasm/pie.wasm.xz; else python3 -c 'import lzma, sys; sys.stdout.buffer.write(lzma.open(sys.argv[1]).read())' dist/wasm/pie.wasm.xz; fi > "$1/pie.wasm"
    if has node; then
        [ "$(node web/run.mjs "$1/pie.wasm" audit < examples/overload.history)" = clean,1033 ]
        echo 'WebAssembly: an audit in node'
        return
    fi
    for engine in chromium chromium-browser google-chrome; do
        has $engine || continue
        # (a page that ends its audit before it is loaded)
        {
            printf '<body><script>\n'
            sed 's/^export //' web/pie.js
            printf 'const bytes = (text) => Uint8Array.from(atob(text), (it) => it.charCodeAt(0));\nlet text = "";\n'
            printf 'const input = bytes("%s");\n' "$(base64 -w 0 examples/overload.history)"
            printf 'const program = new WebAssembly.Module(bytes("'
            base64 -w 0 "$1/pie.wasm"
            printf '"));\nrun(program, ["audit"], { input, write: (to, part) => (text += new TextDecoder().decode(part)) });\ndocument.body.append(text);\n</script>\n'
        } > "$1/page.html"
        $engine --headless --no-sandbox --disable-gpu --user-data-dir="$1/profile" --dump-dom "file://$1/page.html" 2> /dev/null | grep -q '>clean,1033$'
        echo "WebAssembly: an audit in $engine"
        return
    done
    echo "NOT RUN: dist/check.sh: no node and no Chromium here, so no WebAssembly was run"
}

parts="program examples c threads cxx rust python web"
if [ -z "$pie" ]; then
    echo "NOT RUN: dist/check.sh: dist/ has no program and no links for this processor, so C alone is checked"
    parts=c
elif [ -n "$run" ]; then
    parts="program examples c threads"
fi
for part in $parts; do
    mkdir "$work/$part"
    # (in a shell of its own, so that a command that fails ends the part)
    (set -e; "check_$part" "$work/$part") > "$work/$part.out" 2>&1 &
    eval "pid_$part=$!"
done
failed=''
for part in $parts; do
    pid=pid_$part
    wait "${!pid}" || failed="$failed $part"
    cat "$work/$part.out"
done
if [ -n "$failed" ]; then
    echo "make check: failed:$failed" >&2
    exit 1
fi
echo "make check: all passed"
