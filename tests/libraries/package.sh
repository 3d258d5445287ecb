#!/usr/bin/env bash
# Uses the library and the program as a package: `make install` into a temporary folder. From an empty folder it
# builds and runs the example of docs/LIBRARY.md, by pkg-config, in C11 and C++17 with warnings as errors, and by CMake; and a
# Rust program that depends on bindings/rust. It installs below DESTDIR as packagers do, and uninstalls. Then it makes
# the archive, unpacks it elsewhere, and uses program and library without the toolchain. The libraries are those of
# the proved crates, the program that of dist/. Prints a line NOT RUN for a missing tool.
# usage: tests/libraries/package.sh
# needs: library
set -eu
cd "$(dirname "$0")/../.."
repository=$PWD
work=$(mktemp -d)
trap 'rm -rf "$work"' EXIT
warnings="-Wall -Wextra -Wconversion -Wshadow -pedantic -Werror"
wanted="done (arrival: queue the packet); the next update is due at 30000000 ns"

not_run() {
    echo "NOT RUN: tests/libraries/package.sh: $1"
}

fail() {
    echo "tests/libraries/package.sh: $1" >&2
    exit 1
}

# expect NAME WANTED CMD..: a command that prints this line
expect() {
    local name=$1 line=$2 found
    shift 2
    found=$("$@") || fail "$name ended with status $?"
    [ "$found" = "$line" ] || fail "$name printed '$found'"
    echo "tests/libraries/package.sh: $name runs"
}

for program in "${CC:-cc}" make; do
    if ! command -v "$program" > /dev/null; then
        not_run "no $program here, so nothing was installed"
        exit 0
    fi
done
version=$(sed -n 's/^#define PIE_VERSION "\(.*\)"$/\1/p' include/pie.h)
bindings/c/library.py > /dev/null
export PIE_C_S=$PWD/crates/pie_c/out/pie_c.S PIE_LINK_C_S=$PWD/crates/pie_link_c/out/pie_link_c.S BUILD=$work/build
prefix=$work/prefix
make -s all
make -s install PREFIX="$prefix" > "$work/installed"
while read -r file; do
    [ -s "$file" ] || fail "$file was not installed"
done < "$work/installed"
mkdir "$work/empty"

# the example in C of docs/LIBRARY.md: the block that includes pie.h
awk '/^    #include "pie.h"/ {inside = 1} inside && /^[^ ]/ {exit} inside {sub(/^    /, ""); print}' docs/LIBRARY.md > "$work/empty/example.c"
grep -q pie_update "$work/empty/example.c" || fail "docs/LIBRARY.md has no example in C"
export PKG_CONFIG_PATH=$prefix/lib/pkgconfig
if ! command -v pkg-config > /dev/null; then
    not_run "no pkg-config here, so nothing was built over the installed library"
else
    expect "pkg-config --modversion" "$version" pkg-config --modversion pie_c
    for compiler in "${CC:-cc} -std=c11" "${CXX:-c++} -x c++ -std=c++17"; do
        if ! command -v "${compiler%% *}" > /dev/null; then
            not_run "no ${compiler%% *} here, so the example of docs/LIBRARY.md was not built by it"
            continue
        fi
        # shellcheck disable=SC2046,SC2086
        (cd "$work/empty" && $compiler $warnings $(pkg-config --cflags pie_c) -c -o example.o example.c &&
            ${compiler%% *} -o example example.o $(pkg-config --libs pie_c)) || fail "$compiler does not build the example of docs/LIBRARY.md"
        expect "the example of docs/LIBRARY.md by $compiler" "$wanted" "$work/empty/example"
        # shellcheck disable=SC2046,SC2086
        (cd "$work/empty" && $compiler $warnings $(pkg-config --cflags pie_c) -c -o follow.o "$repository/tests/libraries/follow.c") ||
            fail "$compiler does not build a program over pie_follow.h and pie_text.h"
    done
    # shellcheck disable=SC2046
    (cd "$work/empty" && "${CC:-cc}" $(pkg-config --cflags pie) -o example example.c $(pkg-config --libs pie)) ||
        fail "the example of docs/LIBRARY.md is not built over libpie.so"
    expect "the example of docs/LIBRARY.md over libpie.so" "$wanted" env LD_LIBRARY_PATH="$prefix/lib" "$work/empty/example"
    # the calls of a link are in the shared library too
    # shellcheck disable=SC2046
    "${CC:-cc}" -std=c11 $(pkg-config --cflags pie) -o "$work/empty/threads" bindings/c/threads.c $(pkg-config --libs pie) ||
        fail "bindings/c/threads.c is not built over libpie.so"
fi
if command -v cmake > /dev/null; then
    cat > "$work/empty/CMakeLists.txt" << 'END'
cmake_minimum_required(VERSION 3.18)
project(example C)
find_package(juniperbowls 0.1 REQUIRED)
foreach(library pie pie_c pie_link)
    add_executable(example_${library} example.c)
    target_link_libraries(example_${library} juniperbowls::${library})
endforeach()
END
    cmake -S "$work/empty" -B "$work/cmake" -DCMAKE_PREFIX_PATH="$prefix" > "$work/said" && cmake --build "$work/cmake" > "$work/said" ||
        fail "CMake does not build the example of docs/LIBRARY.md: $(cat "$work/said")"
    for library in pie pie_c pie_link; do
        expect "the example of docs/LIBRARY.md by CMake over juniperbowls::$library" "$wanted" "$work/cmake/example_$library"
    done
    sed -i 's/juniperbowls 0.1/juniperbowls 99/' "$work/empty/CMakeLists.txt"
    if cmake -S "$work/empty" -B "$work/cmake99" -DCMAKE_PREFIX_PATH="$prefix" > "$work/said" 2>&1; then
        fail "CMake takes version $version for 99"
    fi
else
    not_run "no cmake here, so nothing was built by CMake over the installed library"
fi

# a program in Rust that depends on the crate, over the installed library, and over what the crate itself contains; the package has the assembly
if command -v cargo > /dev/null && [ "$(rustc --version | cut -d. -f2)" -ge 82 ]; then
    mkdir -p "$work/program/src"
    make -s crate
    mv "$work/build/crate" "$work/juniperbowls"
    printf '%s\n' '[package]' 'name = "program"' 'version = "0.1.0"' 'edition = "2021"' '[dependencies]' \
        'juniperbowls = { path = "../juniperbowls" }' > "$work/program/Cargo.toml"
    printf '%s\n' 'fn main() -> Result<(), Box<dyn std::error::Error>> {' \
        '    let mut opening = juniperbowls::Opening::for_rate(100_000_000);' '    opening.moment = 5;' \
        '    let pie = juniperbowls::State::open(&opening)?;' \
        '    println!("{} {}", juniperbowls::VERSION, pie.due());' '    Ok(())' '}' > "$work/program/src/main.rs"
    expect "a Rust program over PIE_C_PREFIX" "$version 15000005" env PIE_C_PREFIX="$prefix" CARGO_TARGET_DIR="$work/target" \
        cargo run --quiet --offline --manifest-path "$work/program/Cargo.toml"
    expect "a Rust program over the crate's assembly" "$version 15000005" env -u PIE_C_PREFIX CARGO_TARGET_DIR="$work/target" \
        cargo run --quiet --offline --manifest-path "$work/program/Cargo.toml"
    if PIE_C_PREFIX="$work/empty" CARGO_TARGET_DIR="$work/target" cargo run --quiet --offline \
        --manifest-path "$work/program/Cargo.toml" 2> "$work/refused" > /dev/null; then
        fail "a Rust program was built over a prefix without the library"
    fi
    grep -q "no libpie_c.a is in its folders" "$work/refused" || fail "cargo does not say that the library is missing: $(cat "$work/refused")"
    cargo package --offline --allow-dirty --list --manifest-path "$work/juniperbowls/Cargo.toml" > "$work/listed" 2> "$work/said"
    for file in x86_64/pie_c.S x86_64/pie_link_c.S aarch64/pie_c.S mipsel/pie_c.S heap.c runtime.h; do
        grep -qx "assembly/$file" "$work/listed" || fail "the package for cargo has no assembly/$file"
    done
else
    not_run "no cargo (1.82 or later) here, so no Rust program was built over the installed library"
fi

# below DESTDIR, as packagers do: the same files, and the pkg-config file names the prefix alone; uninstalling leaves no file
make -s install DESTDIR="$work/stage" PREFIX=/usr LIBDIR=/usr/lib/x86_64-linux-gnu > /dev/null
(cd "$work/stage/usr" && find . ! -type d | sed 's|/x86_64-linux-gnu||' | sort) > "$work/staged"
(cd "$prefix" && find . ! -type d | sort) | diff - "$work/staged" || fail "other files below DESTDIR"
grep -qx "prefix=/usr" "$work/stage/usr/lib/x86_64-linux-gnu/pkgconfig/pie_c.pc" || fail "the pkg-config file below DESTDIR names another prefix"
# shellcheck disable=SC2016
grep -qx 'libdir=${prefix}/lib/x86_64-linux-gnu' "$work/stage/usr/lib/x86_64-linux-gnu/pkgconfig/pie_c.pc" || fail "the pkg-config file names another folder"
make -s uninstall DESTDIR="$work/stage" PREFIX=/usr LIBDIR=/usr/lib/x86_64-linux-gnu > /dev/null
[ -z "$(find "$work/stage" ! -type d)" ] || fail "make uninstall leaves $(find "$work/stage" ! -type d)"

expect "the installed program" "pie $version" "$prefix/bin/pie" --version
"$prefix/bin/pie-report" --pie "$prefix/bin/pie" -o "$work/page.html" "$repository/examples/burst.history" || fail "the installed pie-report makes no page"
"$prefix/bin/pie" explain --every 100ms --csv "$repository/examples/burst.history" > "$work/records.csv"
"$prefix/bin/pie-metrics" "$work/records.csv" | grep -q '^pie_arrived_packets_total{link="records",queue="0"} 99$' ||
    fail "the installed pie-metrics writes other metrics"
PATH=$prefix/bin:$PATH "$prefix/lib/wireshark/extcap/pie-extcap" --capture --fifo "$work/arrivals.pcapng" --once --history "$repository/examples/burst.history" &&
    [ "$(grep -a -o 'verdict=' "$work/arrivals.pcapng" | wc -l)" = 99 ] || fail "the installed pie-extcap captures no arrivals"
# README's own command
command=$(sed -n 's|^    \(make install PREFIX="$HOME[^ ]*\).*|\1|p' README.md)
[ -n "$command" ] || fail "README has no command that installs"
HOME=$work/home bash -c "$command" > "$work/installed" || fail "README's command does not install: $command"
grep -qx "$work/home/.local/bin/pie" "$work/installed" || fail "README's command installs no program"

# the archive, unpacked elsewhere: it needs only libc of Debian 12 or earlier, and pkg-config prints no path of this
# machine
make -s archive > /dev/null && mv "$work/build/juniperbowls-$version.tar.gz" "$work/pie.tar.gz" && make -s archive > /dev/null || fail "no archive is made"
cmp "$work/pie.tar.gz" "$work/build/juniperbowls-$version.tar.gz" || fail "two archives of the same files differ"
mkdir "$work/elsewhere" && tar -xf "$work/pie.tar.gz" -C "$work/elsewhere"
unpacked=$work/elsewhere/juniperbowls-$version
bare() {
    env -i PATH=/usr/bin:/bin HOME=/nonexistent "$@"
}
only='^(linux-vdso\.so\.1|libc\.so\.6|libm\.so\.6|/lib64/ld-linux-x86-64\.so\.2|statically|not)$'
for file in "$unpacked/bin/pie" "$unpacked"/lib/libpie.so; do
    needed=$(bare ldd "$file" 2>&1 | awk '{ print $1 }' | grep -v -E "$only" || true)
    [ -z "$needed" ] || fail "$(basename "$file") of the archive needs $needed"
    newest=$(grep -a -o 'GLIBC_2\.[0-9]*' "$file" | sort -V | tail -n 1)
    [ "$(printf '%s\n' "${newest:-GLIBC_2.0}" GLIBC_2.36 | sort -V | tail -n 1)" = GLIBC_2.36 ] ||
        fail "$(basename "$file") of the archive needs $newest"
done
events=$(grep -c -E '^(arrive|depart|update|reset|params),' examples/burst.history)
expect "an audit by the program of the archive" "clean,$events" bare "$unpacked/bin/pie" audit < examples/burst.history
if command -v pkg-config > /dev/null; then
    for library in pie_c pie; do
        # shellcheck disable=SC2046
        (cd "$work/empty" && export PKG_CONFIG_PATH=$unpacked/lib/pkgconfig && bare cc -o example example.c \
            $(pkg-config --cflags --libs $library)) || fail "the example of docs/LIBRARY.md is not built over $library of the archive"
        expect "the example of docs/LIBRARY.md over $library of the archive" "$wanted" env LD_LIBRARY_PATH="$unpacked/lib" "$work/empty/example"
    done
fi
