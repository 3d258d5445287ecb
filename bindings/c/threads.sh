#!/usr/bin/env bash
# Runs several threads at one link by include/pie_link.h, with and without the thread sanitizer:
#
# - the example in C (threads.c);
# - the tests of the calls (ports.c, and ports.cc for the C++ classes), also with the address sanitizer, which finds
#   memory that a closed port or excerpt keeps;
# - a crowd of four and of eight threads (crowd.c), for two seconds each, or for a minute with --long.
#
# The folded events and the excerpts of the example and the crowd are audited. In the crowd's history each caller's
# calls must occur once and in order. C and C++ are also compiled with more warnings, and linked together with -flto.
# usage: bindings/c/threads.sh [--long] [PROGRAM]      PROGRAM: crates/pie/out/pie by default
# needs: library, program
set -euo pipefail
cd "$(dirname "$0")/../.."
seconds=2
[ "${1-}" != --long ] || { seconds=60; shift; }
program=${1:-crates/pie/out/pie}
cc=${CC:-cc}
if ! command -v "$cc" > /dev/null; then
    echo "NOT RUN: bindings/c/threads.sh: no C compiler ($cc) here, so no threads were at a link"
    exit 0
fi
work=$(mktemp -d)
trap 'rm -rf "$work"' EXIT
if ! bindings/c/library.py pie_link_c > "$work/lib.log" 2>&1; then
    cat "$work/lib.log"
    exit 1
fi
libs="crates/pie_link_c/out/libpie_link_c.a crates/pie_c/out/libpie_c.a"

# is_clean TEXT NAME: audits a text, and sets found to the number of its last event
is_clean() {
    found=$("$program" audit < "$1") || { echo "bindings/c/threads.sh: $2 is not clean: $found"; exit 1; }
    found=${found#clean,}
}

# crowd THREADS NAME: reads and audits the folded events of the crowd while they are written
crowd() {
    local found excerpt
    mkfifo "$work/text"
    "$work/crowd" read "$1" "$work/sums" < "$work/text" > "$work/read" &
    found=$("$work/crowd" run "$1" $seconds "$work/sums" 2> "$work/busy" | tee "$work/text" | "$program" audit) || { cat "$work/busy"; exit 1; }
    wait $!
    rm "$work/text"
    if [ "$found" != "clean,$(cut -d' ' -f1 "$work/read")" ]; then
        echo "bindings/c/threads.sh: what a crowd of $1 threads folded is not clean: $found of $(cat "$work/read") ($2)"
        exit 1
    fi
    for excerpt in "$work/sums".*; do
        is_clean "$excerpt" "excerpt ${excerpt##*.} of a crowd of $1 threads ($2)"
    done
    echo "bindings/c: a crowd of $1 threads for $seconds seconds, one of them cancelled: clean, and $(ls "$work/sums".* | wc -l) excerpts;" \
        "$(cat "$work/read"); $(cat "$work/busy") ($2)"
}

check() {
    local name=$1 found excerpt record
    shift
    # shellcheck disable=SC2086
    "$cc" -Wall -Wextra -Werror -std=c11 -Iinclude "$@" -o "$work/threads" bindings/c/threads.c $libs -pthread
    # shellcheck disable=SC2086
    "$cc" -Wall -Wextra -Werror -std=c11 -Iinclude "$@" -o "$work/ports" bindings/c/ports.c $libs -pthread -Wl,--wrap=malloc,--wrap=realloc
    "$work/ports"
    # shellcheck disable=SC2086
    "$cc" -Wall -Wextra -Werror -std=c11 -Iinclude "$@" -o "$work/crowd" bindings/c/crowd.c $libs -pthread
    crowd 4 "$name"
    crowd 8 "$name"
    (cd "$work" && ./threads)
    # (on a slow machine the log may drop events between two folds: the history must be clean up to
    # that line)
    sed '/^lost,/,$d' "$work/history" > "$work/followed"
    is_clean "$work/followed" "the example's history ($name)"
    [ "$found" != 0 ] || { echo "bindings/c/threads.sh: the example's history has no event ($name)"; exit 1; }
    for excerpt in 1 2 3; do
        is_clean "$work/excerpt.$excerpt" "the example's excerpt $excerpt ($name)"
    done
    # both senders' packets must be there, and some departures (a single excerpt may lack them if a
    # thread had no processor for a while)
    for record in ^arrive,2, ^arrive,3, '^depart,1,.*,left,'; do
        grep -q "$record" "$work"/excerpt.[123] || { echo "bindings/c/threads.sh: the example's excerpts lack $record"; exit 1; }
    done
    echo "bindings/c: two senders, a link and a reader: 3 excerpts clean, the last up to event $found ($name)"
}

export TSAN_OPTIONS="suppressions=$PWD/bindings/c/thread_sanitizer.txt"
check "plain" -O2
echo 'int main(void) { return 0; }' > "$work/empty.c"
if "$cc" -fsanitize=thread -o "$work/empty" "$work/empty.c" > "$work/empty.log" 2>&1 && "$work/empty" > "$work/empty.log" 2>&1; then
    check "thread sanitizer" -O1 -g -fsanitize=thread
else
    echo "NOT RUN: bindings/c/threads.sh: this compiler has no thread sanitizer that runs here"
fi
# memory that is left after a port or an excerpt was closed
printf '%s\n' '#include <stdlib.h>' 'void *volatile kept;' 'int main(void) { kept = malloc(8); kept = 0; return 0; }' > "$work/leaks.c"
if "$cc" -fsanitize=address -o "$work/leaks" "$work/leaks.c" > "$work/leaks.log" 2>&1 && ! "$work/leaks" > "$work/leaks.log" 2>&1 &&
    grep -q 'detected memory leaks' "$work/leaks.log"; then
    # shellcheck disable=SC2086
    "$cc" -Wall -Wextra -Werror -std=c11 -Iinclude -O1 -g -fsanitize=address,undefined -o "$work/ports" bindings/c/ports.c $libs -pthread \
        -Wl,--wrap=malloc,--wrap=realloc
    "$work/ports"
    echo "bindings/c: ports pass, and leave no memory (address sanitizer)"
else
    echo "NOT RUN: bindings/c/threads.sh: this compiler has no address sanitizer that finds leaks here"
fi
if command -v c++ > /dev/null; then
    # shellcheck disable=SC2086
    c++ -x c++ -Wall -Wextra -Werror -std=c++11 -Iinclude -c -o "$work/ports.o" bindings/c/ports.c
    # shellcheck disable=SC2086
    c++ -o "$work/ports" "$work/ports.o" $libs -pthread -Wl,--wrap=malloc,--wrap=realloc
    "$work/ports"
    for version in 11 17; do
        # shellcheck disable=SC2086
        c++ -Wall -Wextra -Wconversion -Wshadow -pedantic -Werror -std=c++$version -O2 -Iinclude -o "$work/ports" bindings/c/ports.cc $libs -pthread
        "$work/ports"
    done
    # with the additional warnings of a builder; and C and C++ compiled and linked together
    "$cc" -Wall -Wextra -Wcast-qual -Wredundant-decls -Wshadow -Wconversion -Werror -std=gnu11 -Iinclude -include pie_link.h -fsyntax-only -x c /dev/null
    c++ -Wall -Wextra -Wcast-qual -Wredundant-decls -Wold-style-cast -Werror -std=c++11 -Iinclude -include pie_link.h -fsyntax-only -x c++ /dev/null
    printf '%s\n' '#include "pie_link.h"' 'uint32_t opened(struct pie_port *port);' 'uint32_t opened(struct pie_port *port) {' \
        '    struct pie_opening opening;' '    pie_link_default_opening(&opening, 1000000);' '    return pie_link_open(&opening, 1, port);' '}' > "$work/one.c"
    printf '%s\n' '#include "pie_link.h"' 'extern "C" uint32_t opened(pie_port *port);' 'int main() {' '    pie_port port = PIE_PORT_CLOSED;' \
        '    return opened(&port) != PIE_DONE || pie_link_close(&port) != PIE_DONE;' '}' > "$work/two.cc"
    "$cc" -Wall -Wextra -Werror -std=c11 -O2 -flto -Iinclude -c -o "$work/one.o" "$work/one.c"
    c++ -Wall -Wextra -Werror -std=c++11 -O2 -flto -Iinclude -c -o "$work/two.o" "$work/two.cc"
    # shellcheck disable=SC2086
    c++ -Wall -Wextra -Werror -O2 -flto -o "$work/both" "$work/one.o" "$work/two.o" $libs -pthread
    "$work/both"
    echo "bindings/c: ports pass (C++), alone and with C"
fi
