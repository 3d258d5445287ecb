# Shared by the tests of include/pie_flight.h and include/pie_follow.h; source it in bash. `header_test NAME
# ARGUMENT..` builds tests/libraries/NAME.c as C11, C++11 and C++17 with warnings as errors, and with the
# sanitizers (that of threads if the test has some), and runs each program in a folder of its own below `$work`. It
# runs at the top of the repository, and sets `$failed` if something fails.
cd "$(dirname "$0")/../.."
cc=${CC:-cc}
cxx=${CXX:-c++}
lib=$PWD/crates/pie_c/out/libpie_c.a
warnings="-Wall -Wextra -Wconversion -Wshadow -pedantic -Werror"
work=$(mktemp -d)
trap 'rm -rf "$work"' EXIT
failed=0

# try LABEL CMD..: builds the test's object by this command, links and runs it
try() {
    local label=$1
    shift
    if ! "$@" -c -o "$work/test.o" "tests/libraries/$name.c" || ! "$@" -o "$work/test" -x none "$work/test.o" "$lib" -pthread; then
        echo "$script: $label: not built"
        failed=1
    elif ! (cd "$work" && ./test "${arguments[@]}") > "$work/said" 2>&1; then
        echo "$script: $label:"
        head -n 20 "$work/said"
        failed=1
    else
        sed "s/\$/ ($label)/" "$work/said"
    fi
}

# has FLAGS: succeeds if this compiler has these
has() {
    echo 'int main(void) { return 0; }' > "$work/empty.c"
    # shellcheck disable=SC2086
    "$cc" $1 -o "$work/empty" "$work/empty.c" > /dev/null 2>&1 && "$work/empty"
}

header_test() {
    name=$1 script=tests/libraries/$1.sh
    shift
    arguments=("$@")
    if ! command -v "$cc" > /dev/null; then
        echo "NOT RUN: $script: no C compiler ($cc) here"
        exit 0
    fi
    # shellcheck disable=SC2086
    try "C11" "$cc" -std=c11 -O2 $warnings -Iinclude
    if command -v "$cxx" > /dev/null; then
        for standard in c++11 c++17; do
            # shellcheck disable=SC2086
            try "$standard" "$cxx" -x c++ -std=$standard -O2 $warnings -Iinclude
        done
    else
        echo "NOT RUN: $script: no C++ compiler ($cxx) here"
    fi
    if has "-fsanitize=address,undefined"; then
        try "address and undefined behaviour sanitizers" "$cc" -std=c11 -O1 -g -fsanitize=address,undefined -fno-sanitize-recover=all -Iinclude
    else
        echo "NOT RUN: $script: this compiler has no address sanitizer"
    fi
    if ! grep -q pthread_create "tests/libraries/$name.c"; then
        return
    elif has "-fsanitize=thread"; then
        try "thread sanitizer" "$cc" -std=c11 -O1 -g -fsanitize=thread -Iinclude
    else
        echo "NOT RUN: $script: this compiler has no thread sanitizer"
    fi
}
