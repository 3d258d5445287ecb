#!/usr/bin/env bash
# Builds a wheel of the Python module, installs it into a folder of its own, and runs its tests: worked traces by
# single calls and as arrays, errors, histories that `pie audit` must find clean, frames compared with the output of
# `pie explain`, the notebook. mypy checks its types. Prints a line NOT RUN for a missing program.
# needs: library, program
set -eu
cd "$(dirname "$0")/../.."
work=$(mktemp -d)
trap 'rm -rf "$work"' EXIT

not_run() {
    echo "NOT RUN: bindings/python: $1"
}

# has PYTHON MODULE..: succeeds if it has these modules
has() {
    local python=$1
    shift
    command -v "$python" > /dev/null &&
        "$python" -c 'import importlib.util, sys; sys.exit(any(importlib.util.find_spec(it) is None for it in sys.argv[1:]))' "$@"
}

python=
for name in python3 /usr/bin/python3; do
    if [ -z "$python" ] && has "$name" numpy pandas pytest setuptools wheel pip; then
        python=$name
    fi
done
if [ -z "$python" ] || ! command -v "${CC:-cc}" > /dev/null; then
    not_run "no Python 3 with numpy, pandas, pytest, setuptools, wheel and pip, or no C compiler here, so the module was not built"
    exit 0
fi
bindings/c/library.py > /dev/null
# (the code that was just proved, and not dist/, which may be older)
export PIE_C_S=$PWD/crates/pie_c/out/pie_c.S PIE_LINK_C_S=$PWD/crates/pie_link_c/out/pie_link_c.S
export PIE=$PWD/crates/pie/out/pie PIP_DISABLE_PIP_VERSION_CHECK=1 PIP_NO_INDEX=1 PIP_ROOT_USER_ACTION=ignore MPLBACKEND=Agg
"$python" -m pip wheel --quiet --no-build-isolation --no-deps --wheel-dir "$work/wheel" bindings/python > "$work/said" 2>&1 || {
    cat "$work/said"
    exit 1
}
wheel=$(echo "$work"/wheel/*.whl)
case $wheel in
    */juniperbowls-*-py3-none-linux_*.whl) ;;
    *) echo "bindings/python/check.sh: the wheel is named $wheel" && exit 1 ;;
esac
"$python" -m pip install --quiet --no-deps --target "$work/installed" "$wheel"
for file in libpie.so.0 py.typed LICENSE-MIT; do
    [ -e "$work/installed/juniperbowls/$file" ] || { echo "bindings/python/check.sh: the wheel has no $file" && exit 1; }
done
# a source distribution, with nothing of the repository in reach, makes the same library
mkdir -p "$work/source"
(cd bindings/python && "$python" setup.py -q sdist --dist-dir "$work/source") > "$work/said" 2>&1 || {
    cat "$work/said"
    exit 1
}
(cd "$work/source" && env -u PIE_C_S -u PIE_LINK_C_S "$python" -m pip wheel --quiet --no-build-isolation --no-deps --wheel-dir . ./juniperbowls-*.tar.gz) > "$work/said" 2>&1 || {
    cat "$work/said"
    exit 1
}
export PYTHONPATH=$work/installed PYTHONDONTWRITEBYTECODE=1
words=(-q -p no:cacheprovider)
if ! has "$python" matplotlib; then
    not_run "no matplotlib here, so examples/notebook.py was not run"
    words+=(--ignore bindings/python/tests/test_notebook.py)
fi
has "$python" pyarrow || not_run "no pyarrow here, so no frame was written as Parquet"
"$python" -m pytest "${words[@]}" bindings/python/tests > "$work/said" 2>&1 || {
    cat "$work/said"
    exit 1
}
sed -n 's/^[0-9]* passed/bindings\/python: &/p' "$work/said"
# without the library in the wheel the system's is taken
mkdir "$work/system"
mv "$work/installed/juniperbowls/libpie.so.0" "$work/system"
if "$python" -c 'import juniperbowls' 2> /dev/null; then
    not_run "a libpie.so.0 is installed here, so none that is missing was looked for"
fi
LD_LIBRARY_PATH=$work/system "$python" -c 'import juniperbowls; juniperbowls.Controller(juniperbowls.Opening.for_rate("1mbit"))'
if has "$python" mypy; then
    (cd bindings/python/src && "$python" -m mypy --config-file ../pyproject.toml --cache-dir "$work/mypy" juniperbowls > "$work/said") || {
        cat "$work/said"
        exit 1
    }
    echo "bindings/python: mypy finds no fault in its types"
else
    not_run "no mypy here, so the module's types were not read"
fi
