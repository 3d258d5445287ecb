#!/usr/bin/env bash
# Measures a million arrivals to a link of 100 Mbit/s at 8 per cent overload: from numpy arrays by `Queue.offer`
# (bindings/python), and by the same loop in a C program (bench/pie_python.c). The two take turns, each with new
# memory. Prints the least and the median processor time for an event. The exit status is 1 if the answers differ.
# usage: bench/pie_python.sh [RUNS]     9; after `rt lib` in crates/pie_c. tests/install.sh bindings/python installs what it takes
set -eu
. "$(dirname "$0")/shared.sh"
cd "$here/.."
python=python3
"$python" -c 'import numpy, setuptools, wheel, pip' 2> /dev/null || python=/usr/bin/python3
"$python" -m pip wheel --quiet --no-index --no-build-isolation --no-deps --wheel-dir "$work" bindings/python 2> /dev/null
"$python" -m pip install --quiet --no-index --no-deps --root-user-action ignore --target "$work/installed" "$work"/*.whl
"${CC:-cc}" -O2 -std=gnu11 -Iinclude -Ibindings/python/native -o "$work/pie_python" bench/pie_python.c "$work/installed/juniperbowls/libpie.so.0" \
    -Wl,-rpath,"$work/installed/juniperbowls"
for _ in $(seq "${1:-9}"); do
    PYTHONPATH=$work/installed "$python" bench/pie_python.py "$work/arrivals"
    "$work/pie_python" "$work/arrivals"
done > "$work/lines"
"$python" bench/ratios.py "$work/lines" offer_python/offer_c answers_python/answers_c events_python
