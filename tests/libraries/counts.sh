#!/usr/bin/env bash
# Compares the instructions of each kind of call of the library for C with bench/pie_c_count.txt
# (bench/pie_c_count.sh). No kind may take over 2 per cent more. The counts do not depend on the
# load.
#
# usage: tests/libraries/counts.sh
# needs: library
set -eu
cd "$(dirname "$0")/../.."
bindings/c/library.py > /dev/null
bindings/c/library.py pie_link_c > /dev/null
exec bench/pie_c_count.sh --within 2
