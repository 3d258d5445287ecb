#!/usr/bin/env bash
# Checks docs/bounds.svg with runs of this program: docs/bounds.py must draw the same picture, and
# find each run inside its bound.
# usage: tests/program/bounds.sh [PROGRAM]      PROGRAM: crates/pie/out/pie by default
# needs: program
. "$(dirname "$0")/../shared/script.sh"
"$top/docs/bounds.py" "$program" --check
