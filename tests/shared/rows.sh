#!/usr/bin/env bash
# Writes the files of tests/rows/worked.txt to FOLDER, and those of tests/rows/choices.txt.xz to FOLDER/choices. The
# heads of both explain their form.
# usage: tests/shared/rows.sh FOLDER
set -eu
rows=$(cd "$(dirname "$0")/../rows" && pwd)
mkdir -p "$1/choices"
choices=$1/choices.txt
if command -v xz > /dev/null; then
    xz -dc "$rows/choices.txt.xz"
else
    python3 -c 'import lzma, sys; sys.stdout.buffer.write(lzma.open(sys.argv[1]).read())' "$rows/choices.txt.xz"
fi > "$choices"
LC_ALL=C awk -v to="$1" '
    FNR == 1 { file = ""; folder = FILENAME ~ /choices/ ? to "/choices/" : to "/" }
    /^== / { if (file) close(file); file = folder $2; ends = $3 == ""; lines = 0; printf "" > file; next }
    file && ends { print > file }
    file && !ends { printf "%s%s", lines++ ? "\n" : "", $0 > file }' "$rows/worked.txt" "$choices"
rm "$choices"
