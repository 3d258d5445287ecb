# Shared by the bash scripts; source it. It sets $top, the repository; $here, the script's folder; $script, its
# name; $program, the first argument or the program that the repository built; $failed; and $work, a folder that is
# removed at the end.
set -u
here=$(cd "$(dirname "$0")" && pwd)
top=$(cd "$here/../.." && pwd)
script=${here#"$top/"}/$(basename "$0")
program=$(realpath -m "${1:-$top/crates/pie/out/pie}")
work=$(mktemp -d)
trap 'rm -rf "$work"' EXIT
failed=0

# fail WORDS..: prints an error, and continues
fail() {
    echo "$script: $*"
    failed=1
}
