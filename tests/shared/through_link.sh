# Shared by scripts that send packets through the link in user space (examples/link). Source it after script.sh,
# with the names of further commands that the script needs. It sets $link, that folder with its programs built, and
# the functions of its measure.sh. Without root or /dev/net/tun the whole script runs in user-mode Linux, bench/uml.
# If a program is missing, the script ends with a line NOT RUN.
link=$top/examples/link
inside=()
if ! missing=$("$top/tests/install.sh" --check examples/link); then
    ! "$top/bench/uml/helps.sh" "$missing" || inside=("$top/bench/uml/run.sh")
fi
for command in "$@"; do
    command -v "$command" > /dev/null || missing="$missing $command" inside=()
done
if [ -n "$missing" ] && [ ${#inside[@]} = 0 ]; then
    echo "NOT RUN: $script: no packet went through the link in user space, for want of $(tr '\n' ' ' <<< "$missing")"
    exit 0
fi
if ! (cd "$top/crates/pie_c" && { [ -e out/libpie_c.a ] || rt lib; } && make -s -C "$link") > "$work/build.log" 2>&1; then
    cat "$work/build.log"
    exit 1
fi
if [ ${#inside[@]} != 0 ]; then
    echo "$script: in a Linux in a process (bench/uml), for want of $(tr '\n' ' ' <<< "$missing")"
    "${inside[@]}" "$top/$script" "$program"
    exit
fi
# shellcheck source=examples/link/measure.sh
. "$link/measure.sh"
trap 'clean_up; rm -rf "$work"' EXIT
