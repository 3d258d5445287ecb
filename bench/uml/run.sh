#!/usr/bin/env bash
# Runs a command as root in a Linux of its own: Debian's user-mode-linux, an ordinary process over this machine's files. It has namespaces, TUN, and
# queue disciplines of its own modules, whatever the kernel here has and whoever calls it; files are read and written with the caller's leave.
# The command runs in this folder, with its output and its exit status handed on, and no input. TMPDIR is in that Linux's memory.
#
# usage: bench/uml/run.sh COMMAND [WORDS..]
#   UML_MEMORY   its memory, 1024M where it isn't set; UML_SECONDS: it is ended after so many, 3600. Status 125 where it didn't come to an end.
#   UML_LINUX    another Linux than Debian's: what build.sh made, whose time passes only while all its processes wait; in real time if UML_TIME=real.
#                If it isn't set and the processor has AMX, with which Debian's can't run, build.sh's of the user's cache runs in real time
set -u
here=$(cd "$(dirname "$0")" && pwd)
if [ $# = 0 ] || [ "$1" = --help ]; then
    sed -n '2,9s/^# \{0,1\}//p' "$0"
    [ "${1:-}" = --help ]
    exit
fi
if ! missing=$("$here/install.sh" --check); then
    printf '%s\n' "$missing" "$0: the above is missing, so nothing was run; bench/uml/install.sh installs what Debian has of it" >&2
    exit 125
fi
state=$(mktemp -d)
linux=
end() {
    [ -z "$linux" ] || kill -TERM "$linux" 2> /dev/null
    wait
    rm -rf "$state"
}
trap end EXIT
trap 'exit 130' INT
trap 'exit 143' TERM HUP
touch "$state/out" "$state/err"
{
    printf 'cd %q\nexport PATH=%q:/usr/sbin:/sbin HOME=%q IN_USER_MODE_LINUX=1' "$PWD" "$PATH" "${HOME:-/}"
    [ -z "${LINK_FAMILY:-}" ] || printf ' LINK_FAMILY=%q' "$LINK_FAMILY"
    printf '\nexec'
    printf ' %q' "$@"
    echo
} > "$state/command"
if [ -z "${UML_LINUX:-}" ] && grep -qw amx_tile /proc/cpuinfo; then
    UML_LINUX=$("$here/build.sh" --kept 2> "$state/built") || { cat "$state/built" >&2; exit 125; }
    UML_TIME=real
fi
# (one in real time goes before other work of the machine, so that it is woken in time; one whose time is simulated can wait)
linux_program=${UML_LINUX:-linux.uml} words=() before=
if [ -n "${UML_LINUX:-}" ] && [ "${UML_TIME:-}" != real ]; then
    # (its processes run one at a time, and switch faster on one processor)
    words=(time-travel=inf-cpu) before="taskset --cpu-list $(awk '{ print $39 }' /proc/self/stat)"
elif nice -n -15 true 2> /dev/null && [ "$(id -u)" = 0 ]; then
    before='nice -n -15'
fi
# shellcheck disable=SC2086
$before timeout --kill-after=5 "${UML_SECONDS:-3600}" "$linux_program" "${words[@]}" "mem=${UML_MEMORY:-1024M}" \
    root=/dev/root rootfstype=hostfs rootflags=/ rw "init=$here/boot.sh" "STATE=$state" "uml_dir=$state" con=null con0=null,fd:1 quiet \
    > "$state/kernel" 2>&1 < /dev/null &
linux=$!
tail --quiet --bytes=+1 --sleep-interval=0.2 --follow --pid="$linux" "$state/out" &
tail --quiet --bytes=+1 --sleep-interval=0.2 --follow --pid="$linux" "$state/err" >&2 &
wait
linux=
if [ ! -s "$state/status" ]; then
    echo "$0: the Linux in a process did not come to an end of $1; what its kernel said:" >&2
    tail -n 40 "$state/kernel" >&2
    exit 125
fi
exit "$(cat "$state/status")"
