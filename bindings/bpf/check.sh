#!/usr/bin/env bash
# Builds pie-qdisc and its BPF programs without warnings, and runs it without a queue: --version prints the version of pie.h, and wrong words and options are
# refused before a program is loaded. A kernel before Linux 6.16 is named at attach and when the package is installed. The completion for bash offers the
# words of the usage. boot.sh runs it with a kernel.
#
# usage: bindings/bpf/check.sh
# needs: nothing
set -eu
cd "$(dirname "$0")/../.."
me=bindings/bpf/check.sh
for program in clang-19 bpftool; do
    PATH=$PATH:/usr/sbin command -v $program > /dev/null || { echo "NOT RUN: $me: no $program here (tests/install.sh bindings/bpf)"; exit 0; }
done
[ -e /usr/include/bpf/libbpf.h ] || { echo "NOT RUN: $me: no libbpf here (tests/install.sh bindings/bpf)"; exit 0; }
work=$(mktemp -d)
trap 'rm -rf "$work"' EXIT
make -s -C bindings/bpf OUT="$work" CLANG='clang-19 -Werror' CFLAGS='-O2 -Werror' 2> "$work/warnings" || { cat "$work/warnings" >&2; exit 1; }
if [ -s "$work/warnings" ]; then
    cat "$work/warnings" >&2
    exit 1
fi
version=$(sed -n 's/^#define PIE_VERSION "\(.*\)"$/\1/p' include/pie.h)
[ "$("$work/pie-qdisc" --version)" = "pie-qdisc $version" ] || { echo "$me: another version than $version" >&2; exit 1; }

# refuses STATUS TEXT WORD..: pie-qdisc with these words fails with this status, and its first line has this text
refuses() {
    local status=$1 text=$2 found=0
    shift 2
    "$work/pie-qdisc" --pins "$work/pins" "$@" > "$work/refusal" 2>&1 || found=$?
    if [ "$found" != "$status" ] || [ "$(head -n 1 "$work/refusal")" != "$text" ]; then
        echo "$me: $*: status $found, $(head -n 1 "$work/refusal")" >&2
        exit 1
    fi
}
usage='usage: pie-qdisc attach DEV [mq | parent MAJOR:MINOR] [fq] [option..]'
refuses 2 "$usage"
refuses 2 "$usage" attach
refuses 2 "$usage" attach lo parent 8
refuses 2 "$usage" removes lo
refuses 2 "$usage" record lo --ring
refuses 1 'pie-qdisc: no_such_device: No such device' attach no_such_device
refuses 1 'pie-qdisc: option limits: there is no such option' attach lo limits 10
refuses 1 'pie-qdisc: limit: its value is missing' attach lo limit
refuses 1 'pie-qdisc: limit 4097: not a number of packets from 1 to 4096' attach lo limit 4097
refuses 1 'pie-qdisc: limit 0: not a number of packets from 1 to 4096' attach lo limit 0
refuses 1 'pie-qdisc: rate 20: refused: not a number with a unit of the expected kind' attach lo rate 20
refuses 1 'pie-qdisc: rate 7999bit: below 8kbit' attach lo rate 7999bit
refuses 1 'pie-qdisc: alpha 16001: not a number in range' attach lo alpha 16001
refuses 1 'pie-qdisc: beta 2x: not a number in range' attach lo beta 2x
refuses 1 'pie-qdisc: overhead -257: not a number in range' attach lo overhead -257
refuses 1 'pie-qdisc: flows 10: the queue has no flows' attach lo flows 10
refuses 1 'pie-qdisc: quantum 1514b: the queue has no flows' attach lo quantum 1514b fq
refuses 1 'pie-qdisc: flows 1025: not a number of flows from 1 to 1024' attach lo fq flows 1025
refuses 1 'pie-qdisc: quantum 255b: not a size from 256b to 1048576b' attach lo fq quantum 255b
refuses 1 'pie-qdisc: option target: its value is out of range' attach lo target 20s
refuses 1 'pie-qdisc: option dq_threshold: its value is out of range' attach lo dq_threshold 3000b
for command in show "change lo" "record lo" "detach lo"; do
    # shellcheck disable=SC2086
    refuses 1 "pie-qdisc: no queue is attached ($work/pins/queues: No such file or directory)" $command
done
# The note of the package at its installation, by kernels before and since Linux 6.16
noted() {
    printf '#!/bin/sh\necho %s\n' "$1" > "$work/uname"
    chmod +x "$work/uname"
    PATH=$work:$PATH sh debian/juniperbowls-qdisc.postinst configure 2>&1
}
for kernel in 5.10.0-33-amd64 6.1.0-57-amd64 6.12.117+deb13-amd64 6.15.9; do
    [ "$(noted "$kernel" | head -n 1)" = "juniperbowls-qdisc: pie-qdisc needs Linux 6.16 or later, and this is Linux $kernel." ] ||
        { echo "$me: no note of the package about Linux $kernel" >&2; exit 1; }
done
for kernel in 6.16.0 6.16.12+deb14-amd64 6.18.44 7.3.4+deb13-amd64 10.0.1; do
    [ -z "$(noted "$kernel")" ] || { echo "$me: a note of the package about Linux $kernel" >&2; exit 1; }
done
# pie-qdisc names an old kernel that does not load its programs: setarch calls this kernel Linux 2.6, and the user nobody may load none.
chmod 755 "$work"
as_nobody=
[ "$(id -u)" != 0 ] || as_nobody='setpriv --reuid 65534 --regid 65534 --clear-groups'
# shellcheck disable=SC2086
refuse=$($as_nobody setarch --uname-2.6 "$work/pie-qdisc" --pins "$work/pins" attach lo 2>&1) || true
wanted="pie-qdisc: Linux $(setarch --uname-2.6 uname -r) has no BPF queue disciplines: they need Linux 6.16 or later. juniperbowls-dkms has a module for older kernels"
[ "$refuse" = "$wanted" ] || { echo "$me: with an old kernel: $refuse" >&2; exit 1; }
# completed WORD..: prints what the completion offers after these words
completed() {
    # shellcheck disable=SC2016
    bash -c '. completions/pie-qdisc.bash; COMP_WORDS=(pie-qdisc "$@" "") COMP_CWORD=$(($# + 1)); _pie_qdisc; printf "%s\n" "${COMPREPLY[@]}"' completion "$@" | sort
}
"$work/pie-qdisc" > "$work/usage" 2>&1 || true
# offers WANTED WORD..: the completion after these words is WANTED
offers() {
    [ "$(completed "${@:2}")" = "$1" ] || { echo "$me: the completion after ${*:2} is $(completed "${@:2}" | xargs), and not $(xargs <<< "$1")" >&2; exit 1; }
}
options=$(sed -n '/^options:/,$p' "$work/usage" | grep -o '\[ [a-z_]*' | cut -c3-)
offers "$({ echo "$options"; printf '%s\n' fq mq parent; } | sort)" attach lo
offers "$({ sed -n '/^options:/,/flows/p' "$work/usage" | grep -o '\[ [a-z_]*' | cut -c3- | grep -vx 'limit\|flows'; echo parent; } | sort)" change lo
offers "$({ sed -n 's/^.*pie-qdisc \([a-z]*\).*/\1/p' "$work/usage"; printf '%s\n' --pins --version; } | sort)"
offers "$(sed -n 's/^.*pie-qdisc record DEV//p' "$work/usage" | grep -o -e '\[[a-z-]*' | tr -d '[' | sort)" record lo
echo "$me: pie-qdisc $version builds without warnings, and refuses wrong words and old kernels"
