#!/usr/bin/env bash
# Builds pie-watch and its BPF programs without warnings, also without the libraries of `serve` and `top`, and runs it without root: --version prints the
# version of pie.h, and a device that does not exist and wrong options are refused in one line. The manual page and the completion have the options of the
# help. boot.sh records a kernel's queues.
#
# usage: bindings/linux/check.sh
# needs: nothing
set -eu
cd "$(dirname "$0")/../.."
me=bindings/linux/check.sh
for program in clang bpftool; do
    PATH=$PATH:/usr/sbin command -v $program > /dev/null || { echo "NOT RUN: $me: no $program here (bindings/linux/install.sh)"; exit 0; }
done
[ -e /usr/include/microhttpd.h ] || { echo "NOT RUN: $me: no libmicrohttpd here (bindings/linux/install.sh)"; exit 0; }
[ -e /usr/include/ncurses.h ] || { echo "NOT RUN: $me: no ncurses here (bindings/linux/install.sh)"; exit 0; }
[ -e /usr/include/bpf/libbpf.h ] || { echo "NOT RUN: $me: no libbpf here (bindings/linux/install.sh)"; exit 0; }
work=$(mktemp -d)
trap 'rm -rf "$work"' EXIT
make -s -C bindings/linux OUT="$work" CFLAGS='-O2 -Werror' 2> "$work/warnings" || { cat "$work/warnings" >&2; exit 1; }
if [ -s "$work/warnings" ]; then
    cat "$work/warnings" >&2
    exit 1
fi
version=$(sed -n 's/^#define PIE_VERSION "\(.*\)"$/\1/p' include/pie.h)
[ "$("$work/pie-watch" --version)" = "pie-watch $version" ] || { echo "$me: another version than $version" >&2; exit 1; }

diff <("$work/pie-watch" --help | grep -o -e '--[a-z-]*' | sort -u) <(sed -n '/^[.]SH OPTIONS/,/^[.]SH PRIV/s/\\-/-/gp' man/pie-watch.1 | grep -o -e '--[a-z-]*' | sort -u) ||
    { echo "$me: man/pie-watch.1 has other options than pie-watch --help" >&2; exit 1; }

# refuses TEXT WORD..: pie-watch with these words prints one line with this text, and writes no file
refuses() {
    local text=$1
    shift
    if "$work/pie-watch" "$@" 2> "$work/refusal" || ! grep -q -e "$text" "$work/refusal" || [ "$(wc -l < "$work/refusal")" != 1 ] || [ -e "$work/steps.csv" ]; then
        echo "$me: $*: $(cat "$work/refusal")" >&2
        exit 1
    fi
}
refuses 'a size of at least 64kb, such as 64mb: 65535b' --rotate 65535b -o "$work/steps.csv" lo
refuses 'a size of at least 64kb, such as 64mb: 64k' --rotate 64k -o "$work/steps.csv" lo
refuses '--rotate needs -o FILE' --rotate 64kb lo
refuses '--segments needs --rotate' --segments 2 -o "$work/steps.csv" lo
touch "$work/steps.csv.07"
refuses 'steps.csv.07: the file exists' --rotate 64kb -o "$work/steps.csv" lo
refuses '--resume-every is a number of seconds from 1 on: 0' --resume-every 0 lo
refuses '--duration is a number of seconds from 1 on: 0' --duration 0 lo
for trigger in 'wait > 50' 'wait > 0ms' 'wait > 5xs' 'wait > 5ms ' 'wait > -1s' waits; do
    refuses "--trigger is drop, or a time such as 'wait > 50ms': $trigger\$" --trigger "$trigger" lo
done
refuses '--after is a number of seconds from 1 on: 0' --after 0 lo
refuses 'no such device' --trigger 'wait > 50ms' no_such_device
refuses 'no such device' no_such_device -o "$work/steps.csv"
printf 'pie-watch steps1' > "$work/old.steps"
refuses 'another version of pie-watch wrote this file' text "$work/old.steps"
# the beginning of a record is left out
printf 'pie-watch steps2%012d' 0 > "$work/cut.steps"
status=0
"$work/pie-watch" text "$work/cut.steps" > "$work/cut.csv" 2> "$work/left" || status=$?
[ $status = 2 ] && [ "$(wc -l < "$work/cut.csv")" = 1 ] && grep -q 'the last record is not complete, and left out' "$work/left" ||
    { echo "$me: cut.steps: status $status, $(cat "$work/left")" >&2; exit 1; }
# packets that the kernel dropped in lost steps, by its counters: 5, one that is recorded, and 9 after 7 lost steps
python3 - > "$work/gap.steps" << 'END'
import struct, sys
QUEUE, LOST, RESUME, ENQUEUE = 1, 2, 4, 8
def head(kind, seq, counts=0):
    return struct.pack("<QIIHHBBBB", 1000 + seq, seq, 0xffffffff, 0, 0, kind, 0, 1 if counts else 0, counts)
def resume(seq, dropped):
    return head(RESUME, seq) + bytes(64) + struct.pack("<Q7I", 234375, 4, 2, 20, 1000, 1514, 0, 0) + struct.pack("<5I", 0, dropped, 0, 0, 0) + bytes(16)
sys.stdout.buffer.write(b"pie-watch steps2" + head(QUEUE, 0) + struct.pack("<Q4IQ16s", 4096, 0, 3, 1 << 16, 0xffffffff, 0, b"eth0") + resume(0, 5) +
                        head(ENQUEUE, 1, 2) + bytes(136) + head(LOST, 2) + bytes(36) + struct.pack("<I", 7) + resume(9, 9))
END
status=0
"$work/pie-watch" text "$work/gap.steps" > "$work/gap.csv" 2> "$work/lost" || status=$?
[ $status = 2 ] && [ "$(wc -l < "$work/gap.csv")" = 5 ] && grep -q 'gap.steps: 7 steps were lost, in which the kernel dropped 3 packets$' "$work/lost" ||
    { echo "$me: gap.steps: status $status, $(cat "$work/lost")" >&2; exit 1; }

# without libraries, the subcommands say so
make -s -C bindings/linux OUT="$work/small" HTTP= CURSES= CFLAGS='-O1 -Werror'
for words in 'serve :9464:libmicrohttpd' 'top:ncurses'; do
    # shellcheck disable=SC2086
    if "$work/small/pie-watch" ${words%:*} 2> "$work/lacking" || ! grep -q "without ${words##*:}" "$work/lacking"; then
        echo "$me: ${words%:*} without a library: $(cat "$work/lacking")" >&2
        exit 1
    fi
done
refuses 'an address is missing' serve
refuses 'no address and port, such as :9464' serve 9464
refuses 'top needs a terminal' top
for words in '--drops --compact lo' '--drops --rotate 1mb -o f lo' '--drops --trigger drop lo' 'serve :9464 --duration 2' 'top -o f' '--namespaces lo' \
    '--no-addresses lo' '--labels f lo' '--most 5 lo' '--drops' '--drops --all lo' 'top --drops' 'serve :9464 lo lo' '--most 0 lo' '--drops --resume-every 5 lo'; do
    # shellcheck disable=SC2086
    refuses "$(case $words in *lo\ lo) echo one device ;; --drops | *--all*) echo a device, or ;; *-most\ 0*) echo from 1 on ;; *) echo '--' ;; esac)" $words
done
# the completion offers the options of the help
# shellcheck source=../../completions/pie-watch.bash
. completions/pie-watch.bash
COMP_WORDS=(pie-watch --) COMP_CWORD=1
_pie_watch
printf '%s\n' "${COMPREPLY[@]}" > "$work/completed"
for subcommand in serve top; do
    COMP_WORDS=(pie-watch $subcommand --) COMP_CWORD=2
    _pie_watch
    printf '%s\n' "${COMPREPLY[@]}" >> "$work/completed"
done
diff <(sort -u "$work/completed") <("$work/pie-watch" --help | grep -o -e '--[a-z-]*' | sort -u) || { echo "$me: the completion has other options" >&2; exit 1; }
echo "$me: pie-watch $version builds without warnings, and refuses: $(cat "$work/refusal")"
