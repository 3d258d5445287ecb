#!/usr/bin/env bash
# Counts the system calls of the ruled lock by strace: of ten million takes and puts without another thread, and of
# four threads, one of which holds the lock for 200 milliseconds while the others wait. No clause covers system
# calls. The exit status is 1 if an uncontended lock makes any (a put that always wakes), if no waiting thread
# sleeps, or if waiting threads yield again and again.
# usage: bench/pie_lock_calls.sh TESTS     TESTS: crates/pie_library_tests/out/pie_library_tests, as the gate leaves it
set -eu
command -v strace >/dev/null || { echo "bench/pie_lock_calls.sh: NOT RUN: no strace" >&2; exit 2; }
python3 - "$@" <<'PY'
import os, re, signal, subprocess, sys

(tests,) = sys.argv[1:]
SLEEPERS = "sleepers"
# This number of calls is enough, and this number of yields is that of four waiting threads that try about 500 times
# before they sleep.
ENOUGH, FEW = 10_000, 2_500


def calls(words, until=None):
    """The calls of a program by name, until a line is written that has this text, or there are enough of them."""
    reader, writer = os.pipe()
    begun = ["strace", "-f", "-qq", "-e", "trace=futex,sched_yield,nanosleep,write", "-e", "signal=none", "-o", f"/dev/fd/{writer}", *words]
    child = subprocess.Popen(begun, pass_fds=[writer], stdout=subprocess.DEVNULL, start_new_session=True)
    os.close(writer)
    found, ended = {}, until is None
    with os.fdopen(reader) as lines:
        for line in lines:
            # A pass sleeps at the lock's futex word, which has the value 1. A joining thread waits at another word.
            call = re.search(r"(futex\(\w+, FUTEX_WAIT\w*, 1,|futex\(\w+, FUTEX_WAKE|futex|sched_yield|nanosleep|write)", line)
            if call is None or "resumed>" in line:
                continue
            name = re.sub(r"\(\w+, |(_PRIVATE)?, 1,$", " ", call[1]).strip()
            if name == "write":
                if until is not None and until in line:
                    ended = True
                    break
                continue
            found[name] = found.get(name, 0) + 1
            if until is not None and sum(found.values()) >= ENOUGH:
                break
    if until is not None:
        os.killpg(child.pid, signal.SIGKILL)
    child.wait()
    return found, ended


def told(found):
    return ", ".join(f"{count} {name}" for name, count in sorted(found.items())) or "none"


free, ended = calls([tests, "lock"], until="lock_uncontended")
print(f"10000000 takes and puts of one thread: {told(free)}" + ("" if ended else ", and then it was stopped"))
held, _ = calls([tests, SLEEPERS])
print(f"four threads, of which one holds the lock: {told(held)}")
slept, yields = held.get("futex FUTEX_WAIT", 0), held.get("sched_yield", 0)
sys.exit(not (ended and not free and slept >= 1 and yields <= FEW))
PY
