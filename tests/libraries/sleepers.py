#!/usr/bin/env python3
"""Shows that a turn that waited for the ruled lock wakes a sleeping thread. Runs `pie_library_tests sleepers` under strace until a run has both
calls: a futex wait for a word, and a futex wake of a thread at the same word. Three threads have the lock for 200 ms each, one after another. On a
loaded machine a waiting thread may still yield after 200 ms, so strace lengthens these times from run to run. No clause states the effect of
`RuledLock::wake`. The type `WakeDue` makes each such turn call it.

usage: tests/libraries/sleepers.py [PROGRAM]      PROGRAM: crates/pie_library_tests/out/pie_library_tests by default
needs: pie_library_tests"""
import os
import re
import shutil
import subprocess
import sys
import tempfile

sys.path.insert(0, f"{os.path.dirname(os.path.abspath(__file__))}/../shared")
from checks import NAME, ROOT, check, finish  # noqa: E402

PROGRAM = os.path.abspath(sys.argv[1]) if sys.argv[1:] else f"{ROOT}/crates/pie_library_tests/out/pie_library_tests"
# The lock's word is 1 while a thread may sleep there. The threads of a runtime sleep at other words.
WAITS, WAKES = (re.compile(rf"futex\((0x\w+), FUTEX_{call}\w*, 1[,)]") for call in ("WAIT", "WAKE"))
# by which strace lengthens each 200 ms, in the order of the runs
SECONDS = (0, 0, 1, 5, 25)


def is_woken(log, seconds):
    """Runs the program, and returns true if a thread was woken at a word at which a thread waited. Each hold takes `seconds` longer."""
    longer = ["-e", f"inject=clock_nanosleep:delay_exit={seconds}s"] if seconds else []
    done = subprocess.run(["strace", "-f", "--seccomp-bpf", "-qq", "-e", "trace=futex,clock_nanosleep", *longer, "-e", "signal=none", "-o", log, PROGRAM,
        "sleepers"], capture_output=True, text=True, timeout=600, check=False)
    check((done.returncode, done.stderr) == (0, ""), done.returncode, done.stderr)
    with open(log) as lines:
        text = lines.read()
    return bool({*WAITS.findall(text)} & {*WAKES.findall(text)})


def main():
    if not shutil.which("strace") or subprocess.run(["strace", "-qq", "-o", "/dev/null", "true"], capture_output=True, check=False).returncode:
        print(f"NOT RUN: {NAME}: strace is not installed, or may not trace a program")
        return
    with tempfile.TemporaryDirectory() as folder:
        check(any(is_woken(f"{folder}/log", seconds) for seconds in SECONDS), f"no thread was woken in {len(SECONDS)} runs")
    finish()


main()
