#!/usr/bin/env python3
"""Makes each allocation, each write and each start of a thread of a storm fail in turn, once and from there on
(tests/shared/refuse.c). The threads of a storm wait a third of a second or more for a missing thread before they
continue.

usage: tests/program/refused_storms.py [PROGRAM]      PROGRAM: crates/pie/out/pie by default
needs: program, an early start"""
import errno
import os
import sys
import tempfile

sys.path.insert(0, f"{os.path.dirname(os.path.abspath(__file__))}/../shared")
from checks import NAME, check, finish, refusing  # noqa: E402
from running import MEMORY, ONCE_AND_ON, STEP, in_turn, run, write_fault  # noqa: E402

THREAD = b"pie: a thread could not be started\n"


def is_clean(history):
    """Returns true if the whole lines of a storm's output are a history, or if there are none."""
    lines = history.splitlines(keepends=True)
    whole = [line for line in lines if line.endswith(b"\n")]
    return not whole or run(["audit"], b"".join(whole))[:2] == (0, b"clean,%d\n" % (len(whole) - 1))


def storm_refused(library, met):
    """Makes each allocation, each write and each start of a thread fail. The storm must end with its fault, or with
    a clean history if it did not need the failed call. Its output before a fault must be a beginning of a history,
    and no thread may continue."""
    few, many = ["storm", "--senders", "3", "--packets", "4"], ["storm", "--senders", "3", "--packets", "500"]
    rows = [("REFUSE_MEMORY", [MEMORY, THREAD], few, {}), ("REFUSE_THREAD", [THREAD], few, {}),
            # (long enough for several writes; and short, some bytes at a time)
            ("REFUSE_WRITE", [write_fault(errno.EIO)], many, {}), ("REFUSE_WRITE", [write_fault(errno.EIO)], ["storm", "--senders", "2", "--packets", "1"], {"REFUSE_STEP": str(STEP)})]
    for variable, says, words, more in rows:
        for on in ONCE_AND_ON:
            for place, (status, output, errors), is_refused in in_turn(library, met, words, b"", variable, on, REFUSE_ALONE="1", **more):
                is_done = status == 0 and not errors and output.endswith(b"\n")
                # (a list that grows asks once more, for less)
                may_do_without = not is_refused or variable == "REFUSE_MEMORY" and not on
                check(status == 1 and errors in says and is_refused or is_done and may_do_without, "storm", variable, place, on, status, errors[:100])
                check(is_clean(output), "storm", variable, place, on, "wrote no beginning of a history")
            check(place > 1, "storm:", variable, "met nothing")
            check(place == 8 or variable != "REFUSE_THREAD", "storm: seven threads are started, not", place - 1)
            print(f"{NAME}: storm: {variable} at {place - 1} places{' and all after them' if on else ''}")


def main():
    with tempfile.TemporaryDirectory() as room:
        library = refusing(room, "memory, write or start of a thread")
        if library:
            storm_refused(library, f"{room}/met")
    finish()


main()
