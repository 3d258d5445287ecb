#!/usr/bin/env python3
"""Compares `pie explain --from` and `--to` with the effective moments in the records of `pie
explain --all --csv`: for each history of examples/, and for random ones by
tests/shared/reference.py, the chosen events within some moments, with moments in each notation.
Texts that are no moments must be refused. The exit status is 1 if something differs.

usage: tests/program/moments.py [PROGRAM [FIRST_SEED [RUNS [STEPS]]]]      PROGRAM: crates/pie/out/pie by default
needs: program
"""
import os
import sys
from itertools import compress

sys.path.insert(0, f"{os.path.dirname(os.path.abspath(__file__))}/../shared")
from checks import expect  # noqa: E402
from explaining import LOST, hold_each, pie, records, within  # noqa: E402


def hold(name, history, words):
    lines, rows, moments = records(name, history)
    for options, kept in within(moments, words):
        for which, verdicts in (("--all", None), ("--lost", LOST), ("--marked", ("mark",))):
            chosen = [line for line, row in compress(zip(lines[1:], rows), kept) if verdicts is None or row["verdict"] in verdicts]
            expect(f"{name}: {which} --csv {options}", pie(history, *options, "--csv", which), (0, lines[0] + "".join(chosen), ""))


def rows_of_moments():
    """Texts that are moments, and texts that are none."""
    history = "open,0,4,16,100\nreset,1,1500000,done\nreset,1,2000000000,done\n"
    for text in ("1500000 1500000ns 1500us 1.5ms 1.500000ms 0.0015s 00.0015s 0001500.000us .0015s 1.5000000000ms 1500000.000 1.5MS 1500Usecs "
                 "1500usec 1.5msecs 1.5msec 0.0015sec 0.0015Secs 1500000nsec 1500000nsecs").split():
        status, out, errors = pie(history, "--all", "--from", text, "--to", text)
        expect(f"--from {text}", (status, out.split(":")[0], errors), (0, "event 1", ""))
    form = "pie: --from: a moment must be a whole number of nanoseconds, or a number with ns, us, ms, s, m or h, such as 1.5ms or 2m\n"
    for text in ["", "s", ".", ".s", "5.s", "1 s", "+1", "-1", "1e3", "0x1", "1.5.5s", "1,5s", "1min", "1mm", "1hour", "1secss", "ms1", "1bit", "1.5e3ns"]:
        expect(f"--from {text!r}", pie(history, "--all", f"--from={text}"), (1, "", form))
    fine = "pie: --from: a moment must be a whole number of nanoseconds\n"
    for text in ["1.5", "1.5ns", ".1", "1.0000000001s", "1.0000000000000000000s"]:
        expect(f"--from {text!r}", pie(history, "--all", f"--from={text}"), (1, "", fine))
    late = "pie: --to: a moment must be at most 1152921504606846975 ns\n"
    for text in ["1152921504606846976", "1152921504.606846976s", "18446744073709551617", "320256h", "99999999999999999999999999s",
                 "340282366920938463463374607431768211456.5s"]:
        expect(f"--to {text}", pie(history, "--all", "--to", text), (1, "", late))
    for text in ["1152921504606846975", "1152921504.606846975s", "320255h"]:
        expect(f"--to {text}", pie(history, "--all", "--to", text)[0], 0)
    later = "open,0,4,16,100\nreset,1,90000000000,done\n"
    for text in ["1.5m", "1.5M", "0.025h", ".025H", "90s"]:
        expect(f"--from {text}", pie(later, "--all", "--from", text, "--to", text)[1][:7], "event 1")
    none = "pie: no chosen event is at the moments that are wanted\n"
    expect("an event that is not within", pie(history, "--event", "1", "--from", "2ms"), (1, "", none))
    expect("no event within", pie(history, "--all", "--from", "3s"), (0, "", ""))


def main():
    rows_of_moments()
    hold_each(hold, "the events within are explained, and no others")


main()
