#!/usr/bin/env python3
"""Runs traces of version three through the library for C, event by event, beside a queue of this
script, and compares each answer and each `show` with the stored history: each choice of the
optional elements, in both profiles. Traces whose opening is refused are skipped.

usage: tests/libraries/choices.py [FOLDER..]      FOLDER: has NAME.trace with NAME.history, or NAME.in with NAME.out; else those of tests/rows/choices.txt.xz
needs: library"""
import ctypes
import os
import subprocess
import sys
import tempfile
from collections import deque
from pathlib import Path

ROOT = Path(__file__).resolve().parent.parent.parent
PARAMS = "target t_update max_burst alpha beta mean_pkt limit_bytes mark_ecnth dq_threshold".split()
REST = "moment prob old_delay burst last accu average measuring cycle_start cycle_count profile active choices waited".split()
ECN, VERDICTS = ["not", "ect1", "ect0", "ce"], ["enqueue", "mark", "early", "bytes", "packets"]
MODES = ["bounded", "rolling"]
FLAGS = {"stamp": 1, "random": 2, "uncapped": 4, "scaled": 8, "half": 16}
U64, U32 = ctypes.c_uint64, ctypes.c_uint32


class Params(ctypes.Structure):
    _fields_ = [(name, U64) for name in PARAMS]


class State(ctypes.Structure):
    _fields_ = [("params", Params), *((name, U64) for name in REST)]


class Opening(ctypes.Structure):
    _fields_ = [("params", Params), *((name, U64) for name in "moment profile choices mode packets tail events".split())]


class Event(ctypes.Structure):
    _fields_ = [*((name, U64) for name in "moment tag word delay prob burst".split()), ("size", U32), ("answer", U32),
                ("caller", ctypes.c_uint16), ("kind", ctypes.c_uint8), ("ecn", ctypes.c_uint8), ("reserved", U32)]


class Updated(ctypes.Structure):
    _fields_ = [(name, U64) for name in "code due delay prob burst".split()]


def library(folder):
    made = os.path.join(folder, "libpie_c.so")
    subprocess.run([os.environ.get("CC", "cc"), "-shared", "-o", made, "-Wl,--whole-archive", ROOT / "crates/pie_c/out/libpie_c.a",
                    "-Wl,--no-whole-archive"], check=True)
    pie = ctypes.CDLL(made)
    pie.pie_update.restype = Updated
    return pie


class Queue:
    """A queue of this script behind the library."""

    def __init__(self, pie, opening):
        at = 7 if opening[6] in ("zero", "half") else 6  # the position of the mode, which follows the decay if the record has it
        profile, choices, (mode, moment, packets, tail, events) = opening[1], opening[2:at], opening[at : at + 5]
        self.pie, self.state, self.packets, self.bytes = pie, State(), int(packets), 0
        self.waiting = deque()
        params = Params()
        pie.pie_default_params(ctypes.byref(params))
        if len(opening) > at + 5:
            params = Params(*map(int, opening[at + 5 :]))
        numbers = int(moment), int(profile), sum(FLAGS.get(word, 0) for word in choices), MODES.index(mode), *map(int, (packets, tail, events))
        assert self.call("open", ctypes.byref(Opening(params, *numbers))) == 0

    def call(self, name, *given):
        return getattr(self.pie, "pie_" + name)(ctypes.byref(self.state), *given)

    def arrive(self, moment, tag, size, ecn, word):
        room = self.packets - len(self.waiting)
        code = self.call("arrive", U64(self.bytes), U32(size), U32(room), U32(ECN.index(ecn)), U64(word), U64(moment))
        if code > 100:
            return code, []
        if code < 2:
            self.waiting.append((tag, size, "ce" if code == 1 else ecn, self.state.moment))
            self.bytes += size
        return 0, [VERDICTS[code]]

    def depart(self, moment):
        if not self.waiting:
            return self.call("empty", U64(moment)), ["empty"]
        tag, size, ecn, arrived = self.waiting[0]
        code = self.call("depart_waited", U32(size), U64(self.bytes - size), U64(arrived), U64(moment))
        if code == 0:
            self.waiting.popleft()
            self.bytes -= size
        return code, ["left", tag, size, ecn]

    def update(self, moment):
        made = self.call("update", U64(self.bytes), U64(moment))
        made = Updated.from_buffer_copy(made)
        return made.code, [made.delay, made.prob, made.burst]

    def show(self):
        it = self.state
        return [it.moment, len(self.waiting), self.bytes, it.prob, it.old_delay, it.accu, it.burst, it.last, it.average, it.measuring]


def differs(pie, asked, told):
    """Returns the number of the first record with another answer, or None, and the number of
    compared answers."""
    queue, compared = Queue(pie, asked[0]), 0
    for number, (command, answer) in enumerate(zip(asked, told), 1):
        if command[0] == "show":
            compared += 1
            if list(map(str, queue.show())) != answer[2:12]:
                return number, compared
            continue
        if command[0] not in ("arrive", "depart", "update", "reset", "params"):
            continue
        is_refused = answer[0] == "refused"
        if is_refused and int(answer[2]) not in (1, 2, 3, 7):
            continue  # (of the book: the caller, the event log)
        compared += 1
        moment = int(command[2])
        if command[0] == "arrive":
            code, said = queue.arrive(moment, command[3], int(command[4]), command[5], int(command[6]))
        elif command[0] == "depart":
            code, said = queue.depart(moment)
        elif command[0] == "update":
            code, said = queue.update(moment)
        elif command[0] == "reset":
            code, said = queue.call("reset", U64(moment)), ["done"]
        else:
            code, said = queue.call("set_params", ctypes.byref(Params(*map(int, command[3:]))), U64(moment)), ["done"]
        wanted = 100 + int(answer[2]) if is_refused else 0
        if code != wanted or not is_refused and list(map(str, said)) != answer[len(answer) - len(said):]:
            return number, compared
    return None, compared


def rows(folder):
    for trace in sorted([*folder.glob("*.trace"), *folder.glob("*.in")]):
        history = trace.with_suffix(".history" if trace.suffix == ".trace" else ".out")
        asked = [line.split(",") for line in trace.read_text().splitlines()]
        if history.exists() and asked and asked[0][0] == "open3":
            told = [line.split(",") for line in history.read_text().splitlines()]
            if told:
                yield trace, asked, told


def main():
    folders = [Path(it) for it in sys.argv[1:]] or []
    with tempfile.TemporaryDirectory() as work:
        pie = library(work)
        if not folders:
            subprocess.run([ROOT / "tests/shared/rows.sh", work], check=True)
            folders = [Path(work) / "choices"]
        count = answers = 0
        for folder in folders:
            for trace, asked, told in rows(folder):
                number, compared = differs(pie, asked, told)
                if number is not None:
                    sys.exit(f"tests/libraries/choices.py: {trace}: record {number}: {asked[number - 1]}, stored {told[number - 1]}")
                count, answers = count + 1, answers + compared
    if count == 0:
        print(f"NOT RUN: tests/libraries/choices.py: no traces of version three in {', '.join(map(str, folders))}")
    else:
        print(f"tests/libraries/choices.py: the library answers {count} traces as their histories have it ({answers} answers)")


if __name__ == "__main__":
    main()
