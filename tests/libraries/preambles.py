#!/usr/bin/env python3
"""Writes preambles of excerpts by the library for C, pie_write_resume, from the numbers of random histories, as they are
and with some of them changed, and compares the result with `pie audit`. A preamble of a history is written as
tests/shared/reference_resumed.py computes it. A preamble that the audit refuses is written only in the cases that
include/pie.h names: `set_by` above `count`, a moment before the opening's, statistics that contradict other numbers.

usage: tests/libraries/preambles.py [PROGRAM [SEEDS]]      PROGRAM: crates/pie/out/pie by default; SEEDS: 60
needs: library, program"""
import ctypes
import random
import subprocess
import sys
import tempfile
from collections import Counter
from pathlib import Path

TOP = Path(__file__).resolve().parents[2]
sys.path[:0] = [str(TOP / "tests/shared"), str(TOP / "tests/libraries")]
from choices import FLAGS, MODES, U64, Opening, Params, State, library  # noqa: E402
from reference import told  # noqa: E402
from reference_resumed import random_book, resumed_at  # noqa: E402
from reference_texts import text_of  # noqa: E402

ME = "tests/libraries/preambles.py"
PROGRAM = Path(sys.argv[1]).resolve() if len(sys.argv) > 1 else TOP / "crates/pie/out/pie"
SEEDS = int(sys.argv[2]) if len(sys.argv) > 2 else 60
UNKNOWN, ROOM = 2**64 - 1, 2048
NAMES = ("count set_by packets bytes moment prob old accu burst last average measuring start counted waited active "
         "arrivals enqueued marked early over_bytes over_packets left left_bytes empty updates resets changes largest_queue largest_delay sum").split()
FAULTS = ("not a number in range", "more events than the limits allow", "more packets than the ring holds", "more bytes than a queue holds",
          "a number that no controller holds", "statistics out of range")  # (of the first record)


def expect(is_so, *why):
    if not is_so:
        sys.exit(f"{ME}: {' '.join(map(str, why))}")


class Preamble:
    """The numbers of a first record, by name, and the rest of it."""

    def __init__(self, book, row):
        at = 2 + len(told(book.elements))  # the position of the mode
        self.begin, self.mode, self.limits = row[:at], row[at], row[at + 2 : at + 5]
        self.nine, self.now = row[at + 5 : at + 14], row[at + 14 : at + 23]
        self.numbers = {"opened": row[at + 1], **dict(zip(NAMES, row[at + 23 :]))}

    def row(self):
        rest = [number for name, number in self.numbers.items() if name != "opened"]
        return [*self.begin, self.mode, self.numbers["opened"], *self.limits, *self.nine, *self.now, *rest]

    def written(self, pie):
        """Returns the text that the library writes, which is empty if it refuses."""
        it, out = self.numbers, ctypes.create_string_buffer(ROOM)
        choices = sum(FLAGS.get(word, 0) for word in self.begin[2:])
        opening = Opening(Params(*self.nine), it["opened"], self.begin[1], choices, MODES.index(self.mode), *self.limits)
        state = State(Params(*self.now), it["moment"], it["prob"], it["old"], it["burst"], it["last"], it["accu"], it["average"], it["measuring"],
                      it["start"], it["counted"], self.begin[1], it["active"], choices, it["waited"])
        stats = (U64 * 16)(*(it[name] for name in NAMES[16:-1]), it["sum"] % 2**64, it["sum"] >> 64)
        set_by = UNKNOWN if it["set_by"] == "" else it["set_by"]
        arguments = [U64(number) for number in (it["count"], set_by, it["packets"], it["bytes"])]
        size = pie.pie_write_resume(ctypes.byref(opening), ctypes.byref(state), stats, *arguments, out, ctypes.c_size_t(ROOM))
        return out.raw[:size].decode()


def fault_of(text):
    """Returns the fault that the audit finds in the first record, or None."""
    done = subprocess.run([PROGRAM, "audit"], input=text, capture_output=True, text=True, check=False)
    return next((it for it in FAULTS if f"record 1: {it}" in done.stderr), None)


def change(chance, numbers):
    """Changes one number to one nearby or to any of its width."""
    name = chance.choice((*numbers, "set_by", "opened"))
    before, most = numbers[name] or 0, 2**124 if name == "sum" else 2**64 - 2
    near = (before + 1, before - 1, 0, numbers["count"] + 1, numbers["moment"] + 1, chance.getrandbits(chance.randrange(1, 64)))
    numbers[name] = min(most, max(0, chance.choice(near)))


def is_named(preamble, fault):
    """Returns true if the header names this fault, which the library does not look for."""
    it = preamble.numbers
    is_placed = (it["set_by"] == "" or it["set_by"] <= it["count"]) and it["opened"] <= it["moment"]
    return fault == "statistics out of range" if is_placed else fault == "not a number in range"


def main():
    tried = Counter()
    with tempfile.TemporaryDirectory() as folder:
        pie = library(folder)
        pie.pie_write_resume.restype = ctypes.c_size_t
        for seed in range(SEEDS):
            chance, book = random.Random(seed), random_book(seed, 60)
            for _ in range(6):
                row, *queued = resumed_at(book, chance.randrange(len(book.events) + 1), chance.random() < 0.5)
                preamble, rest = Preamble(book, row), "".join(text_of(it) for it in queued)
                expect(preamble.row() == row and preamble.written(pie) == text_of(row), "another preamble of seed", seed, row)
                expect(fault_of(text_of(row) + rest) is None, "a preamble of a history is refused, of seed", seed, row)
                for _ in range(chance.randrange(1, 3)):
                    change(chance, preamble.numbers)
                text, fault = text_of(preamble.row()), fault_of(text_of(preamble.row()) + rest)
                written = preamble.written(pie)
                expect(written in ("", text), "another text, of seed", seed, written)
                expect(fault is None or written == "" or is_named(preamble, fault), "a refused preamble is written, of seed", seed, fault, text)
                expect(fault is not None or written != "", "an accepted preamble is not written, of seed", seed, text)
                tried[fault, written != ""] += 1
    wanted = ((None, True), ("a number that no controller holds", False), ("not a number in range", True), ("statistics out of range", True))
    expect(SEEDS < 60 or all(tried[it] for it in wanted), "never tried:", tried)
    print(f"{ME}: {sum(tried.values())} changed preambles, of which {tried[None, True]} are accepted")


main()
