#!/usr/bin/env python3
"""Makes random sequences of the library's calls with events, in each of the sixteen choices and
both profiles, and compares them with tests/shared/reference.py: the text of each event must be the
reference's record, and the registers must be the reference's. `pie audit` must find the whole text
clean, and must report each of many events with one changed byte in its answer.

usage: tests/libraries/events.py [PIE [SEED [STEPS]]]      PIE: crates/pie/out/pie by default
needs: program, library, an early start"""
import ctypes
import random
import subprocess
import sys
import tempfile
from collections import Counter, deque
from itertools import product
from pathlib import Path

sys.dont_write_bytecode = True
ROOT = Path(__file__).resolve().parent.parent.parent
sys.path[:0] = [str(ROOT / "tests/shared"), str(ROOT / "tests/libraries")]
import choices  # noqa: E402
import reference  # noqa: E402
from choices import ECN, U32, U64, Event, Opening, Params, State  # noqa: E402

ME = "tests/libraries/events.py"
PIE = sys.argv[1] if len(sys.argv) > 1 else ROOT / "crates/pie/out/pie"
SEED = int(sys.argv[2]) if len(sys.argv) > 2 else 1
STEPS = int(sys.argv[3]) if len(sys.argv) > 3 else 120
PACKETS, START, ROOM, CHANGES = 7, 5, 256, 24
ARRIVE, DEPART, UPDATE, PARAMS = 1, 2, 3, 5
# for each kind of event, the fields that the call or the queue fills in
ANSWERED = {ARRIVE: ["answer", "kind"], DEPART: ["tag", "size", "ecn", "answer", "kind"], UPDATE: ["delay", "prob", "burst", "answer", "kind"]}


class Queue:
    """The caller's queue, with the library in front of it and each event in a list."""

    def __init__(self, pie, profile, flags):
        self.pie, self.state, self.waiting, self.bytes, self.events = pie, State(), deque(), 0, []
        self.params = Params(*reference.PROFILES[0])
        opening = Opening(self.params, START, profile, flags, 0, PACKETS, 1024, 2**20)
        assert pie.pie_open(self.ref(self.state), self.ref(opening)) == 0
        self.opening = self.text("opening", self.ref(opening))

    def ref(self, it):
        return ctypes.byref(it)

    def text(self, name, *given):
        out = (ctypes.c_ubyte * ROOM)()
        count = getattr(self.pie, "pie_write_" + name)(*given, out, ctypes.c_size_t(ROOM))
        return bytes(out[:count]).decode()

    def call(self, name, event, *given):
        code = getattr(self.pie, f"pie_{name}_event")(self.ref(self.state), *given, self.ref(event))
        assert code == event.answer
        return code

    def step(self, caller, command):
        """Makes the call with an event whose result fields contain other bytes. Returns the event
        and its parameters."""
        kind, moment = command[:2]
        rubbish = {name: 0xAA for name in ("delay", "prob", "burst", "answer", "kind", "reserved")}
        event, params = Event(moment=moment, caller=caller, **rubbish), None
        if kind == "arrive":
            _, _, event.tag, event.size, ecn, event.word = command
            event.ecn = ECN.index(ecn)
            if self.call("arrive", event, U64(self.bytes), U32(PACKETS - len(self.waiting))) < 2:
                self.waiting.append((event.tag, event.size, 3 if event.answer == 1 else event.ecn, self.state.moment))
                self.bytes += event.size
        elif kind == "depart" and not self.waiting:
            self.call("empty", event)
        elif kind == "depart":
            event.tag, event.size, event.ecn, arrived = self.waiting[0]
            if self.call("depart", event, U64(self.bytes - event.size), U64(arrived)) == 0:
                self.waiting.popleft()
                self.bytes -= event.size
        elif kind == "update":
            self.call("update", event, U64(self.bytes))
        elif kind == "reset":
            self.call("reset", event)
        else:
            params = Params(*command[2])
            self.call("set_params", event, self.ref(params))
        self.events.append((event, params))

    def record(self, number, event, params):
        """Returns the text of an event. `number` is the number that its record would have."""
        if event.answer > 100:
            return self.text("refused", U64(number), U32(event.answer))
        if event.kind == PARAMS:
            return self.text("params", self.ref(event), self.ref(params or self.params))
        return self.text("event", self.ref(event))

    def registers(self, count):
        it = self.state
        before = (count, it.moment, len(self.waiting), self.bytes, it.prob, it.old_delay, it.accu, it.burst)
        return (*before, it.last, it.average, it.measuring, it.active)


def fail(why):
    sys.exit(f"{ME}: {why}")


def run_beside(pie, profile, elements, seed):
    """Runs the reference at random, and the library beside it. Returns the queue with its events and their records."""
    words = list(reference.ELEMENTS.values())
    flags = sum(1 << place for place, word in enumerate(elements) if word != words[place][0])
    _, run = reference.random_run(seed, STEPS, PACKETS, 2**20, 2**20, False, True, profile, elements)
    queue, records = Queue(pie, profile, flags), []
    told, count = 1, 0
    for caller, step, answer, registers, _ in run:
        if step[0] == "fold":
            continue
        told += 1
        queue.step(caller, step)
        records.append(queue.record(told, *queue.events[-1]))
        wanted = ",".join(map(str, reference.history_of(reference.record_of(caller, step), told, answer))) + "\n"
        count += answer[0] not in reference.CODES
        if records[-1] != wanted:
            fail(f"profile {profile}, {elements}, seed {seed}: '{records[-1].strip()}', and the reference has '{wanted.strip()}'")
        if queue.registers(count) != registers:
            fail(f"profile {profile}, {elements}, seed {seed}, record {told}: {queue.registers(count)}, and the reference has {registers}")
    return queue, records, count


def audit(text, work):
    (work / "history").write_text(text)
    done = subprocess.run([PIE, "audit"], stdin=open(work / "history", "rb"), capture_output=True, text=True, check=False)
    return done.stdout.strip() or done.stderr.strip()


def is_found(queue, records, number, words, count, work):
    """Returns true if an event with one changed byte of its answer cannot be written, or is found by the audit."""
    event, params = queue.events[number]
    changed = Event.from_buffer_copy(event)
    place = getattr(Event, words.choice(ANSWERED.get(event.kind, ["answer", "kind"])))
    at = place.offset + words.randrange(place.size)
    view = (ctypes.c_ubyte * ctypes.sizeof(changed)).from_buffer(changed)
    view[at] ^= words.randrange(1, 256)
    text = queue.record(number + 2, changed, params)
    if text == "":
        return "not written"
    found = audit(queue.opening + "".join(records[:number]) + text + "".join(records[number + 1 :]), work)
    return False if found == f"clean,{count}" else "differs" if found.startswith("differs") else "fault" if found.startswith("pie:") else "shorter"


def main():
    made, changes, answers = 0, Counter(), Counter()
    with tempfile.TemporaryDirectory() as folder:
        work = Path(folder)
        pie = choices.library(work)
        for name in "event params opening refused lost".split():
            getattr(pie, "pie_write_" + name).restype = ctypes.c_size_t
        for number, (profile, elements) in enumerate(product((1, 2), product(*reference.ELEMENTS.values()))):
            queue, records, count = run_beside(pie, profile, elements, SEED * 64 + number)
            found = audit(queue.opening + "".join(records), work)
            if found != f"clean,{count}":
                fail(f"profile {profile}, {elements}: {found} of {count} events")
            words = random.Random(SEED * 64 + number)
            judged = [i for i, (event, _) in enumerate(queue.events) if event.answer <= 100]
            for chosen in words.sample(judged, CHANGES):
                found = is_found(queue, records, chosen, words, count, work)
                if not found:
                    fail(f"profile {profile}, {elements}: a changed byte of event {chosen} isn't found: {records[chosen]}")
                changes[found] += 1
            made += len(records)
            answers.update((event.kind, event.answer) for event, _ in queue.events)
    wanted = {(1, it) for it in range(5)} | {(1, 101), (1, 102), (2, 0), (2, 5), (3, 0), (3, 103), (4, 0), (5, 0)}
    if not wanted <= set(answers):
        fail(f"not tried: {sorted(wanted - set(answers))}")
    if changes["differs"] < 100:
        fail(f"too few changes that an audit has to find: {dict(changes)}")
    print(f"{ME}: {made} records of 32 random runs are the reference's, and their texts clean; of changed bytes the audit finds "
          f"{changes['differs'] + changes['fault'] + changes['shorter']}, and {changes['not written']} can't be written")


main()
