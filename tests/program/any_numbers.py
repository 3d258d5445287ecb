#!/usr/bin/env python3
"""Tests excerpts with arbitrary numbers, also those that no history reaches: random preambles
over each number's whole range, with random commands behind them. tests/shared/reference_resumed.py
decides from the numbers alone.

- `pie run` of an excerpt must write the reference's history, whose audit is clean.
- `pie explain --all` must list each event once, in order, with the numbers before and after it, the cause of each
  verdict, and the last event that set the probability.
- A cut must audit clean and be explained as the whole, and a run of its commands must write it again. Segments must
  follow each other. Sums must be those of the events.
- If one answer is changed, audit, explanation, cut and segments must all end at this event. The audit and the explanation must give its right record.
- If a preamble is refused, all commands must refuse it with the same words. A preamble whose statistics agree with its
  other numbers must never be refused for them.

usage: tests/program/any_numbers.py [PROGRAM [FIRST_SEED [RUNS]]]      PROGRAM: crates/pie/out/pie by default
needs: program
"""
import random
import sys
import tempfile
from collections import Counter
from pathlib import Path

sys.path.insert(0, str(Path(__file__).resolve().parents[1] / "shared"))
from checks import check, finish  # noqa: E402
from excerpts import audited, explained, rows_within, segments_of  # noqa: E402
from reference import PROFILES, elements_of, history_of, told  # noqa: E402
from reference_resumed import begun  # noqa: E402
from reference_texts import Fault, bad_parameter, error_of, request, text_of  # noqa: E402
from running import run  # noqa: E402

FIRST, RUNS = ([int(word) for word in sys.argv[2:4]] + [1, 120][len(sys.argv[2:4]) :])[:2]
COMMANDS, LATEST, WORDS = 30, 2**60 - 1, 2**64 - 1
RANGES = ((2, 10**10), (1, 10**10), (0, 10**12), (0, 10**6), (0, 10**6), (1, 65535), (1, 2**30), (0, 10**12))
DEFAULTS = (15_000_000, 15_000_000, 150_000_000, 125, 1250, 1024, 262_144, 10**11, 16_384)
EVENTS = ("arrive", "depart", "update", "reset", "params")
tried = Counter()


# ----- The numbers of a preamble

def some(chance, least, most):
    """Returns a number of this range: an end of it, a small one, or one of any length."""
    kind = chance.randrange(8)
    if kind < 2:
        return (least, most)[kind]
    drawn = chance.randrange(1000) if kind == 2 else chance.getrandbits(chance.randrange(1, max(2, most.bit_length() + 1)))
    return max(least, min(most, drawn))


def nine(chance):
    kind = chance.randrange(6)
    if kind < 3:
        return (DEFAULTS, (*DEFAULTS[:6], 2**30, *DEFAULTS[7:]), chance.choice(PROFILES))[kind]
    return (*(some(chance, *each) for each in RANGES), 2 ** chance.randrange(10, 17))


def packets_of(chance, moment):
    """Returns the queued packets, oldest first."""
    sinces = sorted(some(chance, 0, moment) for _ in range(chance.choice((0, 1, 2, 3, 8, 20))))
    return [["queued", some(chance, 0, WORDS), some(chance, 1, 65535), chance.choice(("not", "ect1", "ect0", "ce")), since] for since in sinces]


def agreeing(chance, waiting, moment, old, dropped_most):
    """Returns fifteen statistics for a history with this number of events that ends with these
    packets in its queue."""
    left = some(chance, 0, 2**30)
    queued = left + len(waiting)
    marked = some(chance, 0, queued)
    drops = [some(chance, 0, dropped_most) for _ in range(3)]
    rest = [some(chance, 0, 2**30) for _ in range(4)]  # (empty, updates, resets, changes)
    rest[1] = max(rest[1], int(old > 0))
    size = sum(it[2] for it in waiting)
    stats = [queued + sum(drops), queued - marked, marked, *drops, left, some(chance, left, 65535 * left), *rest,
             some(chance, size, 2**30), some(chance, old, 2**40) if rest[1] else 0, left * some(chance, 0, moment)]
    return stats, stats[0] + left + sum(rest)


def preamble(chance, agrees):
    """Returns the records before the first event. The statistics agree with each other, or each is of its own range."""
    moment, first, now = some(chance, 0, chance.choice((2**50, 2**50, LATEST))), nine(chance), nine(chance)
    profile, elements = chance.choice((1, 2)), elements_of(chance.randrange(32))
    waiting, old = packets_of(chance, moment), some(chance, 0, 2**40)
    stats, count = agreeing(chance, waiting, moment, old, 2**30)
    if not agrees:
        count = some(chance, 0, 2**40)
        stats = [some(chance, 0, count * (65535 if at == 7 else 1) if at not in (12, 13, 14) else (2**64 - 1, 2**64 - 1, count * 2**60)[at - 12])
                 for at in range(15)]
    limits = (chance.choice((max(len(waiting), 1), len(waiting) + 5, 2**20, 2**20)), chance.choice((1, 10, 1000, 2**20, 2**20)),
              max(1, count + chance.choice((3, 1000, 1000, 1000, 2**40))))
    cycle = chance.choice(((0, 0, 0), (1, some(chance, 0, moment), some(chance, 0, now[8] - 1))))
    setter = chance.choice(("", some(chance, 0, count if agrees or chance.random() < 0.7 else WORDS)))
    opened = some(chance, 0, moment if agrees or chance.random() < 0.7 else LATEST)
    accumulated = chance.choice((0, some(chance, 0, 85 * 10**11 - 1), 85 * 10**11 - 1 - some(chance, 0, 10**11), 85 * 10**10 - some(chance, 0, 10**11)))
    prob, average, waited = some(chance, 0, 10**12), some(chance, 0, LATEST), some(chance, 0, 2**40)
    if agrees:
        prob = prob if stats[9] else 0
        accumulated = accumulated if elements[1] == "derandomized" else 0
        average, cycle, waited = (average, cycle, 0) if elements[0] == "rate" else (0, (0, 0, 0), min(waited, stats[14]))
    row = ["resume", profile, *told(elements), chance.choice(("bounded", "rolling")), opened, *limits, *first, *now, count, setter,
           len(waiting), sum(it[2] for it in waiting), moment, prob, old, accumulated,
           chance.choice((0, 0, some(chance, 0, 10**12))), some(chance, 0, moment), average, *cycle, waited,
           1 if profile == 1 else chance.randrange(2), *stats]
    return [list(map(str, it)) for it in [row, *waiting]]


def out_of_range(rows, chance):
    """Returns the records with a number that no controller has, by its place from the end of the first."""
    place, value = chance.choice(((-31, int(rows[0][-31]) + 2**47), (-26, 10**12 + 1), (-25, 2**40 + 1), (-24, 85 * 10**11), (-23, 10**12 + 1),
                                  (-22, int(rows[0][-27]) + 1), (-21, 2**60), (-17, 2**40 + 1), (-15, int(rows[0][-31]) + 1), (-32, LATEST)))
    first = list(rows[0])
    first[place] = str(value)
    return [first, *rows[1:]]


# ----- Commands, and their answers by the numbers alone

def word_near(chance, core):
    """Returns a random word, often at the boundary of a pick."""
    at = core.prob * 2**64 // 10**12 + chance.choice((-1, 0, 1))
    return chance.choice((max(0, min(WORDS, at)), chance.getrandbits(64), chance.getrandbits(64) >> 8))


def command(chance, core):
    """Returns the fields of a trace record for a core in this state."""
    caller, due = some(chance, 0, 65535), core.last + core.params["t_update"]
    moment = core.moment + chance.choice((0, 0, 1, -1, 1000, 40_000, 10**6, 10**9))
    moment = max(0, min(moment, 2**64 - 1)) if chance.random() < 0.97 else chance.choice((0, LATEST, 2**60, WORDS))
    kind = chance.choices(("arrive", "depart", "update", "reset", "params", "fold", "show", "tally", "clock"), (45, 25, 17, 2, 4, 4, 1, 1, 1))[0]
    if kind == "arrive":
        size = chance.choice((1, 64, core.params["mean_pkt"], max(1, core.params["mean_pkt"] - 1), 1500, 65535, chance.randrange(65537)))
        return [kind, caller, moment, some(chance, 0, WORDS), size, chance.choice(("not", "ect1", "ect0", "ce")), word_near(chance, core)]
    if kind == "update":
        return [kind, caller, chance.choice((due, due, due + 1, max(due, 1) - 1, moment))]
    if kind == "params":
        wrong = chance.random() < 0.2
        return [kind, caller, moment, *(nine(chance) if not wrong else (1, *nine(chance)[1:]))]
    return {"fold": [kind, chance.choice((0, 1, 2, 30))], "clock": [kind, some(chance, 0, LATEST), some(chance, 0, WORDS)]}.get(
        kind, [kind] if kind in ("show", "tally") else [kind, caller, moment])


def cause_of(core, size, ecn, word):
    """Returns the cause of an arrival: the first of docs/FORMATS.md's causes that holds."""
    p, before = core.params, core.bytes()
    part = core.prob * size // p["mean_pkt"] if core.chosen["size"] == "scaled" and size < p["mean_pkt"] else core.prob
    total = core.accu + part
    is_summed = core.chosen["picking"] == "derandomized"
    cases = (
        (before + size > p["limit_bytes"], "no_room_in_bytes"), (len(core.waiting) == core.packets, "no_room_in_packets"),
        (not core.active, "inactive"), (core.burst > 0, "burst_allowed"), (2 * core.old < p["target"] and core.prob < 2 * 10**11, "low_delay"),
        (before <= 2 * p["mean_pkt"], "short_queue"), (part == 0, "no_probability"), (is_summed and total < 85 * 10**10, "little_accumulated"),
        (is_summed and total >= 85 * 10**11, "picked_by_sum"), (word * 10**12 < part * 2**64, "picked_by_word"), (True, "word_not_below"))
    cause = next(name for holds, name in cases if holds)
    if not cause.startswith("picked") or ecn != "not" and core.prob < p["mark_ecnth"]:
        return cause
    return f"{cause}_not_capable" if ecn == "not" else f"{cause}_not_below"


def numbers_of(core):
    """Returns the fields of an explanation for a core, before or after an event."""
    return [core.bytes(), len(core.waiting), core.delay(), core.prob, core.accu, core.burst]


class Excerpt:
    """Returns a preamble, commands, and by the reference the records of a run and the explanation of each event."""

    def __init__(self, rows, chance):
        self.beginning = rows
        self.core, _, self.setter = begun(rows)
        self.before, self.held, self.tail, self.is_rolling = self.core.count, 0, self.core.tail, "rolling" in rows[0][:8]
        self.asked, self.answers, self.told = [], [], []
        for number in range(len(rows) + 1, len(rows) + 1 + COMMANDS):
            row = list(map(str, command(chance, self.core)))
            self.asked.append(row)
            self.answers.append(self.answer(number, row))

    def answer(self, number, row):
        caller, asked = request(number, row, 3)
        kind = asked[0]
        if kind == "clock":
            return row
        if kind == "show":
            return ["shown", *self.core.registers()]
        if kind == "tally":
            return ["tallied", *self.core.stats]
        if kind == "fold":
            if asked[1] > self.held:
                return ["refused", number, 6]
            self.held -= asked[1]
            return ["folded", asked[1]]
        code = self.refusal(asked)
        return ["refused", number, code] if code else history_of(row, number, self.event(caller, asked))

    def refusal(self, asked):
        core, kind, moment = self.core, asked[0], asked[1]
        late = max(core.moment, moment) < core.last + core.params["t_update"]
        cases = ((kind == "set" and bad_parameter(asked[2]), 7), (moment > LATEST, 1), (kind == "arrive" and not 1 <= asked[3] <= 65535, 2),
                 (kind == "update" and late, 3), (core.count == core.most, 4), (not self.is_rolling and self.held == self.tail, 5))
        return next((code for holds, code in cases if holds), 0)

    def event(self, caller, asked):
        core, kind = self.core, asked[0]
        before, was_active, setter = numbers_of(core), core.active, self.setter
        cause = cause_of(core, asked[3], asked[4], asked[5]) if kind == "arrive" else ""
        since = core.waiting[0][3] if kind == "depart" and core.waiting else None
        answer = core.step(asked)
        self.held = min(self.held + 1, self.tail) if self.is_rolling else self.held + 1
        if kind == "reset" or kind == "update" and was_active or not was_active and core.active:
            self.setter = core.count
        packet = asked[2:4] if kind == "arrive" else answer[1:3] if answer[0] == "left" else ("", "")
        ecn = asked[4] if kind == "arrive" else answer[3] if answer[0] == "left" else ""
        name = {"set": "params"}.get(kind, kind)
        self.told.append([
            core.count, name, caller, asked[1], core.moment, *packet, None, cause, *before, ecn, asked[5] if kind == "arrive" else "",
            core.moment - since if since is not None else "", int(was_active), setter or "", *numbers_of(core), int(core.active)])
        return answer

    def lines(self, rows):
        return "".join(map(text_of, rows))


# ----- The checks

def pie(words, text):
    status, output, errors = run(words, text.encode())
    return status, output.decode(), errors.decode()


def hold_refused(name, rows, fault, agrees):
    """Checks that all commands refuse the text, with the same message."""
    text = "".join(map(text_of, rows))
    said = [pie(words, text) for words in (["run"], ["audit"], ["explain", "--all", "--csv"], ["cut", "--from", "0"], ["cut", "--every", "5"])]
    check(all(status == 1 and errors == said[0][2] for status, _, errors in said), f"{name}: refused otherwise: {said}")
    check(not agrees, f"{name}: refused: {said[0][2]}\n{text[:600]}")
    check(fault is None or said[0][2] == error_of(fault), f"{name}: {said[0][2]}, where the reference says {fault}")
    tried["refused preambles"] += 1


def hold_explanation(name, excerpt, text):
    """Checks that each event is listed once, in order, and explained as by the reference. Returns
    the records."""
    status, rows = explained(text, "--all")
    header, *records = rows
    verdict = header.index("verdict")
    check(status == 0 and len(records) == len(excerpt.told), f"{name}: status {status}, {len(records)} of {len(excerpt.told)} events are explained")
    for record, wanted in zip(records, excerpt.told):
        told_of = [it for at, it in enumerate(record) if at != verdict]
        want = [str(it) for at, it in enumerate(wanted) if at != verdict]
        differs = [(header[at + (at >= verdict)], got, it) for at, (got, it) in enumerate(zip(told_of, want)) if got != it]
        check(not differs and len(record) == len(wanted), f"{name}: event {wanted[0]} is explained by {differs}")
    answers = [it[-1] if it[0] == "arrive" else "updated" if it[0] == "update" else it[3] if it[0] == "depart" else "done"
               for it in excerpt.answers if it[0] in EVENTS]
    check([record[verdict] for record in records] == answers, f"{name}: other verdicts are explained")
    tried["explained events"] += len(records)
    return rows


def hold_sums(name, excerpt, text, rows):
    """Checks that a summary counts the events."""
    header, *records = rows
    status, sums = explained(text, "--summary")
    if not records:
        return
    found = dict(zip(*sums))
    column = {field: [record[at] for record in records] for at, field in enumerate(header)}
    kinds, causes = Counter(column["kind"]), Counter(column["cause"])
    wanted = {"events": len(records), "arrivals": kinds["arrive"], "updates": kinds["update"], "left": column["verdict"].count("left"),
              "arrived_bytes": sum(int(size) for size, kind in zip(column["size"], column["kind"]) if kind == "arrive"),
              "first_moment": column["effective_moment"][0], "last_moment": column["effective_moment"][-1],
              **{it: column["verdict"].count(it) for it in ("enqueue", "mark", "early", "bytes", "packets")},
              **{it: count for it, count in causes.items() if it},
              "greatest_probability": max(map(int, column["probability_after"])), "last_probability": column["probability_after"][-1],
              "last_burst_allowance": column["burst_allowance_after"][-1]}
    got = {it: found[it] for it in wanted}
    check(status == 0 and got == {it: str(value) for it, value in wanted.items()}, f"{name}: sums {got}, and not {wanted}")
    tried["summaries"] += 1


def hold_cuts(name, excerpt, text, rows, chance):
    """Excerpts of it audit clean, are explained as the whole is, and a run of their commands writes them again."""
    first, last = excerpt.before + 1, excerpt.core.count
    parts, ends = [], []
    for _ in range(2):
        event, around = chance.randint(first, last), chance.choice((0, 1, 4, 100))
        start, end = max(first, event - around), min(last, event + around)
        status, part, errors = pie(["cut", "--event", str(event), "--around", str(around)], text)
        check((status, errors) == (0, ""), f"{name}: cut of events {start} to {end}: {status}, {errors}")
        check(explained(part, "--all") == (0, rows_within(rows, start - 1, end)), f"{name}: the cut of events {start} to {end} is explained otherwise")
        parts.append(part)
        ends.append(end)
        hold_again(name, part)
    every = chance.choice((1, 3, 7))
    status, whole, errors = pie(["cut", "--every", str(every)], text)
    segments = segments_of(whole)
    check((status, errors, len(segments)) == (0, "", -(-(last - first + 1) // every)), f"{name}: segments: {status}, {errors}, {len(segments)}")
    check(audited(parts)[1] == [(f"clean,{end}", "") for end in ends], f"{name}: cuts up to {ends}: {audited(parts)}")
    numbers = [min(last, first - 1 + every * (at + 1)) for at in range(len(segments))]
    wanted = [(f"clean,{number}{' follows' if at else ''}", "") for at, number in enumerate(numbers)]
    check(audited(segments, "--joined") == (0, wanted), f"{name}: segments of {every}: {audited(segments, '--joined')}")
    explanations = [record for part in segments for record in explained(part, "--all")[1][1:]]
    check(explanations == rows[1:], f"{name}: segments of {every} are explained otherwise")
    tried["cuts"] += len(parts)
    tried["segments"] += len(segments)


def hold_again(name, part):
    """Checks that a run of the commands of an excerpt writes the excerpt."""
    lines = [line.split(",") for line in part.splitlines()]
    keep = {"arrive": 7, "depart": 3, "update": 3, "reset": 3, "params": 12}
    asked = "".join(",".join(line[: keep.get(line[0], len(line))]) + "\n" for line in lines)
    got = pie(["run"], asked)
    # (a tail that is full refuses; the text's own limit of events is the same)
    check(got[1] == part or ",5\n" in got[1], f"{name}: a run of a cut's commands writes something else than the cut: {got}\n{part[:500]}")


def changed_answer(row, chance):
    """Returns the record of an event with another answer, which can be read."""
    row = list(row)
    if row[0] == "arrive":
        row[7] = chance.choice([it for it in ("enqueue", "mark", "early", "bytes", "packets") if it != row[7]])
    elif row[0] == "depart" and row[3] == "left":
        at = chance.choice((4, 5, 6))
        row[at] = "ce" if at == 6 and row[6] != "ce" else "not" if at == 6 else str(int(row[at]) ^ 1) if at == 4 else str(max(int(row[5]) ^ 1, 1))
        return row if at != 5 or int(row[5]) else None
    elif row[0] == "depart":
        row[3:] = ["left", "1", "1", "not"]
    elif row[0] == "update":
        at = chance.choice((3, 4, 5))
        row[at] = str(int(row[at]) ^ 1)
    else:
        return None
    return row


def hold_right(name, text, number, changed, right):
    """Checks that the audit and the explanation of a file give the changed record and the right one, and that the latter explains the right one."""
    with tempfile.NamedTemporaryFile("w", suffix=".history") as file:
        file.write(text)
        file.flush()
        lines = [f"event {number} is recorded as {text_of(changed)}", f"the rules give {text_of(right)}"]
        lines = [f"pie: {file.name}: {line}" for line in lines]
        wanted = "".join(lines) + f"pie: {file.name}: pie explain --event {number} {file.name} explains it\n"
        status, _, errors = pie(["audit", file.name], "")
        check((status, errors) == (2, wanted), f"{name}: an audit of event {number}, changed to {changed}: {status}, {errors}")
        status, _, errors = pie(["explain", "--event", str(number), file.name], "")
        head, _, words = errors.partition("".join(lines))
        check(status == 2 and f"event {number} is not" in head and words.startswith(f"event {number}: "), f"{name}: event {number} is explained by {errors}")


def hold_changed(name, excerpt, text, rows, chance):
    """Checks that a changed answer differs at its event, in every command."""
    places = [at for at, it in enumerate(excerpt.answers) if it[0] in EVENTS]
    place = chance.choice(places)
    number = excerpt.before + 1 + places.index(place)
    other = changed_answer(list(map(str, excerpt.answers[place])), chance)
    if other is None or other == list(map(str, excerpt.answers[place])):
        return
    text = excerpt.lines([*excerpt.beginning, *excerpt.answers[:place], other, *excerpt.answers[place + 1 :]])
    check(audited([text]) == (2, [(f"differs,{number}", "")]), f"{name}: event {number} changed to {other}: {audited([text])}")
    hold_right(name, text, number, other, excerpt.answers[place])
    status, found = explained(text, "--all")
    check((status, found) == (2, rows[: number - excerpt.before]), f"{name}: event {number} changed: explained up to {len(found) - 1}, status {status}")
    status, part, errors = pie(["cut", "--event", str(number)], text)
    check(status == 2 and part.endswith("\n" + text_of(other)) and f"event {number} is not" in errors, f"{name}: a cut of what differs: {status}, {errors}")
    check(audited([part]) == (2, [(f"differs,{number}", "")]), f"{name}: the cut of event {number}, changed: {audited([part])}")
    tried["changed answers"] += 1


def hold(seed):
    chance, name = random.Random(seed), f"seed {seed}"
    agrees = chance.random() < 0.75
    rows = preamble(chance, agrees)
    if chance.random() < 0.1:
        rows, agrees = out_of_range(rows, chance), False
    status, output, errors = pie(["run"], "".join(map(text_of, rows)))
    try:
        excerpt = Excerpt(rows, chance)
    except Fault as fault:
        hold_refused(name, rows, fault, agrees)
        return
    if status != 0:
        hold_refused(name, rows, None, agrees)
        return
    trace, text = excerpt.lines([*rows, *excerpt.asked]), excerpt.lines([*rows, *excerpt.answers])
    got = pie(["run"], trace)
    if got != (0, text, ""):
        at = next((at for at, (one, other) in enumerate(zip(got[1].splitlines(), text.splitlines())) if one != other), -1)
        check(False, f"{name}: record {at + 1} of a run, status {got[0]}, {got[2]}: {got[1].splitlines()[at:at + 1]}, wanted "
              f"{text.splitlines()[at:at + 1]}, of {trace.splitlines()[at:at + 1]}\n{trace[:600]}")
        return
    tried["runs"] += 1
    check(audited([text]) == (0, [(f"clean,{excerpt.core.count}", "")]), f"{name}: the audit of what was run: {audited([text])}\n{trace[:600]}")
    if not excerpt.told:
        return
    explanations = hold_explanation(name, excerpt, text)
    hold_sums(name, excerpt, text, explanations)
    hold_cuts(name, excerpt, text, explanations, chance)
    hold_changed(name, excerpt, text, explanations, chance)
    refusals = Counter(it[2] for it in excerpt.answers if it[0] == "refused")
    tried.update({f"refusals {code}": count for code, count in refusals.items()})
    tried.update(f"cause {it[8]}" for it in excerpt.told if it[8])


def main():
    for seed in range(FIRST, FIRST + RUNS):
        hold(seed)
    print(", ".join(f"{number} {what}" for what, number in sorted(tried.items())))
    wanted = ("runs", "refused preambles", "explained events", "summaries", "cuts", "segments", "changed answers")
    check(RUNS < 100 or all(tried[it] for it in wanted), "something was never tried")
    finish()


main()
