#!/usr/bin/env python3
"""Audits segments of random histories with `pie audit --joined`, in order and out of order: each follows the one
before it, or the gap or the difference is reported. Segments are omitted, exchanged and repeated, and replaced by
segments of another history with the same numbers. Each field of a preamble and of its queued packets is changed;
tests/shared/reference_resumed.py gives the expected finding. Texts with a change, or with parameters out of their
ranges, are cut into segments by `pie cut`: each segment must be clean and follow, except the last if the text
differs. Then whole histories, files with a fault, files that differ, one file, and standard input take part.
Standard error must name the missing and repeated events, and the first field that differs with both values.

usage: tests/program/joined.py [PROGRAM [FIRST_SEED [RUNS]]]      PROGRAM: crates/pie/out/pie by default
needs: program
"""
import random
import subprocess
import sys
import tempfile
from pathlib import Path

sys.path.insert(0, str(Path(__file__).resolve().parents[1] / "shared"))
import reference_resumed  # noqa: E402
from checks import check, finish  # noqa: E402
from excerpts import audited, audited_with_joints, bad_params, changed, segments_of  # noqa: E402
from running import PROGRAM, run  # noqa: E402

FIRST, RUNS = ([int(word) for word in sys.argv[2:4]] + [1, 16][len(sys.argv[2:4]) :])[:2]
EVENTS = 40
# The positions of fields in a record `resume`: the number of events, the event that set the probability, and the first statistic.
COUNT, SET_BY, STATISTICS = -31, -30, -15  # counted from the end, because the record may have the decay or not
# The names of the fields of `resume` and `queued` on docs/FORMATS.md.
NINE = ["target", "t_update", "max_burst", "alpha", "beta", "mean_pkt", "limit_bytes", "mark_ecnth", "dq_threshold"]
RESUME = [
    *"kind profile delay picking step size decay mode moment packets tail events".split(), *NINE, *NINE,
    *"count set_by packets bytes moment prob old accu burst last average measuring start counted last_wait active".split(),
    *"arrivals enqueued marked early over_bytes over_packets left left_bytes empty updates resets changes largest_queue largest_delay waited".split(),
]
QUEUED = "kind tag size ecn since".split()
DECAY = 6
tried = {"follow": 0, "gaps": 0, "unlike": 0, "faults": 0, "differ": 0, "statistics": 0, "packets": 0, "cut": 0, "cut to a difference": 0}


class Part:
    """The events of a history from a first to a last one, as a text that resumes; of the first also as a whole history."""

    def __init__(self, book, first, last, is_whole=False):
        text = reference_resumed.whole_text(book) if is_whole else reference_resumed.excerpt(book, first - 1)
        lines = text.splitlines(keepends=True)
        self.book, self.first, self.last = book, first, last
        self.lines = lines[: len(lines) - (len(book.events) - last)]
        self.text = "".join(self.lines)


def parts_of(book, every):
    count = len(book.events)
    return [Part(book, first, min(count, first + every - 1)) for first in range(1, count + 1, every)]


def stands_on(part):
    """Returns the preamble of a text without the setter of the probability, which affects no later answer."""
    beginning = reference_resumed.resumed_at(part.book, part.first - 1, False)
    return [list(map(str, row)) for row in beginning]


def end_of(part):
    """Returns the preamble of a text that continues after this segment."""
    return [list(map(str, row)) for row in reference_resumed.resumed_at(part.book, part.last, False)]


def as_written(row):
    """Returns a record as `pie cut` writes it: it leaves out the usual decay."""
    return row[:DECAY] + row[DECAY + 1 :] if row[0] == "resume" and row[DECAY] == "zero" else row


def named(end, beginning):
    """Returns the line about the first field that differs between two preambles."""
    for number, (one, other) in enumerate(zip(map(as_written, end), map(as_written, beginning))):
        for place, (before, begun) in enumerate(zip(one, other)):
            if before == begun or number == 0 and RESUME[place + (place >= DECAY and len(one) < len(RESUME))] == "set_by":
                continue
            if number:
                return f"queued field {place + 1} ({QUEUED[place]}) of packet {number} is {begun}, the file before ends with {before}"
            if len(one) != len(other) and place == DECAY:
                before, begun = ("half", "absent") if len(one) > len(other) else ("absent", "half")
                return f"resume field {place + 1} (decay) is {begun}, the file before ends with {before}"
            name = RESUME[place + (place >= DECAY and len(one) < len(RESUME))]
            return f"resume field {place + 1} ({name}) is {begun}, the file before ends with {before}"
    raise AssertionError("nothing differs")


def line_of(before, part):
    """Returns the line about the joint of two segments, or `None` if the second follows."""
    if before.last + 1 < part.first:
        return f"events {before.last + 1} to {part.first - 1} are missing"
    if before.last + 1 > part.first:
        return f"events {part.first} to {min(before.last, part.last)} are in both files"
    end, beginning = end_of(before), stands_on(part)
    return None if end == beginning else named(end, beginning)


def joint(before, part):
    if before.last + 1 != part.first:
        tried["gaps"] += 1
        return f"gap,{before.last},{part.first}"
    if end_of(before) == stands_on(part):
        tried["follow"] += 1
        return "follows"
    tried["unlike"] += 1
    return f"unlike,{before.last}"


def hold(what, parts):
    """Audits clean parts in this order."""
    wanted = [f"clean,{parts[0].last}", *(f"clean,{part.last} {joint(before, part)}" for before, part in zip(parts, parts[1:]))]
    is_met = all(line.endswith("follows") for line in wanted[1:])
    *got, joints = audited_with_joints([part.text for part in parts], "--joined")
    check(got == [0 if is_met else 2, [(line, "") for line in wanted]], f"{what}: wanted {wanted}, got {got}")
    lines = [(place + 1, line_of(before, part)) for place, (before, part) in enumerate(zip(parts, parts[1:]))]
    check(joints == [line for line in lines if line[1]], f"{what}: wanted {lines}, got {joints}")


def hold_orders(what, parts, chance):
    hold(what, parts)
    place = chance.randrange(len(parts))
    hold(f"{what}, without {place}", [*parts[:place], *parts[place + 1 :]] or parts)
    hold(f"{what}, {place} twice", [*parts[: place + 1], *parts[place:]])
    mixed = parts[:]
    chance.shuffle(mixed)
    hold(f"{what}, mixed", mixed)
    whole = Part(parts[0].book, 1, parts[0].last, True)
    hold(f"{what}, a whole history first", [whole, *parts[1:]])
    hold(f"{what}, a whole history among them", [parts[0], whole, *parts[1:]])


def hold_others(what, parts, others):
    """Checks a segment of another history in place of one with the same numbers."""
    for place, other in enumerate(others):
        hold(f"{what}, {place} of another history", [*parts[:place], other, *parts[place + 1 :]])


def found_of(text):
    status, finding, error = reference_resumed.audit(text)
    return status, finding.rstrip("\n"), error.removeprefix("pie: ").rstrip("\n")


def rows_of(text):
    """Returns the records of a preamble."""
    rows = [line.split(",") for line in text.splitlines()]
    return [row for row in rows if row[0] in ("resume", "queued")]


def hold_changed(what, before, text, wanted):
    """Checks an excerpt after which a changed text follows: the result is a fault, or the expected
    joint."""
    status, finding, error = found_of(text)
    tried["faults"] += status == 1
    tried["differ"] += status == 2
    line = "" if status == 1 else f"{finding} {wanted}"
    is_met = status == 0 and wanted == "follows"
    *got, joints = audited_with_joints([before.text, text], "--joined")
    check(got == [status or (0 if is_met else 2), [(f"clean,{before.last}", ""), (line, error)]], f"{what}: wanted {line or error}, got {got}")
    if status != 1 and wanted.startswith("unlike"):
        name = named(end_of(before), rows_of(text))
        check(joints == [(1, name)], f"{what}: wanted {name}, got {joints}")
    else:
        check(bool(joints) == (status != 1 and wanted != "follows"), f"{what}: {joints}")


def other_number(field, chance):
    number = int(field or 0)
    return str(chance.choice([number + 1, number - 1] if number else [1]))


def hold_fields(what, before, part, chance):
    """Checks another value in each field of the preamble."""
    row, *rest = part.lines
    fields = row.rstrip("\n").split(",")
    is_told = len(fields) > 60
    for place in range(7 + is_told, len(fields)):
        other, from_end = fields[:], place - len(fields)
        other[place] = other_number(fields[place], chance)
        wanted = f"unlike,{before.last}"
        if from_end == COUNT:
            wanted = f"gap,{before.last},{int(other[place]) + 1}"
        if from_end == SET_BY:
            wanted = "follows"
        tried["statistics"] += from_end >= STATISTICS
        hold_changed(f"{what}: field {place}", before, ",".join(other) + "\n" + "".join(rest), wanted)
    words_of = [{"1", "2"}, {"bounded", "rolling"}, {"rate", "stamp"}, {"derandomized", "random"}, {"capped", "uncapped"}, {"unscaled", "scaled"}]
    for words in words_of + [{"zero", "half"}] * is_told:
        place = next(place for place, field in enumerate(fields) if field in words)
        word, other = fields[place], fields[:]
        other[place] = next(iter(words - {word}))
        hold_changed(f"{what}: {word}", before, ",".join(other) + "\n" + "".join(rest), f"unlike,{before.last}")


def hold_packets(what, before, part, chance):
    """Checks another value for each queued packet."""
    for number, line in enumerate(part.lines):
        kind, *fields = line.rstrip("\n").split(",")
        for place in range(len(fields) if kind == "queued" else 0):
            other = fields[:]
            other[place] = "ect1" if other[place] in ("not", "ect0", "ce") else "ce" if place == 2 else other_number(fields[place], chance)
            tried["packets"] += 1
            text = "".join([*part.lines[:number], ",".join([kind, *other]) + "\n", *part.lines[number + 1 :]])
            hold_changed(f"{what}: packet {number}, field {place + 1}", before, text, f"unlike,{before.last}")


def hold_broken(what, parts, chance):
    """Checks that a text with a fault or a difference has no end: the next text has no second line, and is the first of a new row."""
    place = chance.randrange(len(parts))
    texts = [part.text for part in parts]
    lines = [f"clean,{part.last}{' follows' if number else ''}" for number, part in enumerate(parts)]
    after = [line.removesuffix(" follows") if number == place + 1 else line for number, line in enumerate(lines)]
    faulty = [*texts[:place], texts[place] + "x\n", *texts[place + 1 :]]
    got = audited(faulty, "--joined")
    row = faulty[place].count("\n")
    wanted = [("", f"record {row}: unknown kind") if number == place else (line, "") for number, line in enumerate(after)]
    check(got == (1, wanted), f"{what}: a fault in {place}: {got}")
    part = parts[place]
    wrong = chance.choice((f"depart,1,{2**59},left,1,1,ce\n", bad_params(chance.randrange(2**61), chance)))
    different = [*texts[:place], texts[place] + wrong, *texts[place + 1 :]]
    found = f"differs,{part.last + 1}" + (" follows" if place else "")
    got = audited(different, "--joined")
    check(got == (2, [(found if number == place else line, "") for number, line in enumerate(after)]), f"{what}: {place} differs: {got}")


def hold_segments(what, text, every):
    """Checks that the findings of a text's segments are those of the reference for the text, also for a text with faults."""
    status, finding, error = found_of(text)
    got, output, errors = run(["cut", "--every", str(every)], text.encode())
    if status == 1:
        check((got, errors.decode()) == (1, f"pie: {error}\n"), f"{what}: status {got} of a text with a fault, {errors}")
        return
    first, last = int(text.split("\n", 1)[0].split(",")[COUNT]) if text.startswith("resume,") else 0, int(finding.split(",")[1])
    if first == last:
        return
    tried["cut"], tried["cut to a difference"] = tried["cut"] + 1, tried["cut to a difference"] + (status == 2)
    check(got == status, f"{what}: status {got}, {errors}")
    parts, ends = segments_of(output.decode()), [*range(first + every, last, every), last]
    lines = [*(f"clean,{end}" for end in ends[:-1]), finding]
    wanted = [(f"{line} follows" if place else line, "") for place, line in enumerate(lines)]
    found = audited(parts, "--joined")
    check(found == (status, wanted), f"{what}: wanted {wanted}, got {found}")


def hold_findings(what, book, chance):
    """Texts of both kinds, with a change, with parameters out of their ranges, or with neither."""
    for text in (reference_resumed.whole_text(book), *(reference_resumed.excerpt(book, chance.randrange(len(book.events))) for _ in range(2))):
        lines = text.splitlines(keepends=True)
        waiting = sum(line.startswith(("open", "resume,", "queued,")) for line in lines)
        place, moment = chance.randrange(waiting, len(lines) + 1), chance.choice((0, chance.randrange(2**40), 2**64 - 1))
        wrong = "".join([*lines[:place], bad_params(moment, chance), *lines[place:]])
        for number, it in enumerate((text, wrong, changed(text, chance), changed(text, chance))):
            hold_segments(f"{what}: {lines[0][:6]} {number}", it, chance.randrange(1, 12))


def told(words, text=b""):
    status, output, errors = run(["audit", "--joined", *words], text)
    return status, output.decode(), errors.decode()


def hold_words(parts):
    """Checks one file, standard input alone and among files, and a file that is missing."""
    one, *others = parts
    check(told([], one.text.encode()) == (0, f"clean,{one.last}\n", ""), "standard input alone")
    check(told(["-"], one.text.encode()) == (0, f"-: clean,{one.last}\n", ""), "- alone")
    with tempfile.TemporaryDirectory() as folder:
        names = [f"{folder}/{place}" for place in range(len(parts))]
        for name, part in zip(names, parts):
            Path(name).write_text(part.text)
        check(told(names[:1]) == (0, f"{names[0]}: clean,{one.last}\n", ""), "one file")
        wanted = f"{names[0]}: clean,{one.last}\n-: clean,{others[0].last}\n-: follows\n"
        check(told([names[0], "-"], others[0].text.encode()) == (0, wanted, ""), "standard input behind a file")
        status, output, errors = told([names[0], f"{folder}/none", names[1]])
        check((status, output) == (1, f"{names[0]}: clean,{one.last}\n{names[1]}: clean,{others[0].last}\n"), "a file that is not there")
        check(errors == f"pie: {folder}/none: No such file or directory (os error 2)\n", f"a file that is not there: {errors}")
        with open("/dev/full", "wb") as full:
            ran = subprocess.run([PROGRAM, "audit", "--joined", *names[:2]], stdout=full, stderr=subprocess.PIPE, check=False)
        check((ran.returncode, ran.stderr) == (1, b"pie: No space left on device (os error 28)\npie: cannot write the output\n"), f"a full device: {ran}")


def main():
    chance = random.Random(FIRST)
    for seed in range(FIRST, FIRST + RUNS):
        book, other = (reference_resumed.random_book(it, EVENTS) for it in (seed, seed + 1000))
        count = min(len(book.events), len(other.events))
        every = chance.randrange(1, max(2, count // 2))
        what, parts = f"seed {seed}, every {every}", parts_of(book, every)
        if len(parts) < 3:
            continue
        hold_orders(what, parts, chance)
        hold_others(what, parts, [part for part in parts_of(other, every) if part.last <= count and part.last - part.first == every - 1])
        place = chance.randrange(1, len(parts))
        hold_fields(what, parts[place - 1], parts[place], chance)
        hold_packets(what, parts[place - 1], parts[place], chance)
        hold_broken(what, parts, chance)
        hold_findings(what, book, chance)
        hold_words(parts)
    print(", ".join(f"{number} {what}" for what, number in tried.items()))
    check(all(tried.values()), "something was never tried")
    finish()


main()
