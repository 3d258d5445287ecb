#!/usr/bin/env python3
"""Cuts histories with `pie cut` and compares each excerpt with the whole: the histories of examples/, those of the
worked rows, and random ones with each optional element and with clock records. Small histories are cut at each
event, others at random events. An excerpt must be clean, with the whole's number of its last event. Its
explanations must be those of the whole, number for number, also with --wall, and its sums those of the whole over
these moments. An excerpt of a random history must be byte for byte the text of tests/shared/reference_resumed.py,
which looks back over the whole, with the last clock record before its first event after the preamble, and those
between its events in their places. The same holds for excerpts of excerpts and for segments. Then the script tries
faults, events that differ, selections without an event, and the file of -o.

usage: tests/program/cut.py [PROGRAM [FIRST_SEED [RUNS]]]      PROGRAM: crates/pie/out/pie by default
needs: program
"""
import random
import sys
import tempfile
from pathlib import Path

sys.path.insert(0, str(Path(__file__).resolve().parents[1] / "shared"))
import reference_resumed  # noqa: E402
from checks import ROOT, check, finish, rows  # noqa: E402
from excerpts import audited, bad_params, explained, rows_within, segments_of  # noqa: E402
from running import run  # noqa: E402

FIRST, RUNS = ([int(word) for word in sys.argv[2:4]] + [1, 8][len(sys.argv[2:4]) :])[:2]
# The most events of a random history; the most events of a history that is cut everywhere; and the number of cuts
# of a longer one.
EVENTS, SMALL, PLACES = 60, 12, 6
NOTES = ("refused,", "folded,", "shown,", "tallied,")
COMMANDS = ("arrive,", "depart,", "update,", "reset,", "params,")
LATEST = 2**60 - 1
DIFFERS = "event {} is not what the rules give there, so what comes after it is not cut"
tried = {"excerpts": 0, "by time of day": 0, "summed up": 0, "cut again": 0, "segments": 0, "with times of day": 0, "out of range": 0}


def cut(text, *words):
    status, output, errors = run(["cut", *words], text.encode())
    return status, output.decode(), errors.decode().removeprefix("pie: ").rstrip("\n")


def times_after(text):
    """Returns the clock records after each event of a text and before the next, from event 0 on."""
    found = [[]]
    for line in text.splitlines(keepends=True):
        if line.startswith("clock,"):
            found[-1].append(line)
        elif line.startswith(COMMANDS):
            found.append([])
    return found


def timed(text, chance):
    """Returns a history of version three with no, some or many clock records after its first
    record."""
    often, (first, *records) = chance.choice((0, 0.1, 0.5)), text.splitlines(keepends=True)
    out = [first]
    for line in [*records, ""]:
        while chance.random() < often:
            out.append(f"clock,{chance.randrange(2**40)},{chance.randrange(2**64)}\n")
        out.append(line)
    return "".join(out)


class History:
    """A history, the records of its explanations, also with wall-clock times, and its records of these."""

    def __init__(self, name, text, book=None):
        self.name, self.text, self.book = name, text, book
        self.rows, self.walls, self.times = explained(text, "--all")[1], explained(text, "--all", "--wall")[1], times_after(text)
        self.moments = [int(row[self.rows[0].index("effective_moment")]) for row in self.rows[1:]]
        self.days = [row[self.walls[0].index("wall")] for row in self.walls[1:]]
        self.count = len(self.moments)

    def part(self, first, last):
        """Returns the excerpt of these events by the reference, with the last clock record before
        them, and those between them."""
        lines = reference_resumed.excerpt(self.book, first - 1).splitlines(keepends=True)
        begun = len(lines) - (self.count - first + 1)
        out = lines[:begun] + [time for times in self.times[:first] for time in times][-1:]
        for number, line in enumerate(lines[begun : len(lines) - (self.count - last)], first):
            out += [line, *self.times[number]]
        return "".join(out)


def histories():
    for path in sorted((ROOT / "examples").glob("*.history")):
        yield History(path.stem, path.read_text())
    for path in sorted(rows().glob("**/*.out")):
        if not path.with_suffix(".fault").exists():
            yield History(path.stem, path.read_bytes().decode())
    for seed in range(FIRST, FIRST + RUNS):
        book = reference_resumed.random_book(seed, EVENTS)
        yield History(f"seed {seed}", timed(reference_resumed.whole_text(book), random.Random(seed)), book)


def choices(history, chance):
    """Yields options that choose events, with the first and the last of these events."""
    count = history.count
    events = range(1, count + 1) if count <= SMALL else sorted(chance.sample(range(1, count + 1), PLACES))
    for event in events:
        around = chance.choice((0, 1, 3, count, 2**64 - 1))
        words = ["--event", str(event), *(["--around", str(around)] if around or chance.random() < 0.5 else [])]
        yield words, max(1, event - around), min(count, event + around)
    for _ in range(min(count, 3)):
        start, end = sorted((chance.choice(history.moments), chance.choice(history.moments)))
        within = [place + 1 for place, moment in enumerate(history.moments) if start <= moment <= end]
        yield ["--from", str(start), f"--to={end}ns"], within[0], within[-1]
        yield ["--from", str(start)], within[0], count
        yield ["--to", str(end)], 1, within[-1]
    yield from by_day(history, chance)


def by_day(history, chance):
    """Returns the events selected by wall-clock times: from the first event within, before the next event that is
    later or has no time."""
    known = [day for day in history.days if day]
    for _ in range(min(len(known), 3)):
        start, end = sorted((chance.choice(known), chance.choice(known)))
        for words in (["--from", start, "--to", end], ["--from", start], ["--to", end]):
            low, high = ("" if "--from" not in words else start), ("~" if "--to" not in words else end)
            first = next(place for place, day in enumerate(history.days) if day and low <= day <= high)
            behind = (place for place, day in enumerate(history.days) if place > first and "--to" in words and not (day and day <= high))
            tried["by time of day"] += 1
            yield words, first + 1, next(behind, history.count)



def summed(text, *words):
    return explained(text, "--summary", *words), explained(text, "--every", "1ms", *words)


def check_times(what, history, part, first, last):
    """Returns true if the events of an excerpt have the wall-clock times that they have in the whole."""
    tried["with times of day"] += "\nclock," in part
    check(explained(part, "--all", "--wall") == (0, rows_within(history.walls, first - 1, last)), f"{what}: other times of day than in the whole")


def check_part(history, words, first, last):
    """Cuts with these options, which must select the events from first to last of a history. Returns the excerpt."""
    what = f"{history.name}: cut {' '.join(words)}"
    status, part, errors = cut(history.text, *words)
    check((status, errors) == (0, ""), f"{what}: status {status}, {errors}")
    check(explained(part, "--all") == (0, rows_within(history.rows, first - 1, last)), f"{what}: explained otherwise than the whole")
    check(not any(line.startswith(NOTES) for line in part.splitlines()), f"{what}: a note in the excerpt")
    check_times(what, history, part, first, last)
    if history.book:
        check(part == history.part(first, last), f"{what}: another excerpt than the reference's")
    if words[0] != "--event" and not words[-1].endswith("Z"):
        tried["summed up"] += 1
        check(summed(part) == summed(history.text, *words), f"{what}: summed up otherwise than the whole")
    tried["excerpts"] += 1
    return part


def hold(history, chance):
    chosen = list(choices(history, chance))
    parts = [(check_part(history, words, first, last), words, last) for words, first, last in chosen]
    status, found = audited([part for part, *_ in parts])
    check(status == 0, f"{history.name}: status {status} of excerpts that are clean")
    for (_, words, last), got in zip(parts, found):
        check(got == (f"clean,{last}", ""), f"{history.name}: cut {' '.join(words)}: its audit is {got}")
    hold_again(history, chance, [(it, first) for it, (_, first, _) in zip(parts, chosen)])


def hold_again(history, chance, parts):
    """Checks that an excerpt of an excerpt is the excerpt of the whole. The last event that set the
    probability is known only if it is in the first excerpt."""
    for (part, words, last), first in parts:
        event = chance.randrange(first, last + 1)
        words = ["--event", str(event), "--around", str(chance.choice((0, 1, 5)))]
        start, end = max(first, event - int(words[3])), min(last, event + int(words[3]))
        around = (end - start) // 2
        middle = ["--event", str(start + around), "--around", str(around)]
        if end - start == 2 * around:
            tried["cut again"] += 1
            again, what = cut(part, *words), f"{history.name}: events {first} to {last} cut again {' '.join(words)}"
            check(again == cut(history.text, *middle), what)
            check_times(what, history, again[1], start, end)


def named(text, *words):
    """Checks the cut of a file that has a name."""
    with tempfile.TemporaryDirectory() as folder:
        file = Path(folder) / "history"
        file.write_bytes(text.encode())
        status, output, errors = run(["cut", *words, str(file)], b"")
        return status, output.decode(), errors.decode().removeprefix("pie: ").rstrip("\n")


def hold_last(history, chance):
    """Checks cuts of the last events of a file, also if there are fewer, and also of an excerpt."""
    for many in (1, chance.randrange(1, history.count + 1), history.count, history.count + 5, 2**64 - 1):
        first = max(1, history.count - many + 1)
        wanted = cut(history.text, "--event", str(history.count), "--around", str(history.count - first))
        check(named(history.text, "--last", str(many)) == wanted, f"{history.name}: --last {many}")
        part = cut(history.text, "--event", str(history.count), "--around", str(history.count // 2))[1]
        first = max(first, history.count - history.count // 2)
        wanted = cut(part, "--event", str(history.count), "--around", str(history.count - first))
        check(named(part, "--last", str(many)) == wanted, f"{history.name}: --last {many} of an excerpt")


def hold_segments(history, chance):
    """Checks that segments are the excerpts of their events, one after another, and that an audit
    finds that they follow each other."""
    for every in sorted({1, chance.randrange(1, history.count + 1), history.count, history.count + 1} - ({1} if history.count > SMALL else set())):
        status, text, errors = cut(history.text, "--every", str(every))
        what = f"{history.name}: --every {every}"
        check((status, errors) == (0, ""), f"{what}: status {status}, {errors}")
        parts = segments_of(text)
        check(len(parts) == -(-history.count // every), f"{what}: {len(parts)} segments")
        ends = [min(history.count, every * (place + 1)) for place in range(len(parts))]
        for place, (part, last) in enumerate(zip(parts, ends)):
            tried["segments"] += 1
            first = every * place + 1
            check_times(f"{what}: segment {place}", history, part, first, last)
            if history.book:
                check(part == history.part(first, last), f"{what}: segment {place} is another excerpt than the reference's")
            elif place in (0, len(parts) - 1):
                from_first, around = [cut(history.text, "--event", str(last), "--around", str(last - first)), last - first]
                check(from_first[1].startswith(part) and around >= 0, f"{what}: segment {place} is another excerpt")
        wanted = [(f"clean,{last}{' follows' if place else ''}", "") for place, last in enumerate(ends)]
        check(audited(parts, "--joined") == (0, wanted), f"{what}: {audited(parts, '--joined')}")


def check_differing(history, chance):
    """Changes a verdict. An excerpt that ends before it must be unchanged; any other must end with
    that event, or have no event if it would begin after it."""
    verdicts = [place for place, row in enumerate(history.rows) if row[1] == "arrive"]
    if not verdicts:
        return
    event = chance.choice(verdicts)
    lines = history.text.splitlines(keepends=True)
    place = [place for place, line in enumerate(lines) if line.startswith(COMMANDS)][event - 1]
    fields = lines[place].rstrip("\r\n").split(",")
    fields[7] = "mark" if fields[7] == "enqueue" else "enqueue"
    lines[place] = ",".join(fields) + "\n"
    changed, what = "".join(lines), f"{history.name}: event {event} changed"
    if event > 1:
        words = ["--event", str(chance.randrange(1, event))]
        check(cut(changed, *words) == cut(history.text, *words), f"{what}: another cut {' '.join(words)}")
    first = chance.randrange(1, event + 1)
    around = (event - first + 1) // 2
    status, part, errors = cut(changed, "--event", str(first + around), "--around", str(around))
    check((status, errors) == (2, DIFFERS.format(event)), f"{what}: status {status}, {errors}")
    check(part.endswith("\n" + lines[place]), f"{what}: something behind it")
    check(audited([part]) == (2, [(f"differs,{event}", "")]), f"{what}: {audited([part])}")
    if event < history.count:
        check(cut(changed, "--event", str(event + 1)) == (2, "", DIFFERS.format(event)), f"{what}: cut after it")


def out_of_range(history, number, chance):
    """Returns a history with a change to parameters out of their ranges after this many events: its text, the
    record, and its effective moment."""
    before = history.moments[number - 1] if number else history.book.start
    handed_in = chance.choice((0, before, before + 1, before + chance.randrange(2, 10**9), 2**60, 2**64 - 1))
    record = bad_params(handed_in, chance)
    lines = history.text.splitlines(keepends=True)
    places = [*(place for place, line in enumerate(lines) if line.startswith(COMMANDS)), len(lines)]
    return "".join([*lines[: places[number]], record, *lines[places[number] :]]), record, max(before, handed_in)


def check_unmakeable(history, chance):
    """Tries parameters out of their ranges. They are an event that differs: it has a number and a
    moment, and is the last event of an excerpt, copied as it was read."""
    number = chance.randrange(0 if history.book else 1, history.count + 1)
    text, record, moment = out_of_range(history, number, chance)
    what, differs = f"{history.name}: {record[:-1]} behind event {number}", DIFFERS.format(number + 1)
    tried["out of range"] += 1
    at = min(moment, LATEST)
    reached = next((place for place, other in enumerate(history.moments[:number], 1) if other >= at), number + 1)
    chosen = [(["--from", str(at)], reached), (["--event", str(number + 1)], number + 1), *[(["--to", str(at)], 1)][: moment == at]]
    for words, first in chosen:
        status, part, errors = cut(text, *words)
        check((status, errors) == (2, differs), f"{what}: {words}: status {status}, {errors}")
        check(part.endswith("\n" + record), f"{what}: {words}: it isn't the last")
        check(not history.book or part == history.part(first, number) + record, f"{what}: {words}: another excerpt than the reference's")
        check(audited([part]) == (2, [(f"differs,{number + 1}", "")]), f"{what}: {words}: {audited([part])}")
    if 0 < number < reached:
        status, part, errors = cut(text, "--to", str(min(moment - 1, LATEST)))
        check((status, errors) == (0, ""), f"{what}: cut before it: status {status}, {errors}")
        check(not history.book or part == history.part(1, number), f"{what}: cut before it: another excerpt than the reference's")
    check_unmakeable_segments(history, text, record, number, chance.randrange(1, number + 2), what)


def check_unmakeable_segments(history, text, record, number, every, what):
    """Checks that the segments follow each other, and that the last one differs there."""
    status, output, errors = cut(text, "--every", str(every))
    check((status, errors) == (2, DIFFERS.format(number + 1)), f"{what}: --every {every}: status {status}, {errors}")
    parts = segments_of(output)
    ends = [*range(every, number + 1, every), number + 1]
    check(len(parts) == len(ends), f"{what}: --every {every}: {len(parts)} segments")
    check(parts[-1].endswith("\n" + record), f"{what}: --every {every}: it isn't the last")
    if history.book:
        firsts = [1, *(end + 1 for end in ends[:-1])]
        wanted = [history.part(start, min(end, number)) for start, end in zip(firsts, ends)]
        check("".join(wanted) + record == output, f"{what}: --every {every}: other segments than the reference's")
    found = [f"clean,{end}" for end in ends[:-1]] + [f"differs,{number + 1}"]
    wanted = [(f"{one} follows" if place else one, "") for place, one in enumerate(found)]
    check(audited(parts, "--joined") == (2, wanted), f"{what}: --every {every}: {audited(parts, '--joined')}")


def check_nothing(history):
    """Tries selections without an event, and a fault at any place."""
    nothing = (1, "", "no event of the text is selected")
    check(cut(history.text, "--event", str(history.count + 1)) == nothing, f"{history.name}: an event that is not there")
    if history.moments[-1] < LATEST:
        check(cut(history.text, "--from", str(history.moments[-1] + 1)) == nothing, f"{history.name}: a moment after all events")
    damaged = history.text + "depart,1,x,empty\n"
    status, part, errors = cut(damaged, "--event", "1")
    check((status, errors) == (1, audited([damaged])[1][0][1]), f"{history.name}: status {status}, {errors} of a text with a fault")
    check(part == cut(history.text, "--event", "1")[1], f"{history.name}: another excerpt before a fault")


def check_file(history):
    """Checks -o FILE: the excerpt has its name once all of it was written, also if an event differs; at a fault there is no file."""
    with tempfile.TemporaryDirectory() as folder:
        file, words = Path(folder) / "part", ["--from", "0"]
        wanted = cut(history.text, *words)
        check(cut(history.text, *words, "-o", str(file)) == (0, "", "") and file.read_text() == wanted[1], "-o: another excerpt")
        status, *_ = cut(history.text, *words, "-o", str(file))
        check(status == 1, "-o: a file that is there was replaced")
        check(cut(history.text, "--event", "1", "-o", str(file), "--force")[0] == 0, "-o: --force did not replace it")
        other = history.text.replace(",enqueue\n", ",bytes\n", 1)
        found = cut(other, *words, "-o", f"{folder}/differs")
        check(found[0] == 2 and Path(f"{folder}/differs").read_text() == cut(other, *words)[1], "-o: an excerpt that ends with a difference")
        status, _, _ = cut(history.text + "x\n", *words, "-o", f"{folder}/fault")
        check(status == 1 and not Path(f"{folder}/fault").exists(), "-o: a file after a fault")


def main():
    chance = random.Random(FIRST)
    for history in histories():
        if history.count:
            hold(history, chance)
            hold_last(history, chance)
            hold_segments(history, chance)
            check_differing(history, chance)
            check_unmakeable(history, chance)
            check_nothing(history)
    check_file(History("overload", (ROOT / "examples/overload.history").read_text()))
    print(", ".join(f"{number} {what}" for what, number in tried.items()))
    check(all(tried.values()), "something was never tried")
    finish()


main()
