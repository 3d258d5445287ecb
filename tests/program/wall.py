#!/usr/bin/env python3
"""Compares the times of `pie explain --wall`, and those that `--from` and `--to` accept, with Python's dates. The
inputs are random histories of version three by tests/shared/reference.py with clock records at random places: none,
one, or several with jumps between them. Each record of `--all --csv --wall` must have the wall-clock time of its
effective moment by the last clock record before it, and otherwise be the record without the option. The words must
have the time in place of milliseconds, also for the last update. Exactly the events between two times must be
explained and cut, and summaries must have the times of their events. Then the script tries times at the ends of
years, months and days, times before 1970 or past 2^64 - 1 ns, invalid times, and invalid combinations. The exit
status is 1 if something differs.

usage: tests/program/wall.py [PROGRAM [FIRST_SEED [RUNS [STEPS]]]]      PROGRAM: crates/pie/out/pie by default
needs: program
"""
import csv
import os
import random
import re
import sys
from datetime import datetime, timedelta, timezone

sys.path.insert(0, f"{os.path.dirname(os.path.abspath(__file__))}/../shared")
from checks import NAME, expect  # noqa: E402
from explaining import FIRST, RUNS, histories, pie  # noqa: E402
from running import run  # noqa: E402

SECOND, MOST = 10**9, 2**64 - 1
EPOCH = datetime(1970, 1, 1, tzinfo=timezone.utc)
OPENING = "open3,1,stamp,derandomized,capped,unscaled,rolling,0,4,16,1000\n"


def utc(unix, places=9):
    """Returns a time as Python writes it, with this number of decimals of a second."""
    date = EPOCH + timedelta(seconds=unix // SECOND)
    decimals = f".{unix % SECOND:09}"[: places + 1] if places else ""
    return f"{date:%Y-%m-%dT%H:%M:%S}{decimals}Z"


def wall(clock, moment):
    """Returns the wall-clock time at a moment, by a clock record."""
    return min(max(clock[1] + moment - clock[0], 0), MOST)


def timed(history, words):
    """Returns the history with clock records at random places, and for each event the last of them before it, if there is one."""
    kept = [line for line in history.splitlines(keepends=True) if not line.startswith("clock,")]
    chance = words.choice((0, 0.01, 0.1, 0.5))
    out, clocks, clock = kept[:1], [], None
    for line in kept[1:]:
        if words.random() < chance:
            clock = (words.randrange(2**36), words.choice((words.randrange(2**64), 1_795_550_400 * SECOND + words.randrange(10**15))))
            out.append(f"clock,{clock[0]},{clock[1]}\n")
        if line.split(",")[0] in ("arrive", "depart", "update", "reset", "params"):
            clocks.append(clock)
        out.append(line)
    return "".join(out), clocks


def hold_records(name, history, clocks):
    """Checks the fields of --csv --wall. Returns the lines without the option, and the wall-clock time of each event."""
    status, plain, errors = pie(history, "--all", "--csv")
    expect(f"{name}: --csv", (status, errors), (0, ""))
    lines = plain.splitlines(keepends=True)
    moments = [int(line.split(",")[4]) for line in lines[1:]]
    times = [clock and wall(clock, moment) for clock, moment in zip(clocks, moments)]
    wanted = [f"{line[:-1]},{'' if time is None else utc(time)}\n" for line, time in zip(lines[1:], times)]
    expect(f"{name}: --csv --wall", pie(history, "--all", "--csv", "--wall"), (0, f"{lines[0][:-1]},wall\n" + "".join(wanted), ""))
    return lines, times


def hold_words(name, history, clocks):
    """Checks that the words with --wall differ from those without it in the moments only."""
    status, plain, _ = pie(history, "--all")
    wanted, number = [], 0
    for line in plain.splitlines(keepends=True):
        number = int(line.split()[1][:-1]) if line.startswith("event ") else number
        clock = clocks[number - 1]

        def told(found):
            return f"{found[1]}{utc(wall(clock, int(found[2].replace('.', ''))))}"

        wanted.append(line if clock is None else re.sub(r"(^  at |last update at | dropped early before )([0-9.]+) ms", told, line))
    expect(f"{name}: --wall", pie(history, "--all", "--wall"), (status, "".join(wanted), ""))


def hold_within(name, history, lines, times, words):
    """Checks --from and --to with wall-clock times, alone and beside moments."""
    known = [time for time in times if time is not None] or [1_795_550_400 * SECOND]
    for _ in range(4):
        first, last = sorted((words.choice(known), min(words.choice(known) + words.randrange(3), MOST)))
        kept = [time is not None and first <= time <= last for time in times]
        chosen = "".join(line for line, keep in zip(lines[1:], kept) if keep)
        options = ("--from", utc(first), f"--to={utc(last)}")
        expect(f"{name}: {options}", pie(history, "--all", "--csv", *options), (0, lines[0] + chosen, ""))
        moment = int(words.choice(lines[1:]).split(",")[4])
        both = "".join(line for line, time in zip(lines[1:], times) if time is not None and first <= time and int(line.split(",")[4]) <= moment)
        expect(f"{name}: both kinds", pie(history, "--all", "--csv", "--from", utc(first), "--to", f"{moment}ns"), (0, lines[0] + both, ""))
    later = sum(time is not None and time >= known[0] for time in times)
    summed = pie(history, "--summary", "--csv", "--from", utc(known[0]))
    expect(f"{name}: a summary", (summed[0], summed[1].splitlines()[1].split(",")[0]), (0, str(later)))


def hold_cut(name, history, lines, times, words):
    """Compares pie cut by wall-clock times, also together with moments, with the expected events:
    from the first one within the bounds up to the next one that is not before the end. They must be
    explained as in the whole."""
    moments = [int(line.split(",")[4]) for line in lines[1:]]
    known = [time for time in times if time is not None] or [1_795_550_400 * SECOND]
    for _ in range(4):
        first, last = sorted((words.choice(known), min(words.choice(known) + words.randrange(3), MOST)))
        moment = words.choice(moments)
        by_day = [time is not None and first <= time for time in times], [time is not None and time <= last for time in times]
        by_moment = [moment <= it for it in moments], [it <= moment for it in moments]
        every = [True] * len(times)
        day, other = (("--from", utc(first)), (f"--to={utc(last)}",)), (("--from", str(moment)), (f"--to={moment}ns",))
        for options, begun, held in (
            (day[0] + day[1], *by_day), (day[0], by_day[0], every), (day[1], every, by_day[1]),
            (day[0] + other[1], by_day[0], by_moment[1]), (other[0] + day[1], by_moment[0], by_day[1]),
        ):
            start = next((at for at in range(len(times)) if begun[at] and held[at]), None)
            status, part, errors = run(["cut", *options], history.encode())
            if start is None:
                expect(f"{name}: cut {options}", (status, part, bool(errors)), (1, b"", True))
                continue
            end = next((at for at in range(start, len(times)) if not held[at]), len(times))
            wanted = lines[0] + "".join(lines[1:][start:end])
            expect(f"{name}: cut {options}", (status, pie(part.decode(), "--all", "--csv"), errors), (0, (0, wanted, ""), b""))


def told(times, spaces):
    """Returns the words of a summary for these times, or nothing if no time is known."""
    known = [utc(time) for time in times if time is not None]
    return [f"{spaces}in wall-clock time from {known[0]} to {known[-1]}\n"] if known else []


def summed(plain, rows, times):
    """Returns the words of a summary with the wall-clock times of these records: after its first
    line, and after each activation and deactivation."""
    first, *others = plain.splitlines(keepends=True)
    out, ways = [first, *told(times, "  ")], {"  turned on ": ("0", "1"), "  turned off ": ("1", "0")}
    for line in others:
        out.append(line)
        turning = next((ends for way, ends in ways.items() if line.startswith(way)), None)
        if turning:
            out += told([time for row, time in zip(rows, times) if (row["active"], row["active_after"]) == turning], "    ")
    return "".join(out)


def in_utc(lines, walls):
    """Returns lines of intervals with these times in the first column, or with the start of the interval if a time is empty."""
    header, *others = lines
    unit, names = re.fullmatch(r" *time (m?s)(.*)", header).groups()
    out = [f"{'UTC':>30}{names}"]
    for line, wall in zip(others, walls, strict=True):
        start, rest = re.fullmatch(r" *(\S+)(.*)", line).groups()
        start += "000.000" if unit == "s" else "" if "." in start else ".000"
        out.append(f"{wall or start:>30}{rest}")
    return "".join(f"{line}\n" for line in out)


def hold_sums(name, history, lines, times, words):
    """Checks --summary, --every and --digest with --wall: they are those without it, with the wall-clock times."""
    rows = list(csv.DictReader(lines))
    moments = [int(row["effective_moment"]) for row in rows]
    every = (moments[-1] - moments[0]) // words.randrange(2, 9) + 1
    for options, period in ((("--summary",), 2**64), (("--every", str(every), "--full"), every)):
        starts = [0] + [at for at in range(1, len(rows)) if moments[at] // period != moments[at - 1] // period]
        parts = [(rows[start:end], times[start:end]) for start, end in zip(starts, [*starts[1:], len(rows)])]
        header, *plain = pie(history, *options, "--csv")[1].splitlines()
        walls = [next((utc(time) for time in some if time is not None), "") for _, some in parts]
        wanted = [f"{header},wall"] + [f"{line},{wall}" for line, wall in zip(plain, walls, strict=True)]
        expect(f"{name}: {options} --csv --wall", pie(history, *options, "--csv", "--wall"), (0, "".join(f"{it}\n" for it in wanted), ""))
        plain = re.findall(r"^\d+ events, .*\n(?:  .*\n)*", pie(history, *options)[1], re.M)
        wanted = "".join(summed(text, *part) for text, part in zip(plain, parts, strict=True))
        expect(f"{name}: {options} --wall", pie(history, *options, "--wall"), (0, wanted, ""))
    wanted = in_utc(pie(history, "--every", str(every))[1].splitlines(), walls)
    expect(f"{name}: lines --wall", pie(history, "--every", str(every), "--wall"), (0, wanted, ""))
    status, digest, errors = pie(history, "--digest", "--every", str(every), "--wall")
    packets = [pie(history, which, "--wall")[1] for which in ("--lost", "--marked")]
    both = sorted(re.findall(r"^event .*\n(?:  .*\n)*", "".join(packets), re.M), key=lambda it: int(it.split()[1][:-1]))
    expect(f"{name}: --digest --wall: the packets", (status, re.findall(r"^event .*\n(?:  .*\n)*", digest, re.M), errors), (0, both, ""))
    sums = "".join(re.findall(r"^\d+ events, .*\n(?:  .*\n)*", digest, re.M))
    expect(f"{name}: --digest --wall: the summaries", sums, pie(history, "--every", str(every), "--full", "--wall")[1])


def hold_dates():
    """Checks the first and the last nanosecond of each year, of each month of some years, and of other days."""
    days = [datetime(year, 1, 1, tzinfo=timezone.utc) for year in range(1971, 2555)]
    days += [datetime(year, month, 1, tzinfo=timezone.utc) for year in (1972, 1999, 2000, 2026, 2100, 2400) for month in range(1, 13)]
    days += [EPOCH + timedelta(days=day) for day in random.Random(FIRST).sample(range(213503), 400)]
    units = [int((day - EPOCH).total_seconds()) * SECOND + more for day in days for more in (-1, 0)]
    units = [unix for unix in units if unix >= 0] + [0, 1, MOST]
    history = OPENING + "".join(f"clock,0,{unix}\ndepart,1,0,empty\n" for unix in units).replace("1000\n", "1000\n")
    history = history.replace(",16,1000\n", ",16,100000\n")
    status, out, errors = pie(history, "--all", "--csv", "--wall")
    expect("dates", (status, errors, [line.rsplit(",", 1)[1] for line in out.splitlines()[1:]]), (0, "", [utc(unix) for unix in units]))
    some = random.Random(FIRST).sample(units, 60)
    for unix in some:
        text, alone = utc(unix), f"{OPENING}clock,0,{unix}\nreset,1,0,done\n"
        expect(f"--from {text}", pie(alone, "--all", "--csv", "--from", text, "--to", text)[1].count("\n"), 2)
    for places in range(10):
        unix = 1_795_550_400 * SECOND + 123_456_789 // 10 ** (9 - places) * 10 ** (9 - places)
        text, alone = utc(unix, places), f"{OPENING}clock,7,{unix}\nreset,1,7,done\n"
        expect(f"--to {text}", pie(alone, "--all", "--csv", "--from", text, "--to", text)[1].count("\n"), 2)


def hold_ends():
    """Times that are bounded, and events before any record."""
    rows = (
        ("clock,1000,5\n", 0, 0), ("clock,1000,1000\n", 0, 0), ("clock,1000,1001\n", 0, 1), (f"clock,0,{MOST}\n", 1, MOST),
        (f"clock,1,{MOST}\n", 0, MOST - 1), ("clock,1152921504606846975,0\n", 2**60 - 1, 0), ("", 0, None), ("clock,0,1\nclock,0,2\n", 0, 2),
    )
    for clocks, moment, unix in rows:
        history = f"{OPENING}{clocks}reset,1,{moment},done\nclock,0,9\n"
        record = pie(history, "--all", "--csv", "--wall")[1].splitlines()[1]
        expect(f"{clocks!r} at {moment}", record.split(",")[27], "" if unix is None else utc(unix))
        chosen = pie(history, "--all", "--from", "1970-01-01T00:00:00Z")
        expect(f"{clocks!r} chosen", (chosen[0], chosen[1] == ""), (0, unix is None))
    none = "pie: no chosen event is at the moments that are wanted\n"
    expect("no time of day", pie(f"{OPENING}reset,1,0,done\n", "--event", "1", "--to", "2554-01-01T00:00:00Z"), (1, "", none))


def hold_texts():
    """Texts that are no wall-clock times, and options that don't go together."""
    history = f"{OPENING}clock,0,0\nreset,1,0,done\n"
    form = "pie: --from: a wall-clock time must have the form 2026-11-24T20:00:00Z, with at most nine decimals of a second\n"
    for text in ("2026-11-24", "2026-11-24T20:00Z", "2026-11-24T20:00:00", "2026-11-24T20:00:00z", "2026-11-24t20:00:00Z", "2026-11-24 20:00:00Z",
                 "2026-11-24T20:00:00+00:00", "2026-11-24T24:00:00Z", "2026-11-24T20:60:00Z", "2026-11-24T20:00:60Z", "2026-13-24T20:00:00Z",
                 "2026-00-24T20:00:00Z", "2026-11-31T20:00:00Z", "2026-02-29T20:00:00Z", "2100-02-29T20:00:00Z", "2026-11-00T20:00:00Z",
                 "2026-11-24T20:00:00.Z", "2026-11-24T20:00:00.1234567890Z", "2026-11-24T20:00:00,5Z", "2026-11-24T20:00:00Z ",
                 "2026-1-24T20:00:00ZZ", "2026-11-24T20:00:0xZ", "1234-", "20260-11-24T20:00:00Z"):
        expected = form if text != "20260-11-24T20:00:00Z" else (
            "pie: --from: a moment must be a whole number of nanoseconds, or a number with ns, us, ms, s, m or h, such as 1.5ms or 2m\n")
        expect(f"--from {text!r}", pie(history, "--all", f"--from={text}"), (1, "", expected))
    past = "pie: --to: a wall-clock time must be between 1970 and 2554-07-21T23:34:33.709551615Z\n"
    for text in ("1969-12-31T23:59:59.999999999Z", "0000-01-01T00:00:00Z", "2554-07-21T23:34:33.709551616Z", "2554-07-21T23:34:34Z",
                 "9999-12-31T23:59:59Z"):
        expect(f"--to {text!r}", pie(history, "--all", "--to", text), (1, "", past))
    order = "pie: --from must not be after --to\n"
    one, two = "2026-11-24T20:00:00Z", "2026-11-24T20:00:00.000000001Z"
    expect("after", pie(history, "--all", "--from", two, "--to", one), (1, "", order))
    expect("the same", pie(history, "--all", "--from", one, "--to", one), (0, "", ""))
    expect("of two kinds", pie(history, "--all", "--from", two, "--to", "0"), (0, "", ""))
    expect("a cut after", run(["cut", "--from", two, "--to", one], history.encode()), (1, b"", order.encode()))


def main():
    hold_dates()
    hold_ends()
    hold_texts()
    words, held = random.Random(FIRST), 0
    for name, history in histories():
        if not history.startswith("open3,"):
            continue
        held += 1
        history, clocks = timed(history, words)
        lines, times = hold_records(name, history, clocks)
        hold_words(name, history, clocks)
        hold_within(name, history, lines, times, words)
        hold_cut(name, history, lines, times, words)
        hold_sums(name, history, lines, times, words)
    expect("histories of version three", held >= RUNS // 3, True)
    print(f"{NAME}: {held} histories, and the ends of years, months and days: times of day are those of Python's dates")


main()
