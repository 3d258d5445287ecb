#!/usr/bin/env python3
"""Compares `pie explain --summary` and `--every` with a separate computation over the records of
`pie explain --all --csv`. The histories are those of examples/, and random ones of
tests/shared/reference.py. The summaries are in words and as CSV, of all events, of those within some
moments, and of each interval, with its length in each notation. `--every` in words must print the
same numbers as lines, with colours on a terminal only. `--digest` must print these summaries and the
words of `--lost` and `--marked`, in their order. The exit status is 1 if something differs.

usage: tests/program/summary.py [PROGRAM [FIRST_SEED [RUNS [STEPS]]]]      PROGRAM: crates/pie/out/pie by default
needs: program
"""
import contextlib
import os
import pty
import re
import subprocess
import sys
import tempfile
from itertools import compress
from pathlib import Path

sys.path.insert(0, f"{os.path.dirname(os.path.abspath(__file__))}/../shared")
from checks import expect  # noqa: E402
from explaining import LOST, PROGRAM, hold_each, millis, pie, records, within, written  # noqa: E402

VERDICTS = {"enqueue": "queued", "mark": "queued and marked", "early": "dropped early"}
VERDICTS |= {"bytes": "dropped, no room in bytes", "packets": "dropped, no room in packets"}
PICKED = [f"picked_by_{how}{fate}" for how in ("sum", "word") for fate in ("", "_not_capable", "_not_below")]
CAUSES = "no_room_in_bytes no_room_in_packets inactive burst_allowed low_delay short_queue no_probability little_accumulated".split()
CAUSES += [*PICKED, "word_not_below"]
DEFAULT_TARGET = 15_000_000


def share(part, whole):
    parts = part * 10**6 // max(whole, 1)
    return f"{part}, {parts // 10**4}.{parts % 10**4:04} %"


def series(numbers):
    return numbers[0] if numbers else 0, numbers[-1] if numbers else 0, max(numbers, default=0)


def turned(rows, was, now):
    return [int(row["effective_moment"]) for row in rows if row["active"] == was and row["active_after"] == now]


def percentile_99(waits):
    """Returns a wait that at most a hundredth of these waits, rounded down, exceed: raised to the
    greatest number with its first two digits, or to the greatest wait if that is less; 0 if there
    are none."""
    if not waits:
        return 0
    wait = str(sorted(waits)[len(waits) - len(waits) // 100 - 1])
    return min(int(wait[:2] + "9" * (len(wait) - 2)), max(waits))


def with_targets(history, rows):
    """Adds to the records of all events of a history the target before and after each, and the time since the update before it, or the opening."""
    opening, *others = [line.split(",") for line in history.splitlines()]
    place = {"open": 1, "rolling": 1, "open2": 3, "open3": 7}[opening[0]] + (opening[0] == "open3" and opening[6] in ("zero", "half"))
    last, target = int(opening[place]), DEFAULT_TARGET
    if len(opening) > place + 9:
        target = int(opening[-9])
    events = [fields for fields in others if fields[0] in ("arrive", "depart", "update", "reset", "params")]
    for row, fields in zip(rows, events, strict=True):
        row["target"], row["since"] = target, int(row["effective_moment"]) - last
        if row["kind"] == "params":
            target = int(fields[3])
        if row["kind"] == "update":
            last = int(row["effective_moment"])
        row["target_after"] = target


def numbers(rows):
    """Returns the numbers of a summary of these records, in the order of its CSV."""
    moments = [int(row["effective_moment"]) for row in rows]
    arrivals = [row for row in rows if row["kind"] == "arrive"]
    waits = [int(row["waited"]) for row in rows if row["verdict"] == "left"]
    updates = [row for row in rows if row["kind"] == "update"]
    # An active update uses the delay of its own moment; its record has the value before it.
    delays = [int(row["delay"]) for row in updates if row["active"] == "1"]
    probs = [int(row["probability_after"]) for row in rows]
    found = {"events": len(rows), "first_moment": series(moments)[0], "last_moment": series(moments)[1]}
    found |= {"arrivals": len(arrivals), "arrived_bytes": sum(int(row["size"]) for row in arrivals)}
    found |= {verdict: sum(row["verdict"] == verdict for row in arrivals) for verdict in VERDICTS}
    found |= {cause: sum(row["cause"] == cause for row in arrivals) for cause in CAUSES}
    found |= {"left": len(waits), "greatest_wait": series(waits)[2], "mean_wait": sum(waits) // max(len(waits), 1)}
    found |= {"updates": len(updates), "greatest_delay": series(delays)[2], "last_delay": series(delays)[1]}
    found |= {"greatest_probability": series(probs)[2], "last_probability": series(probs)[1]}
    for way, was, now in (("on", "0", "1"), ("off", "1", "0")):
        when = turned(rows, was, now)
        found |= {f"turned_{way}": len(when), f"first_turned_{way}": series(when)[0], f"last_turned_{way}": series(when)[1]}
    found |= {"wait_99": percentile_99(waits), "carried_bytes": sum(int(row["size"]) for row in rows if row["verdict"] == "left")}
    found |= {"last_target": rows[-1]["target_after"] if rows else 0}
    found |= {"last_burst_allowance": int(rows[-1]["burst_allowance_after"]) if rows else 0}
    found |= {"time_above_target": sum(row["since"] for row in updates if row["active"] == "1" and int(row["delay"]) > row["target"])}
    found |= dict(zip(("waited_above_target", "time_waited_above_target"), above_target(rows)))
    return found


def above_target(rows):
    """Returns the number of departed packets that waited longer than the target, and the time during which one of
    these was at the head of the queue: for each packet its excess, at most back to the previous departure or the
    first event."""
    longer = late = 0
    since = int(rows[0]["effective_moment"]) if rows else 0
    for row in rows:
        if row["verdict"] == "left":
            excess, moment = int(row["waited"]) - row["target"], int(row["effective_moment"])
            longer += excess > 0
            late += min(max(excess, 0), moment - since)
            since = moment
    return longer, late


def percent(prob):
    return f"{prob // 10**10}.{prob % 10**10 // 10**6:04} %"


def in_words(n):
    lines = [f"{n['events']} events, from {millis(n['first_moment'])} to {millis(n['last_moment'])}"]
    lines += [f"  {n['arrivals']} arrivals, {n['arrived_bytes']} bytes"]
    lines += [f"    {words}: {share(n[verdict], n['arrivals'])}" for verdict, words in VERDICTS.items()]
    lines += ["  by cause"] + [f"    {cause}: {share(n[cause], n['arrivals'])}" for cause in CAUSES if n[cause]]
    lines += [f"  {n['left']} packets left, with {n['carried_bytes']} bytes; they waited at most {millis(n['greatest_wait'])},"]
    lines += [f"    on average {millis(n['mean_wait'])}, and 99 of 100 at most {millis(n['wait_99'])}"]
    lines += [f"  {n['updates']} updates; the greatest delay was {millis(n['greatest_delay'])}, and the last {millis(n['last_delay'])}"]
    lines += [f"  the greatest probability was {percent(n['greatest_probability'])}, and the last {percent(n['last_probability'])}"]
    above, late = n["time_above_target"], n["time_waited_above_target"]
    longer = share(n["waited_above_target"], n["left"]).replace(", ", " packets, ")
    lines += [f"  the delay was above the target for {millis(above)}"]
    lines += [f"  {longer} of those that left, waited longer than the target,", f"    at the head of the queue for {millis(late)}"]
    if above < late // 2 or late < above // 2:
        lines += [f"    the delay differs from the waits: it was above the target for {millis(above)}, and waits for {millis(late)};"]
        lines += ["    if the delay is estimated from the departure rate, measure it by time stamps instead"]
    burst = n["last_burst_allowance"]
    lines += [f"  after the last event the target was {millis(n['last_target'])}, and the burst allowance {millis(burst)}{':' if burst else ''}"]
    lines += ["    until it is used up, no packet is marked or dropped early"] if burst else []
    for way in ("on", "off"):
        if n[f"turned_{way}"]:
            first, last = millis(n[f"first_turned_{way}"]), millis(n[f"last_turned_{way}"])
            lines += [f"  turned {way} {n[f'turned_{way}']} times, first at {first}, and last at {last}"]
    return "".join(line + "\n" for line in lines)


NAMES = "arrived marks early tail mean ms 99th ms delay ms prob % bytes"
WIDTHS = (7, 5, 5, 5, 7, 7, 8, 7, 9)


def thousandths(time, count=1):
    """Returns a time in milliseconds, rounded down to microseconds; a dash if `count`, the number of its events, is 0."""
    return f"{time // 10**6}.{time % 10**6 // 10**3:03}" if count else "-"


def start_column(every):
    """Returns name, width and form of the starts of intervals of this length."""
    if every % 10**9 == 0:
        return "time s", 11, lambda start: str(start // 10**9)
    if every % 10**6 == 0:
        return "time ms", 13, lambda start: str(start // 10**6)
    return "time ms", 17, thousandths


def in_lines(summaries, every):
    """Returns the lines of intervals of this length, under a header."""
    name, wide, start = start_column(every)
    rows = [[name, *re.findall(r"\w+ ms|prob %|\w+", NAMES)]] if summaries else []
    for n in summaries:
        first, tail = n["first_moment"], n["bytes"] + n["packets"]
        times = [thousandths(n["mean_wait"], n["left"]), thousandths(n["wait_99"], n["left"]), thousandths(n["last_delay"], n["updates"])]
        prob = f"{n['last_probability'] // 10**10}.{n['last_probability'] % 10**10 // 10**6:04}"
        rows.append([start(first - first % every), n["arrivals"], n["mark"], n["early"], tail, *times, prob, n["carried_bytes"]])
    return "".join(" ".join(f"{cell:>{width}}" for cell, width in zip(row, (wide, *WIDTHS))) + "\n" for row in rows)


def in_csv(summaries):
    lines = [numbers([]).keys()] + [(str(value) for value in n.values()) for n in summaries]
    return "".join(",".join(line) + "\n" for line in lines)


def by_period(rows, every):
    """Returns the numbers of each interval that has a record."""
    periods = [int(row["effective_moment"]) // every for row in rows]
    return [numbers([row for row, period in zip(rows, periods) if period == wanted]) for wanted in sorted(set(periods))]


def digest(rows, every, told, packets):
    """Returns the summaries of intervals of these records, each before the words for the first packet of the next interval."""
    periods = [int(row["effective_moment"]) // every for row in rows]
    starts = [place for place in range(len(rows)) if place == 0 or periods[place] != periods[place - 1]]
    lines = []
    for start, end in zip(starts, [*starts[1:], len(rows)]):
        lines += [packets[row["number"]] for row in rows[start:end] if row["number"] in packets]
        lines.append(told([numbers(rows[start:end])]))
    return "".join(lines)


def hold_digest(name, history, words, options, rows, every):
    """Checks that summaries and packets, if written together, are those that are written separately."""
    packets = {}
    for which in ("--lost", "--marked"):
        for text in re.findall(r"^event .*\n(?:  .*\n)*", pie(history, which, *options)[1], re.M):
            packets[text.split()[1][:-1]] = text
    period = f"--every={written(every, words)}"
    got = pie(history, "--digest", *options, period)
    expect(f"{name}: --digest {period} {options}", got, (0, digest(rows, every, lambda some: "".join(map(in_words, some)), packets), ""))
    header, record = (lambda some: in_csv(some).split("\n", 1)[0] + "\n"), (lambda some: in_csv(some).split("\n", 1)[1])
    got = pie(history, "--csv", "--digest", *options, period)
    expect(f"{name}: --digest --csv {period} {options}", got, (0, header([numbers([])]) + digest(rows, every, record, packets), ""))
    marked = [row for row in rows if row["verdict"] == "mark"]
    got = pie(history, "--marked", "--csv", "--digest", *options)
    summary = digest(marked, 2**64, record, packets) or record([numbers([])])
    expect(f"{name}: --digest --marked {options}", got, (0, header([numbers([])]) + summary, ""))


def hold(name, history, words):
    _, rows, moments = records(name, history)
    with_targets(history, rows)
    length = max(moments[-1] - moments[0], 100)
    for options, are_kept in within(moments, words):
        kept = list(compress(rows, are_kept))
        hold_digest(name, history, words, options, kept, length // words.randrange(3, 30) + 1)
        lost = [row for row in kept if row["verdict"] in LOST]
        for which, some in (((), kept), (("--all",), kept), (("--lost",), lost)):
            every = words.choice((10**6, 10**9, length // 2 + 1, length // words.randrange(3, 30) + 1))
            period = f"--every={written(every, words)}"
            periods = by_period(some, every)
            for form, told in (((), lambda n: "".join(map(in_words, n))), (("--csv",), in_csv)):
                got = pie(history, *words.choice(((), ("--summary",))) if not which else ("--summary",), *form, *which, *options)
                expect(f"{name}: --summary {form} {which} {options}", got, (0, told([numbers(some)]), ""))
                got = pie(history, *options, *which, *form, "--full", period)
                expect(f"{name}: {period} {form} {which} {options}", got, (0, told(periods), ""))
            got = pie(history, *options, *which, period)
            expect(f"{name}: lines by {period} {which} {options}", got, (0, in_lines(periods, every), ""))


def lengths():
    """Texts that are no length of an interval."""
    history = "open,0,4,16,100\nreset,1,1500000,done\n"
    for text in ("0", "0ms", "0.000000s"):
        expect(f"--every {text}", pie(history, "--every", text), (1, "", "pie: --every: the interval must be at least 1 ns\n"))
    form = "pie: --every: a moment must be a whole number of nanoseconds, or a number with ns, us, ms, s, m or h, such as 1.5ms or 2m\n"
    expect("--every soon", pie(history, "--every", "soon"), (1, "", form))


def of_nothing():
    """Checks a history without events, and selections of none: --summary writes one of zeros, --every none."""
    for history in ("open,0,4,16,100\n", "open,0,4,16,100\nreset,1,1500000,done\n"):
        for which in ([] if "reset" not in history else ["--lost"], ["--lost", "--from", "1ms"]):
            expect(f"--summary {which} of nothing", pie(history, "--summary", "--csv", *which), (0, in_csv([numbers([])]), ""))
            for words in (["--every", "1s"], ["--every=1s", "--digest"], ["--every", "1"]):
                expect(f"{words} {which} of nothing", pie(history, "--csv", *words, *which), (0, in_csv([]), ""))
                expect(f"{words} {which} of nothing, in words", pie(history, *words, *which), (0, "", ""))


def many_intervals():
    """Checks 3,000 intervals of one event each."""
    history = "open2,1,rolling,0,4,16,1099511627776\n" + "".join(f"depart,1,{moment},empty\n" for moment in range(3000))
    _, rows, _ = records("3,000 intervals", history)
    with_targets(history, rows)
    each = [numbers([row]) for row in rows]
    for words in (["--every=1ns", "--full"], ["--every=1ns", "--digest"]):
        expect(f"3,000 intervals: {words}", pie(history, *words), (0, "".join(map(in_words, each)), ""))
        expect(f"3,000 intervals: --csv {words}", pie(history, "--csv", *words), (0, in_csv(each), ""))
    expect("3,000 lines", pie(history, "--every=1ns"), (0, in_lines(each, 1), ""))


def all_moments():
    """Checks that the columns of lines are those of the header from moment 0 to the greatest moment of a text."""
    moments = [0, 9_999_999_999_999, 10**13, 10**16, 10**17, 2**60 - 1]
    history = "open2,1,rolling,0,4,16,1099511627776\n" + "".join(f"depart,1,{moment},empty\n" for moment in moments)
    _, rows, _ = records("all moments", history)
    with_targets(history, rows)
    for every, width in ((1, 86), (1_500_000, 86), (10**6, 82), (10**8, 82), (10**9, 80), (3600 * 10**9, 80)):
        got = pie(history, f"--every={every}")
        expect(f"all moments by {every}", got, (0, in_lines(by_period(rows, every), every), ""))
        expect(f"the widths of all moments by {every}", {len(line) for line in got[1].splitlines()}, {width})


def on_terminal(history, words, **variables):
    """Returns the output of `pie explain` on a terminal, with these variables of the environment."""
    environment = {name: value for name, value in os.environ.items() if name != "NO_COLOR"} | variables
    with tempfile.NamedTemporaryFile("w") as file:
        file.write(history)
        file.flush()
        screen, terminal = pty.openpty()
        with subprocess.Popen([PROGRAM, "explain", *words, file.name], stdin=subprocess.DEVNULL, stdout=terminal, stderr=subprocess.DEVNULL, env=environment) as ran:
            os.close(terminal)
            written = b""
            with contextlib.suppress(OSError):  # (the end of a terminal)
                while more := os.read(screen, 65536):
                    written += more
            os.close(screen)
    return ran.returncode, written.decode().replace("\r\n", "\n")


def lines_on_a_terminal():
    """Checks that a header is before each 40 lines of intervals on a terminal, and that the header is bold and packets without room are red there,
    unless NO_COLOR is set and not empty, or TERM is dumb."""
    history = "open2,1,rolling,0,4,16,1099511627776\n" + "".join(f"arrive,1,{moment},7,100,not,0,{'enqueue' if moment < 4 else 'packets'}\n" for moment in range(100))
    _, rows, _ = records("100 intervals", history)
    with_targets(history, rows)
    header, *lines = in_lines([numbers([row]) for row in rows], 1).splitlines()
    expect("lines in a file", pie(history, "--every=1ns"), (0, "".join(f"{line}\n" for line in [header, *lines]), ""))
    red = [re.sub(r"^( *\S+ +\S+ +\S+ +\S+ )(    1)", "\\1\x1b[31m\\2\x1b[0m", line) for line in lines]
    expect("lines with a packet without room", sum(line != other for line, other in zip(lines, red)), 96)
    bold = f"\x1b[1m{header}\x1b[0m"
    for variables, above, below in (({}, bold, red), ({"NO_COLOR": ""}, bold, red), ({"NO_COLOR": "1"}, header, lines), ({"TERM": "dumb"}, header, lines), ({"TERM": "dumber"}, bold, red), ({"NO_COLOR": "yes"}, header, lines)):
        wanted = "".join((f"{above}\n" if place % 40 == 0 else "") + f"{line}\n" for place, line in enumerate(below))
        expect(f"lines on a terminal with {variables}", on_terminal(history, ["--every=1ns"], **variables), (0, wanted))
    with tempfile.TemporaryDirectory() as folder:
        expect("no output on a terminal", on_terminal(history, ["--every=1ns", "-o", f"{folder}/lines"]), (0, ""))
        expect("lines in a file of a terminal's user", Path(f"{folder}/lines").read_text(), "".join(f"{line}\n" for line in [header, *lines]))


def main():
    of_nothing()
    lengths()
    many_intervals()
    all_moments()
    lines_on_a_terminal()
    hold_each(hold, "they are summed up as they have to be")


main()
