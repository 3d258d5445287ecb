#!/usr/bin/env python3
"""Tests `pie what-if` over random histories and excerpts, with each profile and each combination of the optional elements.
The reference controller of tests/shared/reference_resumed.py decides the other history and the control.

- The output of `-o -` must be the reference's other history, byte for byte, and its audit must be clean. Without a
  parameter it must be the control. The counts of omitted commands must be the reference's.
- Each number of the comparison must be the one of `pie explain --summary --csv` for an excerpt of the events after the
  inserted record, and each difference that of other and control. If the parameters are unchanged, it must be 0.
- A text with a fault or an event that differs, a moment after the text, and options that are not valid must be refused
  with a line that names the cause, without any output. An existing file must then be unchanged.
- Texts of great sizes: 5000 queued packets, callers up to 65535, events after number 2^32, a million records.

usage: tests/program/what_if.py [PROGRAM [FIRST_SEED [RUNS]]]      PROGRAM: crates/pie/out/pie by default
needs: program
"""
import json
import random
import sys
import tempfile
from collections import Counter
from pathlib import Path

sys.path.insert(0, str(Path(__file__).resolve().parents[1] / "shared"))
from checks import ROOT, check, finish  # noqa: E402
from excerpts import audited, explained  # noqa: E402
from reference import FIELDS, elements_of, history_of, random_run, record_of  # noqa: E402
from reference_resumed import begun, history_rows, opening_of, resumed_at  # noqa: E402
from reference_texts import bad_parameter, records, text_of  # noqa: E402
from running import run  # noqa: E402

FIRST, RUNS = ([int(word) for word in sys.argv[2:4]] + [1, 240][len(sys.argv[2:4]) :])[:2]
STEPS = 70
LINE = "senders do not react: each packet arrives, and the link is ready, at the moments of the history"
KINDS = {"arrive": "arrivals", "depart": "departures", "update": "updates", "reset": "resets", "set": "params"}
COLUMNS = ["field", "recorded", "control", "other", "difference"]
OPTIONS = dict(zip(FIELDS, ("target", "tupdate", "max_burst", "alpha", "beta", "mean_pkt", "limit", "mark_ecnth", "dq_threshold")))
NOTES = (["refused", 3, 5], ["folded", 2], ["shown", 1, 5, 1, 500, 0, 0, 0, 0, 0, 0, 0, 1], ["clock", 9, 1_700_000_000_000_000_000])
tried = Counter()


def pie(words, text):
    status, output, errors = run(["what-if", *words], text.encode())
    return status, output.decode(), errors.decode()


# ----- The other history

def other_params(chance):
    """Returns some parameters with other values, and their options."""
    values = {
        "target": chance.choice((2, 300_000, 1_000_000, 5_000_000, 10**10)), "t_update": chance.choice((1, 700_000, 1_500_000, 3_000_000)),
        "max_burst": chance.choice((0, 1_000_000, 10**12)), "alpha": chance.randrange(33), "beta": chance.randrange(33),
        "mean_pkt": chance.choice((1, 300, 1024, 65535)), "limit_bytes": chance.choice((1, 1500, 4000, 10_000, 2**30)),
        "mark_ecnth": chance.choice((0, 10**11, 10**12)), "dq_threshold": 2 ** chance.randrange(10, 17)}
    chosen = chance.sample(FIELDS, chance.choice((0, 1, 1, 2, 3, 9)))
    options = [word for name in chosen for word in (f"--{OPTIONS[name]}", written(chance, name, values[name]))]
    return {name: values[name] * 1000 // 16 if name in ("alpha", "beta") else values[name] for name in chosen}, options


def written(chance, name, value):
    """Returns the value of an option: a time has a unit."""
    if name not in ("target", "t_update", "max_burst"):
        return str(value)
    return f"{value // 1000}us" if value % 1000 == 0 and chance.random() < 0.5 else f"{value}ns"


class Other:
    """The other history of a text, whose events are those of the book after the first `before`."""

    def __init__(self, text_rows, book, before, start, other):
        self.core = begun(records("".join(map(text_of, resumed_at(book, before)))))[0]
        self.before, self.omitted, self.rows, self.changes_later = None, Counter(), [], False
        events = iter(book.events[before:])
        for row in text_rows:
            if row in NOTES:
                self.rows += [row] if self.before is None or row[0] == "clock" else []
                continue
            caller, command, _ = next(events)
            if self.before is None and command[1] >= start:
                self.before, self.params = self.core.count, dict(self.core.params)
                self.decide(0, ("set", start, over(self.core.params, other)))
            if self.before is not None and command[0] == "set":
                self.changes_later = True
                command = ("set", command[1], over(dict(zip(FIELDS, command[2])), other))
            self.decide(caller, command)

    def decide(self, caller, command):
        """Adds the record of a command, or counts a refused one."""
        answer = self.core.step(command)
        if answer is None:
            self.omitted[KINDS[command[0]]] += 1
        else:
            self.rows.append(history_of(record_of(caller, command), 0, answer))

    def summary(self, beginning):
        """Returns the names and the numbers of a summary of the events after the inserted one."""
        return summary_after("".join(map(text_of, [*beginning, *self.rows])), self.before + 1, self.core.count)


def summary_after(text, number, count):
    """Returns the names and the numbers of a summary of the events after this one, of `count` events."""
    if number == count:
        names = explained(text, "--summary", "--from", str(2**60 - 1))[1][0]
        return names, ["0"] * len(names)
    status, piece, _ = run(["cut", "--event", str(count), "--around", str(count - number - 1)], text.encode())
    check(status == 0, f"a piece after event {number}: {status}")
    return explained(piece.decode(), "--summary")[1]


def over(params, other):
    return tuple({**params, **other}.values())


# ----- The checks

def text_for(chance, seed):
    """Returns a book, the number of events before the text, its beginning, and its records, with some notes and clock records."""
    most = chance.choice((2**30, 2**30, 40))
    book = random_run(seed, STEPS, 7, 2**20, most, False, seed % 3 == 0, 1 + (seed >> 5 ^ seed) % 2, elements_of(seed * 21))[0]
    before = chance.choice((0, 0, len(book.events) // 3, len(book.events) - 5))
    beginning = resumed_at(book, before, chance.random() < 0.5) if before else [opening_of(book)]
    rows = list(history_rows(book, before))
    for note in chance.sample(NOTES, 2):
        rows.insert(chance.randrange(len(rows) + 1), note)
    return book, before, beginning, rows


def wanted_numbers(text, count, beginning, control, other):
    """Returns the rows of a comparison of a text of `count` events."""
    names, own = summary_after(text, control.before, count)
    columns = zip(names, own, control.summary(beginning)[1], other.summary(beginning)[1])
    omitted = ((f"omitted_{kind}", 0, control.omitted[kind], other.omitted[kind]) for kind in KINDS.values())
    rows = [(name, *map(int, numbers)) for name, *numbers in (*columns, *omitted)]
    return [(*row, row[3] - row[2]) for row in rows]


def hold_comparison(name, text, wanted, words, warned=""):
    """Checks the comparison in each form, by its rows."""
    status, output, errors = pie([*words, "--csv"], text)
    check((status, errors) == (0, f"{warned}pie: {LINE}\n"), f"{name}: a comparison: {status}, {errors}")
    header, *lines = [line.split(",") for line in output.splitlines()]
    rows = [[field, *map(str, numbers), f"{difference:+}" if difference else "0"] for field, *numbers, difference in wanted]
    check(header == COLUMNS and lines == rows, f"{name}: {words}: the comparison differs: {[pair for pair in zip(lines, rows) if pair[0] != pair[1]]}")
    status, output, errors = pie([*words, "--json"], text)
    objects = [json.loads(line) for line in output.splitlines()]
    check((status, errors) == (0, f"{warned}pie: {LINE}\n") and objects == [dict(zip(COLUMNS, row)) for row in wanted], f"{name}: JSON: {status}, {errors}, {objects}")
    status, output, errors = pie(words, text)
    first, *meanings, heads = output.splitlines()[:6]
    *lines, last = output.splitlines()[6:]
    check((status, errors, first) == (0, warned, LINE) and heads.split() == COLUMNS, f"{name}: a comparison in words: {status}, {errors}, {first}")
    check([line.split(":")[0] for line in meanings] == COLUMNS[1:] and last.startswith("above_target: "), f"{name}: the columns are {meanings}, {last}")
    names = [line.split()[0] for line in lines]
    check(names == [field for field, *numbers, _ in wanted if any(numbers)], f"{name}: a comparison in words has {names}")
    tried["comparisons"] += 1
    tried.update(f"{field} by the control alone" for field, recorded, control, *_ in wanted if field == "early" and recorded != control)


def hold_same(name, text, control, words):
    """Checks that parameters with the values of the history have no effect, unless the history changes them later."""
    if control.changes_later:
        return
    for name_of, value in control.params.items():
        if name_of not in ("alpha", "beta"):
            words = [*words, f"--{OPTIONS[name_of]}", f"{value}ns" if name_of in ("target", "t_update", "max_burst") else str(value)]
    lines = [line.split(",") for line in pie([*words, "--csv"], text)[1].splitlines()[1:]]
    check(lines and all(line[2:] == [line[2], line[2], "0"] for line in lines), f"{name}: unchanged parameters have an effect: {words}, {lines}")
    tried["unchanged parameters"] += 1


def hold_refused(name, book, beginning, rows, start, chance):
    """Checks that a text with an event that differs, or with a fault, has no other history."""
    places = [at for at, row in enumerate(rows) if row[0] == "update"]
    if not places:
        return
    place = chance.choice(places)
    number = len(book.events) - sum(row not in NOTES for row in rows[place + 1 :])
    changed = [*rows[place][:-1], int(rows[place][-1]) ^ 1]
    text = "".join(map(text_of, [*beginning, *rows[:place], changed, *rows[place + 1 :]]))
    for words in ([], ["-o", "-"]):
        status, output, errors = pie(["--from", str(start), *words], text)
        check(status == 1 and errors == f"pie: event {number} is not what the rules give there, so the history is not decided again\n"
              and not output, f"{name}: a text that differs: {status}, {errors}")
    text = "".join(map(text_of, [*beginning, *rows])) + "arrive,1,2\n"
    status, output, errors = pie(["--from", str(start)], text)
    check((status, output) == (1, "") and errors == f"pie: record {len(beginning) + len(rows) + 1}: wrong number of fields\n", f"{name}: a fault: {status}, {errors}")
    tried["refused texts"] += 1


def hold(seed):
    chance, name = random.Random(seed), f"seed {seed}"
    book, before, beginning, rows = text_for(chance, seed)
    text = "".join(map(text_of, [*beginning, *rows]))
    moments = [command[1] for _, command, _ in book.events[before:]]
    start = chance.choice((0, chance.choice(moments), max(moments), max(0, chance.choice(moments) - 1)))
    other, options = other_params(chance)
    check(not bad_parameter(over(book.opened, other)), f"{name}: the test's parameters are out of range: {other}")
    changed, control = Other(rows, book, before, start, other), Other(rows, book, before, start, {})
    wanted = "".join(map(text_of, [*beginning, *changed.rows]))
    words = ["--from", str(start), *options]
    status, output, errors = pie([*words, "-o", "-"], text)
    omitted = "".join(f"pie: omitted {'records params' if kind == 'params' else kind}, which the other history refuses at their place: {changed.omitted[kind]}\n"
                      for kind in KINDS.values() if changed.omitted[kind])
    rounded = "".join(f"pie: warning: {it} is rounded down to a whole number of thousandths per second\n" for it in ("alpha", "beta")
                      if f"--{it}" in options and int(options[options.index(f"--{it}") + 1]) % 2)
    check((status, errors) == (0, f"{rounded}pie: {LINE}\n{omitted}"), f"{name}: {words}: status {status}, {errors}")
    check(output == wanted, f"{name}: {words}: another history: {difference_of(output, wanted)}")
    check(audited([output]) == (0, [(f"clean,{changed.core.count}", "")]), f"{name}: {words}: the audit of the other history: {audited([output])}")
    hold_comparison(name, text, wanted_numbers(text, len(book.events), beginning, control, changed), words, rounded)
    hold_same(name, text, control, ["--from", str(start)])
    hold_refused(name, book, beginning, rows, start, chance)
    late = pie(["--from", str(max(moments) + 1)], text)
    check(late == (1, "", "pie: no event of the text has this moment or a later one\n"), f"{name}: a moment after the text: {late}")
    tried.update({"histories": 1, "excerpts": int(before > 0), "other answers": int(output != text), "without parameters": int(not other),
                  "other verdicts": sum(one != two for one, two in zip(verdicts(output), verdicts(text))),
                  "omitted notes": len([row for row in rows if row in NOTES]) - len([row for row in changed.rows if row in NOTES]),
                  **{f"omitted {kind}": number for kind, number in changed.omitted.items()}})


def verdicts(text):
    return [line.rpartition(",")[2] for line in text.splitlines() if line.startswith("arrive")]


def difference_of(output, wanted):
    """Returns the first lines of two texts that are not the same."""
    pairs = zip(output.splitlines(), wanted.splitlines())
    return next(((at + 1, *pair) for at, pair in enumerate(pairs) if pair[0] != pair[1]), (len(output), len(wanted)))


def hold_words():
    """Checks the messages for options that are not valid, and what happens to an existing file."""
    text = "open,0,4,16,100\narrive,1,10,7,1500,ect0,0,enqueue\ndepart,2,25,left,7,1500,ect0\n"
    element = "pie: what-if cannot change --{}: the first record of a history chooses the profile and the elements for all its events\n"
    moment = "pie: --from: a moment must be a whole number of nanoseconds, or a number with ns, us, ms, s, m or h, such as 1.5ms or 2m\n"
    time = "pie: --{} must be a number with ns, us, ms or s, such as 20ms\n"
    form = "pie: --csv, --json and -o FILE cannot be combined: -o writes the other history, and no comparison\n"
    for words, line in (
        ([], "pie: what-if needs --from MOMENT; see pie what-if --help\n"),
        (["--from", "soon"], moment),
        (["--from", "5", "--target", "x"], time.format("target")),
        (["--from", "5", "--target", "5"], time.format("target")),
        (["--from", "5", "--tupdate", "16"], time.format("tupdate")),
        (["--from", "5", "--max_burst", "150"], time.format("max_burst")),
        (["--from", "5", "--target", "1ns"], "pie: the parameter target is out of its range\n"),
        (["--from", "5", "--target", "11s"], "pie: the parameter target is out of its range\n"),
        (["--from", "5", "--dq_threshold", "1500"], "pie: the parameter dq_threshold is out of its range\n"),
        (["--from", "5", "--limit", "50ms"], "pie: --limit takes a whole number from 1 to 1073741824"),
        (["--from", "5", "--delay", "stamp"], element.format("delay")),
        (["--from", "5", "--profile=2"], element.format("profile")),
        (["--from", "5", "--decay", "half"], element.format("decay")),
        (["--from", "5", "--csv", "--json"], form),
        (["--from", "5", "--csv", "-o", "-"], form),
        (["--from", "5", "--json", "-o", "-"], form),
        (["--from", "5", "no such file"], "pie: no such file: No such file or directory"),
    ):
        status, output, errors = pie(words, text)
        check((status, output) == (1, "") and line in errors, f"{words}: {status}, {output}, {errors}")
    with tempfile.TemporaryDirectory() as folder:
        made, line = Path(folder) / "made", "params,0,5,{},15000000,150000000,125,1250,1024,262144,100000000000,16384,done"
        control, other = (text.replace("\n", f"\n{line.format(target)}\n", 1) for target in (15_000_000, 5_000_000))
        check(pie(["--from", "5", "-o", str(made)], text)[0] == 0 and made.read_text() == control, f"with -o the file has another text: {made.read_text()}")
        status, output, errors = pie(["--from", "5", "--target", "5ms", "-o", str(made)], text)
        check(status == 1 and made.read_text() == control, f"a file is replaced without --force: {status}, {errors}")
        status, output, errors = pie(["--from", "5", "--force", "-o", str(made)], text.replace("enqueue", "early"))
        check(status == 1 and made.read_text() == control, f"a file is replaced after a difference: {status}, {errors}")
        status, output, errors = pie(["--from", "5", "--target", "5ms", "--force", "-o", str(made)], text)
        check((status, output) == (0, "") and made.read_text() == other, f"--force: {status}, {errors}, {made.read_text()}")


# ----- Worked comparisons

STAMP = "open3,1,stamp,derandomized,capped,unscaled,rolling"


def hold_unchanged():
    """Checks that the unchanged target has no effect on a history whose delay is estimated by the departure rate, that
    another target has one, and what the last line names."""
    text = (ROOT / "examples/overload.history").read_text()
    for words, is_changed in ((["--target", "15ms"], False), (["--mark_ecnth", "5"], False), (["--target", "5ms"], True)):
        lines = [line.split(",") for line in pie(["--from", "400ms", *words, "--csv"], text)[1].splitlines()[1:]]
        check(any(line[4] != "0" for line in lines) == is_changed and any(line[1] != line[2] for line in lines), f"{words}: {lines}")
    last = pie(["--from", "400ms", "--target", "5ms"], text)[1].splitlines()[-1]
    check(last == "above_target: above the target of the column, at its end 15.000000 ms, 15.000000 ms and 5.000000 ms", last)
    omitted = [line for line in pie(["--from", "0", "--tupdate", "16ms", "--csv"], text)[1].splitlines() if line.startswith(("omitted", "updates"))]
    check(omitted == ["updates,59,59,29,-30", "omitted_arrivals,0,0,0,0", "omitted_departures,0,0,0,0", "omitted_updates,0,0,30,+30",
                      "omitted_resets,0,0,0,0", "omitted_params,0,0,0,0"], f"--tupdate 16ms: {omitted}")


def hold_wall():
    """Checks a wall-clock time as the moment: it counts from a clock record on, and the change has the moment of the
    first event at that time."""
    day, params = 1_700_000_000_000_000_000, "15000000,15000000,150000000,125,1250,1024,262144,100000000000,16384"
    first = f"{STAMP},0,100,100,100000,{params}\narrive,1,50,7,1500,ect0,0,enqueue\nclock,10,{day}\n"
    text = first + "arrive,1,60,8,1500,ect0,0,enqueue\nfolded,1\ndepart,2,71,left,7,1500,ect0\nclock,9,5\nfolded,1\n"
    wanted = text.replace("depart", f"params,0,71,{params},done\ndepart").replace("5\nfolded,1\n", "5\n")
    for moment in ("2023-11-14T22:13:20.000000051Z", "2023-11-14T22:13:20.000000061Z"):
        status, output, errors = pie(["--from", moment, "-o", "-"], text)
        check((status, output) == (0, wanted), f"from {moment}: {status}, {output}, {errors}")
    for moment, after in (("2023-11-14T22:13:20.000000050Z", first), ("2020-01-01T00:00:00Z", first)):
        output = pie(["--from", moment, "-o", "-"], text)[1]
        check(output.startswith(f"{after}params,0,60,"), f"from {moment}: {output}")
    status, output, errors = pie(["--from", "2023-11-14T22:13:20.000000062Z"], text)
    check((status, output, errors) == (1, "", "pie: no event of the text has this moment or a later one\n"), f"a time after the text: {status}, {output}, {errors}")


# ----- Great sizes

def hold_numbers(name, text, words, count):
    """Checks the comparison of a great text by the number of events in its columns."""
    status, output, errors = pie([*words, "--target", "5ms", "--csv"], text)
    lines = output.splitlines()
    is_right = (status, errors) == (0, f"pie: {LINE}\n") and lines[1] == f"events,{count},{count},{count},0"
    check(is_right, f"{name}: {status}, {errors}, {lines[:3]}")
    tried["great texts"] += 1


def excerpt_after(text, count, events):
    """Returns the lines of the excerpt of the events after the first `count`, of this many."""
    status, piece, errors = run(["cut", "--event", str(events), "--around", str(events - count - 1)], text.encode())
    check(status == 0, f"an excerpt after event {count}: {status}, {errors}")
    return piece.decode().splitlines()


def hold_great():
    """Checks an excerpt with many queued packets, great callers, numbers of events above 2^32, and a million records."""
    first = f"{STAMP},0,8192,10,1099511627776,15000000,15000000,1000000000000,125,1250,1024,1073741824,100000000000,16384\n"
    arrivals = [f"arrive,1,{at},{at},100,not,0,enqueue\n" for at in range(1, 5001)]
    whole = first + "".join(arrivals) + "depart,2,6001,left,1,100,not\ndepart,2,6002,left,2,100,not\n"
    piece = excerpt_after(whole, 5000, 5002)
    check(sum(line.startswith("queued") for line in piece) == 5000, "the excerpt has other packets")
    hold_numbers("5000 queued packets", "\n".join([*piece, ""]), ["--from", "6001"], 2)
    hold_numbers("great callers", first + "".join(line.replace("arrive,1,", "arrive,65535,") for line in arrivals[:9]), ["--from", "5"], 5)
    few = excerpt_after(first + "".join(arrivals[:3]) + "depart,2,6001,left,1,100,not\n", 3, 4)
    row = few[0].split(",")
    row[-31], row[-7] = str(int(row[-31]) + 2**32), str(int(row[-7]) + 2**32)
    late = "\n".join([",".join(row), *few[1:], ""])
    hold_numbers("numbers above 2^32", late, ["--from", "5"], 1)
    differs = pie(["--from", "0"], late.replace("left,1,100", "left,1,101"))
    line = f"pie: event {2**32 + 4} is not what the rules give there, so the history is not decided again\n"
    check(differs == (1, "", line), f"a difference above 2^32: {differs}")
    pairs = (f"arrive,1,{at},{at},100,not,0,enqueue\ndepart,2,{at},left,{at},100,not\n" for at in range(1, 550_001))
    hold_numbers("a million records", first + "".join(pairs), ["--from", "5"], 1_099_992)


def main():
    hold_words()
    hold_unchanged()
    hold_wall()
    for seed in range(FIRST, FIRST + RUNS):
        hold(seed)
    hold_great()
    print(", ".join(f"{number} {what}" for what, number in sorted(tried.items())))
    wanted = ("histories", "excerpts", "other answers", "without parameters", "other verdicts", "omitted notes", "omitted arrivals", "omitted updates",
              "comparisons", "refused texts", "great texts", "unchanged parameters", "early by the control alone")
    check(RUNS < 200 or all(tried[it] for it in wanted), "something was never tried", [it for it in wanted if not tried[it]])
    finish()


main()
