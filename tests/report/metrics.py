#!/usr/bin/env python3
"""Tests metrics (report/pie-metrics, examples/shared/metrics.c). The counters of pie-metrics must be exactly those
of `pie explain --summary`: for the records of examples/, for records whose writer continues, restarts or rewrites
them, and for the text of a flight recorder. With --state no counter may fall, no interval may be lost, and a
reopened recorder must be distinguished from the old one. The metrics file must go when its writer ended or fell
silent, whatever FILE or options contain. Then the link of examples/link runs under a UDP overload in a namespace of
its own: its metrics, its history and its flight recorder must have the same numbers, its metrics file must go at
each signal, and its metrics must have the names of pie-metrics. promtool, if it is installed, must accept all of
them.

usage: tests/report/metrics.py [PROGRAM]      PROGRAM: crates/pie/out/pie by default
needs: program, library, root
"""
import contextlib
import csv
import io
import os
import re
import shutil
import signal
import socket
import subprocess
import sys
import tempfile
import time
from pathlib import Path

sys.path.insert(0, f"{os.path.dirname(os.path.abspath(__file__))}/../shared")
from checks import NAME, ROOT, check, finish, program  # noqa: E402

PROGRAM = program()
METRICS = ROOT / "report/pie-metrics"
LINK = ROOT / "examples/link"
# The counters, by the fields of a summary.
COUNTERS = {"arrived_packets": "arrivals", "arrived_bytes": "arrived_bytes", "enqueued_packets": "enqueue", "marked_packets": "mark",
            "early_drops": "early", "byte_limit_drops": "bytes", "packet_limit_drops": "packets", "departed_packets": "left",
            "departed_bytes": "carried_bytes", "updates": "updates"}
GAUGES = {"probability_ratio": ("last_probability", 1e12), "delay_seconds": ("last_delay", 1e9), "target_seconds": ("last_target", 1e9),
          "burst_allowance_seconds": ("last_burst_allowance", 1e9), "period_wait_99_seconds": ("wait_99", 1e9)}
HOSTS = ("10.99.0.1", "10.99.0.2")
OLD = "# HELP pie_arrived_packets_total Arrived packets.\n"  # the beginning of an older file of metrics
PATIENCE = 600  # seconds after which what does not come about is a failure, on however slow a machine
linted = []


def explain(path, *words):
    return subprocess.run([PROGRAM, "explain", "--csv", *words, "--", path], capture_output=True, text=True, check=True).stdout


def cut(path, *words):
    return subprocess.run([PROGRAM, "cut", *words, path], capture_output=True, text=True, check=True).stdout


def table(text):
    return [{name: int(value) for name, value in row.items()} for row in csv.DictReader(io.StringIO(text))]


def summary(path):
    return table(explain(path, "--summary"))[0]


def metrics(path, *words):
    done = subprocess.run([METRICS, "--pie", PROGRAM, "--flight-text", LINK / "out/flight_text", *words, path], capture_output=True, text=True,
                          check=False)
    return done.returncode, done.stdout, done.stderr


def read(text):
    """Returns the samples by their names after pie_, without link and queue; a bucket has its
    bound."""
    if text not in linted:
        linted.append(text)
    samples = {}
    for line in text.splitlines():
        if not line.startswith("# "):
            found = re.fullmatch(r'pie_(\w+)\{link="(?:[^"\\]|\\.)*",queue="(?:[^"\\]|\\.)*"(?:,le="([^"]+)")?\} ([\d.]+)', line)
            check(found, f"a sample: {line}")
            samples[found[1] + (f" {found[2]}" if found[2] else "")] = float(found[3]) if "." in found[3] else int(found[3])
    return samples


def families(text):
    return set(re.findall(r"^# (?:HELP|TYPE) .*$", text, re.M))


def lint():
    """Checks that promtool finds no fault in any text."""
    if shutil.which("promtool") is None:
        print(f"NOT RUN: {NAME}: no promtool here, so nothing else than this script read the metrics (tests/install.sh report)")
        return
    for text in linted:
        done = subprocess.run(["promtool", "check", "metrics"], input=text, capture_output=True, text=True, check=False)
        check((done.returncode, done.stdout, done.stderr) == (0, "", ""), "promtool:", done.stdout, done.stderr)


def hold_counters(what, samples, wanted, fields=COUNTERS):
    for name in fields:
        check(samples[f"{name}_total"] == wanted[COUNTERS[name]], f"{what}: {name}: {samples[f'{name}_total']}, not {wanted[COUNTERS[name]]}")


def hold_histogram(what, samples, name, count):
    buckets = [value for key, value in samples.items() if key.startswith(f"{name}_bucket ")]
    check(buckets == sorted(buckets) and buckets[-1] == samples[f"{name}_count"] == count, f"{what}: {name}: {buckets}, not {count}")


def periods_of(path, time_of_period="50ms"):
    head, *rows = explain(path, f"--every={time_of_period}").splitlines(keepends=True)
    return head, rows


def of_records(folder):
    """Checks all examples, whole, and a text of pie-watch."""
    for path in [*sorted((ROOT / "examples").glob("*.history")), ROOT / "tests/rows/linux_steps.csv"]:
        records, (head, rows) = Path(folder, f"{path.stem}.csv"), periods_of(path)
        records.write_text("".join([head, *rows]))
        status, text, errors = metrics(records)
        check((status, errors) == (0, ""), f"{path.name}: {status}, {errors}")
        samples, last = read(text), table(head + rows[-1])[0]
        hold_counters(path.name, samples, summary(path))
        hold_histogram(path.name, samples, "wait_seconds", samples["departed_packets_total"])
        waited = sum(row["left"] * row["mean_wait"] for row in table("".join([head, *rows])))
        check(abs(samples["wait_seconds_sum"] - waited / 1e9) < 1e-8, f"{path.name}: what packets waited")
        for name, (field, parts) in GAUGES.items():
            check(abs(samples[name] - last[field] / parts) < 1e-12, f"{path.name}: {name}")
        check(f'{{link="{path.stem}",queue="0"' in text, f"{path.name}: its labels")


class Watched:
    """Looks at records again and again with a state: no counter falls."""

    def __init__(self, folder, name):
        self.records, self.state, self.output = (Path(folder, f"{name}.{ending}") for ending in ("csv", "state", "prom"))
        self.name, self.before = name, {}

    def look(self, text=None):
        if text is not None:
            self.records.write_text(text)
        status, printed, errors = metrics(self.records, "--state", self.state, "-o", self.output)
        check((status, printed, errors) == (0, "", ""), f"{self.name}: {status}, {errors}")
        samples = read(self.output.read_text())
        for name, value in samples.items():
            if name.endswith(("_total", "_sum", "_count")) or "_bucket" in name:
                check(value >= self.before.get(name, 0), f"{self.name}: {name} falls from {self.before.get(name)} to {value}")
        self.before = samples
        check(not list(self.records.parent.glob("*.partial*")), f"{self.name}: a file is left beside it")
        return samples


def sums(*rows):
    return {field: sum(row[field] for row in rows) for field in COUNTERS.values()}


def goes_on(folder):
    """Tries a writer that continues, in pieces of several intervals and in the middle of a record; then others that
    restart, the last with the same file name for a history that grew within its last interval."""
    watched = Watched(folder, "goes-on")
    overload, marks = ROOT / "examples/overload.history", ROOT / "examples/marks.history"
    head, rows = periods_of(overload)
    text, whole = "".join([head, *rows]), summary(overload)
    check(len(rows) > 12, "goes-on: too few periods")
    for end in (len(head + rows[0]), len(head + rows[0]) + 30, *range(len(head) + 700, len(text), 777), len(text), len(text)):
        samples = watched.look(text[:end])
        hold_counters(f"{end} bytes of records", samples, sums(*table(text[:end].rpartition("\n")[0])))
    hold_counters("a writer that went on", samples, whole)
    other_head, other = periods_of(marks)
    samples = watched.look("".join([other_head, *other[:3]]))
    samples = watched.look("".join([other_head, *other]))
    hold_counters("records that began anew", samples, sums(whole, summary(marks)))
    again = Watched(folder, "again")
    lines = overload.read_text().splitlines(keepends=True)
    for count in (501, 502, 700, len(lines)):
        part = Path(folder, "part.history")
        part.write_text("".join(lines[:count]))
        head, rows = periods_of(part)
        hold_counters(f"{count} events, written again", again.look("".join([head, *rows])), summary(part))
    head, rows = periods_of(overload, "10ms")
    hold_counters("shorter periods: another file", again.look("".join([head, *rows])), sums(whole, whole))
    gap = Watched(folder, "gap")  # a writer that was late: a line has the number of missing records
    lines = [head, "lost,2\n", rows[0], rows[1], "lost,3\n", "lost,1\n", rows[2]]
    for end, lost in ((3, 2), (4, 2), (6, 6), (7, 6)):
        samples = gap.look("".join(lines[:end]))
        hold_counters(f"{end} lines, with gaps", samples, sums(*table("".join([head, *rows[: min(end - 2, 2) + (end > 6)]]))))
        check(samples["lost_periods_total"] == lost, f"{end} lines, with gaps: {samples['lost_periods_total']} lost periods")
    again.look("".join([head, *rows[:5]]))  # (one that lost its end: the right values are unknown, but no counter may fall)


def is_gone(what, watched, status, said, *words):
    """Checks that there is no metrics file after this run, and that the run reports the reason."""
    got, _, errors = metrics(watched.records, "-o", watched.output, *words)
    check(got == status and said in errors and not watched.output.exists(), f"{what}: {got}, {errors}, {watched.output.exists()}")


def ends(folder):
    """Checks that the file is removed if the writer ended or stopped writing, or if its records
    have a fault."""
    watched = Watched(folder, "ends")
    head, rows = periods_of(ROOT / "examples/overload.history")
    watched.look("".join([head, *rows]))
    old = time.time() - 100
    os.utime(watched.records, (old, old))
    is_gone("silent", watched, 3, "nothing was written for 1")  # (100 s, and what this took)
    check(metrics(watched.records, "--stale", "100000", "-o", watched.output)[0] == 0 and watched.output.exists(), "--stale: told as silent")
    for what, text, status, said in (("no record", head, 3, "no period is over yet"), ("nothing", "", 3, "nothing is there"),
                                     ("nonsense", head + "1,2,3\n", 1, "no record of a period"), ("no records", "nonsense\n", 1, "neither"),
                                     ("a hostile record", head + rows[0].replace(",", ',"', 1), 1, "no record of a period"),
                                     ("no column", "".join(map(without("left"), [head, *rows])), 1, "their header has no left"),
                                     ("no mean wait", "".join(map(without("mean_wait"), [head, *rows])), 1, "their header has no mean_wait"),
                                     ("a record without its header", rows[0], 1, "neither"), ("bytes that are no text", "\udcff\udc80", 1, "neither"),
                                     ("a header alone with one name", "events,\n1,2\n", 1, "their header has no arrivals"),
                                     ("a record of bytes", head + "\udcff\n", 1, "no record of a period"),
                                     ("a text that resumes from nothing", "resume\n", 1, ""), ("numbers too long", head + "9" * 5000 + "\n", 1, "")):
        watched.output.write_text(OLD)
        watched.records.write_bytes(text.encode(errors="surrogateescape"))
        is_gone(what, watched, status, said)
    watched.records.unlink()
    watched.output.write_text(OLD)
    is_gone("no file", watched, 3, "No such file")
    watched.records.write_text(head + rows[0])
    for state in ("{", "[]", '{"base": {}, "known": {"records": {}}}', '{"base": 5, "known": {}}'):
        watched.state.write_text(state)
        is_gone(f"a state {state}", watched, 1, "no state of this program", "--state", watched.state)
    for option in ("--again=-1", "--again=0", "--again=nan", "--again=inf", "--again=soon", "--again=", "--stale=nan", "--stale=-1", "--stale=long"):
        watched.output.write_text(OLD)
        is_gone(option, watched, 1, f"{option.replace('=', ' ', 1)}: out of its range", option)
    check(metrics(watched.records, "--stale", "inf")[0] == 0, "--stale inf: refused")
    for number in (signal.SIGTERM, signal.SIGINT, signal.SIGHUP):
        words = [METRICS, "--again", "0.1", "-o", watched.output, watched.records]
        with ended(subprocess.Popen(words, stderr=subprocess.PIPE, text=True)) as process:
            wait_for(watched.output.exists)
            watched.records.rename(f"{watched.records}.away")
            wait_for(lambda: not watched.output.exists())
            Path(f"{watched.records}.away").rename(watched.records)
            wait_for(watched.output.exists)
            process.send_signal(number)
            errors = process.communicate(timeout=PATIENCE)[1]
        check(process.returncode == 0 and errors.count("\n") == 1, f"--again: {process.returncode}, {errors}")
        check(not list(Path(folder).glob(f"{watched.output.name}*")), f"--again: its file is left at {number.name}")
    hostile = 'a"b\\c\nd'
    text = metrics(watched.records, "--link", hostile, "--queue", hostile)[1]
    check(text.count('{link="a\\"b\\\\c\\nd",queue="a\\"b\\\\c\\nd"') == len(read(text)), "hostile labels")
    for words in (("--link", b"caf\xe9", "-o", watched.output), ("--queue", b"\xff", "-o", watched.output)):
        status, _, errors = metrics(watched.records, *words)
        check((status, errors) == (0, "") and "\ufffd" in watched.output.read_text("utf-8"), f"{words}: {status}, {errors}")
        read(watched.output.read_text("utf-8"))
    odd = Path(os.fsdecode(os.fsencode(folder) + b"/caf\xe9.csv"))
    shutil.copy(watched.records, odd)
    status, text, errors = metrics(odd)
    check((status, errors) == (0, "") and '{link="caf\ufffd",' in text, f"a name that is no text: {status}, {errors}")


def keeps_files(folder):
    """Checks that no file is lost: an output that is the input, another output or a file without metrics is refused and left, also if the records are
    stale. A file has its name once all of it is written."""
    place = Path(folder, "kept")
    place.mkdir()
    records, other, state, output = (place / name for name in ("n.csv", "other", "n.state", "n.prom"))
    head, rows = periods_of(ROOT / "examples/overload.history")
    text = "".join([head, *rows])
    records.write_text(text)
    os.link(records, place / "link.csv")
    (place / "symbolic.csv").symlink_to(records)
    other.write_text("kept")
    cases = [(("-o", it), "input file cannot be the output") for it in (records, place / "link.csv", place / "symbolic.csv", f"{place}/./n.csv")]
    cases += [(("-o", it, "--force"), "input file cannot be the output") for it in (records, place / "link.csv")]
    cases += [(("--state", records), "input file cannot be the output"), (("-o", output, "--state", output), "two outputs cannot be one"),
              (("-o", other), "--force"), (("-o", place), "folder"),
              (("-o", place / "none" / "n.prom"), "No such file")]
    for age in (0, 3600):
        os.utime(records, (time.time() - age,) * 2)
        for words, told in cases:
            status, printed, errors = metrics(records, *words)
            check(status == 1 and told in errors and not printed, f"{words}: {status}, {errors}")
            left = {it.name: it.read_text() for it in place.iterdir()}
            check(left == {"n.csv": text, "link.csv": text, "symbolic.csv": text, "other": "kept"}, f"{words}: files {left.keys()}, or another content")
    check(metrics(records, "-o", other, "--force")[0] == 3 and other.read_text() == "kept", "a file without metrics was removed")
    check(metrics(records, "-o", other, "--force", "--stale", "inf")[0] == 0 and other.read_text().startswith(OLD), "--force: not replaced")
    other.chmod(0o600)
    check(metrics(records, "-o", other, "--stale", "inf")[0] == 0 and other.stat().st_mode & 0o777 == 0o600, "metrics: not replaced, or another mode")
    limited = ["bash", "-c", 'ulimit -f 1; exec "$@"', "bash", METRICS, "--stale", "inf", "-o", output, "--state", state, records]
    check(subprocess.run(limited, capture_output=True, check=False).returncode == 1, "a file that cannot be written: status 0")
    check(not list(place.glob("n.prom*")) and not list(place.glob("n.state?*")), f"an incomplete file is left: {list(place.iterdir())}")


def prints(folder):
    """Checks the messages for a standard output that is full, closed or read no longer, and the version."""
    records = Path(folder, "prints.csv")
    head, rows = periods_of(ROOT / "examples/overload.history")
    records.write_text("".join([head, *rows]))
    for line, wanted in ((f"'{METRICS}' '{records}' > /dev/full", (1, "pie-metrics: standard output: No space left on device\n")),
                         (f"'{METRICS}' '{records}' >&-", (1, "pie-metrics: standard output: it is closed\n")),
                         (f"'{METRICS}' --help > /dev/full", (1, "pie-metrics: standard output: No space left on device\n"))):
        done = subprocess.run(["bash", "-c", line], capture_output=True, text=True, check=False)
        check((done.returncode, done.stderr) == wanted, f"{line}: {done.returncode}, {done.stderr}")
    reader, writer = os.pipe()
    os.close(reader)
    done = subprocess.run([METRICS, records], stdout=writer, stderr=subprocess.PIPE, text=True, check=False)
    os.close(writer)
    check((done.returncode, done.stderr) == (141, ""), f"a reader that has ended: {done.returncode}, {done.stderr}")
    version = re.search(r'^#define PIE_VERSION "(.*)"$', (ROOT / "include/pie.h").read_text(), re.M)[1]
    for word in ("--version", "-V"):
        check(metrics(records, word) == (0, f"pie-metrics {version}\n", ""), f"{word}: {metrics(records, word)}")


def is_bounded(folder):
    """Checks that neither a program that writes without end nor a line without end fills the memory."""
    memory, endless = Path(folder, "damaged.flight"), Path(folder, "endless")
    memory.write_bytes(b"PIEFLGT1" + bytes(1 << 16))
    endless.write_text("#!/bin/sh\nexec yes 'arrive,1,0,1,1024,not,0,enqueue'\n")
    endless.chmod(0o755)
    limited = ["bash", "-c", 'ulimit -v 600000; exec "$@"', "bash", METRICS, "--flight-text", endless]
    done = subprocess.run([*limited, memory], capture_output=True, text=True, check=False, timeout=PATIENCE)
    check(done.returncode == 1 and "the memory is damaged: its text is longer than" in done.stderr, f"a text without end: {done.returncode}, {done.stderr}")
    long = Path(folder, "long.csv")
    for beginning in (explain(ROOT / "examples/overload.history", "--every=1s"), "resume,"):
        with long.open("w") as out:
            out.write(beginning)
            out.truncate(1 << 32)  # (bytes without a line feed, which take no room on the disk)
        if beginning == "resume,":
            long.write_text(beginning + "1" * (1 << 20))
        done = subprocess.run([*limited, long], capture_output=True, text=True, check=False, timeout=PATIENCE)
        check(done.returncode == 1 and "a line is longer than" in done.stderr, f"a line without end: {done.returncode}, {done.stderr}")
    # a long text needs no more memory than a short one
    peaks = []
    for events in (100, 100000):
        text, _ = recorded(folder, f"long {events}", 0, events, 2 * events)
        words = [sys.executable, "-c", "import resource, subprocess, sys; subprocess.run(sys.argv[1:], stdout=subprocess.DEVNULL, check=True); "
                 "print(resource.getrusage(resource.RUSAGE_CHILDREN).ru_maxrss)", METRICS, "--pie", PROGRAM, text]
        peaks.append(int(subprocess.run(words, capture_output=True, text=True, check=True).stdout))
    check(peaks[1] < peaks[0] + 8192, f"200 events take {peaks[0]} KiB at most, and 200000 {peaks[1]}")


def without(name):
    """Returns a filter that removes a column from records; the first record that it receives is the
    header."""
    at = []

    def line_without(line):
        fields = line.rstrip("\n").split(",")
        at.extend([fields.index(name)] if not at else [])
        return ",".join(fields[: at[0]] + fields[at[0] + 1 :]) + "\n"
    return line_without


@contextlib.contextmanager
def ended(process):
    """Ends a process at the end of the block, also after an exception."""
    with process:
        try:
            yield process
        finally:
            if process.poll() is None and sys.exc_info()[0]:
                process.kill()


def wait_for(holds):
    end = time.monotonic() + PATIENCE
    while not holds():
        if time.monotonic() > end:
            raise TimeoutError("it does not come about")
        time.sleep(0.02)


def of_flights(folder):
    """Texts that resume: the statistics are those of the whole history, and histograms have the events of the texts, each once."""
    history = ROOT / "examples/overload.history"
    fields = [name for name in COUNTERS if name != "arrived_bytes"]
    delays = [line.split(",")[3] if line.startswith("update,") else None for line in history.read_text().splitlines()[1:]]
    rows = list(csv.DictReader(io.StringIO(explain(history, "--all"))))
    numbers = range(1, len(rows) + 1)
    state, seen, unseen, before = Path(folder, "flight.state"), set(), 0, 0

    def delay_of(last):
        return next(it for it in reversed(delays[:last]) if it is not None)

    # (the last earlier event at which the delay differs from that of the last update)
    ends = {end: max(it for it in range(100, end + 1) if delay_of(it) != rows[it - 1]["delay_after"]) for end in (500, 700)}
    for first, last in ((200, ends[500]), (300, ends[500]), (450, ends[700]), (800, len(rows)), (800, len(rows))):
        text, part = Path(folder, "flight.text"), Path(folder, "flight.history")
        part.write_text("".join(history.read_text().splitlines(keepends=True)[: last + 1]))
        text.write_text(cut(part, "--event", str((first + last) // 2), "--around", str((last - first + 1) // 2)))
        begins = int(text.read_text().split("\n", 1)[0].split(",")[-31]) + 1
        seen |= {number for number in numbers if max(begins, before + 1) <= number <= last}
        unseen, before = unseen + max(begins - before - 1, 0), last
        status, printed, errors = metrics(text, "--state", state)
        check((status, errors) == (0, ""), f"a text of a flight recorder: {status}, {errors}")
        samples, what = read(printed), f"events {first} to {last}"
        whole = summary(part)
        hold_counters(what, samples, whole, fields)
        of = [rows[number - 1] for number in seen]
        check(samples["unseen_events_total"] == unseen, f"{what}: {samples['unseen_events_total']} went by unseen, not {unseen}")
        check(samples["arrived_bytes_total"] == sum(int(row["size"]) for row in of if row["kind"] == "arrive"), f"{what}: bytes that arrived")
        waits = [int(row["waited"]) for row in of if row["verdict"] == "left"]
        hold_histogram(what, samples, "wait_seconds", len(waits))
        check(samples["wait_seconds_bucket 0.064"] == sum(it <= 64000000 for it in waits), f"{what}: waits up to 64 ms")
        check(abs(samples["wait_seconds_sum"] - sum(waits) / 1e9) < 1e-8, f"{what}: the waits' sum")
        updates = [int(row["probability_after"]) for row in of if row["kind"] == "update"]
        hold_histogram(what, samples, "updated_probability_ratio", len(updates))
        check(samples["updated_probability_ratio_bucket 0.05"] == sum(it <= 5 * 10**10 for it in updates), f"{what}: probabilities up to 5 %")
        end = rows[last - 1] | {"last delay": delay_of(last)}
        for name, field, parts in (("queue_packets", "packets_after", 1), ("queue_bytes", "bytes_after", 1), ("delay_seconds", "last delay", 1e9),
                                   ("probability_ratio", "probability_after", 1e12), ("burst_allowance_seconds", "burst_allowance_after", 1e9)):
            check(abs(samples[name] - int(end[field]) / parts) < 1e-12, f"{what}: {name}: {samples[name]}, not {end[field]}")
        check(samples["target_seconds"] == 0.015, f"{what}: the target")
    other = Path(folder, "other.text")
    other.write_text(cut(ROOT / "examples/marks.history", "--last", "100"))
    samples = read(metrics(other, "--state", state)[1])
    hold_counters("another recorder", samples, sums(summary(history), summary(ROOT / "examples/marks.history")), fields)
    of_opened_anew(folder)
    stale = Path(folder, "stale.text")
    stale.write_text("open3,1,rate,derandomized,capped,unscaled,bounded,0,8,32,100\nclock,0,1764000000000000000\n"
                     "arrive,1,0,1,1024,not,0\ndepart,1,5\n")
    done = subprocess.run([PROGRAM, "run", "-o", Path(folder, "stale.history"), stale], capture_output=True, text=True, check=False)
    check(done.returncode == 0, "a history with a time of day:", done.stderr)
    stale.write_text(cut(Path(folder, "stale.history"), "--last", "1"))
    status, printed, errors = metrics(stale)
    check(status == 3 and "nothing was written for" in errors and not printed, f"a recorder that fell silent: {status}, {errors}")


def recorded(folder, name, opening, packets, last, size=500):
    """Returns the events that a flight recorder keeps of a history of this many packets, each of which departs 1 ms
    after its arrival: its last events, and the history."""
    trace, path, text = (Path(folder, f"{name}.{ending}") for ending in ("trace", "history", "text"))
    lines = [f"arrive,1,{at * 2000000},{at},{size},not,0\ndepart,2,{at * 2000000 + 1000000}\n" for at in range(1, packets + 1)]
    trace.write_text("".join([f"open3,1,rate,derandomized,capped,unscaled,rolling,{opening},64,32,100000\n", *lines]))
    subprocess.run([PROGRAM, "run", "-o", path, trace], check=True)
    text.write_text(cut(path, "--last", str(last)))
    return text, path


def of_opened_anew(folder):
    """Tries a recorder that was reopened and ran longer than the old one, so that the last event of
    the old one is overwritten. Its opening, its moment or a lower statistic must distinguish it
    from the old one. The text must have each bound of a histogram from the beginning."""
    fields = [name for name in COUNTERS if name != "arrived_bytes"]
    for name, old, new in (("another moment", (0, 100, 40, 500), (5, 300, 40, 500)), ("fewer bytes", (0, 100, 40, 1000), (0, 150, 40, 500)),
                           ("a smaller queue", (0, 100, 40, 501), (0, 300, 40, 500)), ("other events", (0, 100, 40, 500), (0, 101, 202, 501))):
        state = Path(folder, f"{name}.state")
        one, first = recorded(folder, f"{name} one", *old)
        other, second = recorded(folder, f"{name} other", *new)
        before = read(metrics(one, "--state", state)[1])
        hold_counters(f"{name}: before", before, summary(first), fields)
        hold_counters(f"a recorder that was opened anew: {name}", read(metrics(other, "--state", state)[1]), sums(summary(first), summary(second)), fields)
        again = read(metrics(other, "--state", state)[1])
        hold_counters(f"{name}: again", again, sums(summary(first), summary(second)), fields)
    text, _ = recorded(folder, "one event", 0, 1, 1)
    lines = text.read_text().splitlines(keepends=True)
    text.write_text("".join([*lines[:-1], "update,3,15000000,0,0,150000000\n"]))
    status, printed, errors = metrics(text)
    samples = read(printed)
    check(status == 0 and samples["departed_packets_total"] == 0, f"one event: {status}, {errors}")
    check([sum(name.startswith(f"{it}_bucket ") for name in samples) for it in ("wait_seconds", "updated_probability_ratio")] == [13, 13],
          f"the bounds of a text without departures: {samples}")


# ----- The link

def overload_link(folder):
    """Sends UDP through the link at twice its rate, in a namespace of its own, until packets were dropped early. The metrics are read when all
    packets arrived and the queue is empty again."""
    files = {name: Path(folder, f"link.{name}") for name in ("history", "flight", "prom")}
    for file in Path(folder).glob("link.*"):
        file.unlink()
    words = ["--from", "north", "--to", "south", "--rate", "4mbit", "--for", "3600s", "--rtt", "1ms", "--limit", "60p", "--history", files["history"],
             "--flight", files["flight"], "--metrics", files["prom"]]
    process = subprocess.Popen([LINK / "out/link", *words], stdout=subprocess.PIPE, stderr=subprocess.PIPE, text=True)
    wait_for(lambda: Path("/sys/class/net/south").exists() and files["prom"].exists())
    # (without an IPv6 address the devices send nothing by themselves, so all arrivals are the sender's)
    for line in ("link set north addrgenmode none", "link set south addrgenmode none", "link set north up", "link set south up",
                 f"addr add {HOSTS[0]} peer {HOSTS[1]} dev north"):
        subprocess.run(["ip", *line.split()], check=True)
    with socket.socket(socket.AF_INET, socket.SOCK_DGRAM) as sender:
        begun, sent, looked = time.monotonic(), 0, 0
        while looked < 3 or read(files["prom"].read_text())["early_drops_total"] == 0:
            # (850 bytes each 0.8 ms on average, even if this process is late)
            for _ in range(min(int((time.monotonic() - begun) / 0.0008) - sent, 100)):
                sender.sendto(b"x" * (500 + sent % 700), (HOSTS[1], 9))
                sent += 1
            looked = time.monotonic() - begun
            check(looked < PATIENCE, "the link drops no packet early")
            if looked > PATIENCE:
                break
            time.sleep(0.0007)
    # (tx_dropped counts the packets beyond the device's room, which came while the link had no processor)
    sent -= int(Path("/sys/class/net/north/statistics/tx_dropped").read_text())
    wait_for(lambda: has_all(read(files["prom"].read_text()), sent))
    return process, files, sent


def has_all(samples, sent):
    """Returns true if all sent packets arrived at the link and its queue is empty. An empty queue alone is not
    enough: the device may have packets that the link has not read."""
    return samples["arrived_packets_total"] >= sent and samples["queue_packets"] == 0


def of_link(folder):
    process, files, sent = overload_link(folder)
    text = files["prom"].read_text()
    flight = metrics(files["flight"], "--link", "south")
    check(flight[0] == 0, f"the flight recorder's memory: {flight}")
    process.send_signal(signal.SIGTERM)
    printed, errors = process.communicate(timeout=PATIENCE)
    check(process.returncode == 0, f"the link: {process.returncode}, {errors}")
    check(not files["prom"].exists() and not Path(f"{files['prom']}.new").exists(), "the link: its file is left")
    whole, samples, other = summary(files["history"]), read(text), read(flight[1])
    still = [name for name in COUNTERS if name != "updates"]  # (the timer went on)
    hold_counters("the link", samples, whole, still)
    hold_counters("its flight recorder", other, whole, still)
    check(samples["arrived_packets_total"] >= sent and samples["early_drops_total"] > 0, f"the link: no overload: {sent} sent, {samples}")
    check(0 < samples["updates_total"] <= other["updates_total"] <= whole["updates"], "the link: updates")
    for name in ("wait_seconds", "updated_probability_ratio"):
        hold_histogram("the link", samples, name, samples["departed_packets_total" if name == "wait_seconds" else "updates_total"])
    for name, value in samples.items():
        if name.startswith("wait_seconds"):
            check(abs(other[name] - value) < 1e-8, f"{name}: {value} of the link, {other[name]} of its flight recorder")
    check(samples["target_seconds"] == other["target_seconds"] and samples["queue_bytes"] == other["queue_bytes"] == 0, "the link: gauges")
    own = families(text) - families(flight[1])
    check({line.split()[2] for line in own} == {f"pie_{name}_total" for name in ("oversized_drops", "refused_drops", "late_updates", "lost_events")},
          "families of the link alone:", own)
    check({line.split()[2] for line in families(flight[1]) - families(text)} == {"pie_unseen_events_total"}, "families of pie-metrics alone")
    check('{link="south",queue="0"} ' in text, "the link: its labels")
    return sent


def of_signals(folder):
    """Checks that the link's file is removed at each signal that ends the link, and after a fault:
    a removed device, a history that cannot be written."""
    for number in (signal.SIGINT, signal.SIGHUP):
        prom = Path(folder, "signal.prom")
        words = [LINK / "out/link", "--from", "north", "--to", "south", "--metrics", prom]
        with ended(subprocess.Popen(words, stdout=subprocess.DEVNULL)) as process:
            wait_for(prom.exists)
            process.send_signal(number)
        check(process.returncode == 0 and not prom.exists(), f"the link: its file is left at {number.name}")
    prom = Path(folder, "away.prom")
    words = [LINK / "out/link", "--from", "north", "--to", "south", "--metrics", prom]
    with ended(subprocess.Popen(words, stdout=subprocess.DEVNULL, stderr=subprocess.PIPE, text=True)) as process:
        wait_for(prom.exists)
        subprocess.run(["ip", "link", "del", "north"], check=True)
        errors = process.communicate(timeout=PATIENCE)[1]
    check(process.returncode == 1 and "link: read" in errors and not prom.exists(), f"the link without its device: {process.returncode}, {errors}")
    prom = Path(folder, "full.prom")
    words = ["--from", "north", "--to", "south", "--for", "3600s", "--history", "/dev/full", "--metrics", prom]
    with ended(subprocess.Popen([LINK / "out/link", *words], stdout=subprocess.DEVNULL, stderr=subprocess.DEVNULL)) as process:
        process.wait(timeout=PATIENCE)  # (it ends when the history's buffer is full)
    check(process.returncode == 1 and not prom.exists(), "the link: its file is left where it ended by a fault")
    words = [LINK / "out/link", "--from", "north", "--to", "south", "--for", "3600s", "--metrics", "/nowhere/link.prom"]
    with ended(subprocess.Popen(words, stdout=subprocess.DEVNULL, stderr=subprocess.PIPE, text=True)) as process:
        errors = process.stderr.readline()
        time.sleep(1.2)  # (it would repeat the message each second)
        process.send_signal(signal.SIGTERM)
        errors += process.communicate(timeout=PATIENCE)[1]
    check(process.returncode == 0 and errors.count("--metrics /nowhere/link.prom: No such file") == 1, f"a file that can't be: {errors}")


def missing():
    """Returns the programs of the link that are missing."""
    for program_of, why in (("cc", "a C compiler"), ("make", "make"), ("ip", "ip"), ("unshare", "unshare")):
        if shutil.which(program_of) is None:
            return why
    if os.geteuid() != 0 or not Path("/dev/net/tun").exists():
        return "root or /dev/net/tun"
    done = subprocess.run(["unshare", "--net", "--mount", "true"], check=False, stderr=subprocess.DEVNULL)
    return None if done.returncode == 0 else "leave to make namespaces"


def link(folder):
    lacks = missing()
    if lacks:
        print(f"NOT RUN: {NAME}: no packet went through the link, for want of {lacks}")
        return
    subprocess.run(["make", "-s", "-C", LINK], check=True)
    if "inside" not in sys.argv:
        done = subprocess.run(["unshare", "--net", "--mount", "sh", "-c", 'mount -t sysfs sysfs /sys; exec "$@"', "sh", __file__, PROGRAM, "inside"],
                              check=False)
        check(done.returncode == 0, "the link")
        return
    for which in ("all", "default"):  # (the kernel's own packets would come in between)
        place = Path(f"/proc/sys/net/ipv6/conf/{which}/disable_ipv6")
        if place.exists():
            place.write_text("1")
    subprocess.run(["ip", "link", "set", "lo", "up"], check=True)
    print(f"{NAME}: {of_link(folder)} packets through the link")
    of_signals(folder)


def main():
    with tempfile.TemporaryDirectory() as folder:
        if "inside" not in sys.argv:
            of_records(folder)
            goes_on(folder)
            ends(folder)
            keeps_files(folder)
            prints(folder)
            is_bounded(folder)
            of_flights(folder)
        link(folder)
        lint()
    finish()


main()
