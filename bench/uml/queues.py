#!/usr/bin/env python3
"""Runs the section Queues of PLAN.md in a Linux whose time is simulated (build.sh): each block of a scenario with all its queues, in order of blocks.
A run that has a row is not made again, so a batch that was stopped continues.

usage: bench/uml/queues.py PIE FOLDER [--jobs N] [--blocks LAST] [--trial] [NAME..]    all scenarios if none is named
       bench/uml/queues.py --store FOLDER       moves the rows of FOLDER/queues.csv to bench/uml/queues.csv.xz
       bench/uml/queues.py --version            prints the version of these files
  PIE       the built program; build/pie is what make builds
  --jobs    the number of runs at a time, 1 by default
  --blocks  the last block
  --trial   for a pilot or a test: the version need not be that of the plan. Such rows cannot be stored
SIGTERM and SIGINT end the batch; the runs that are complete then have their rows. Status 1: a run failed.

A wait is the time between two devices: the senders' and the receivers', with the bottleneck between them. One clock stamps each packet at both, so a
wait has the same meaning for every queue. Means and percentiles are over the packets that arrive after the first quarter of the run."""
import argparse
import csv
import fcntl
import functools
import hashlib
import io
import json
import lzma
import os
import random
import shlex
import shutil
import signal
import struct
import subprocess
import sys
import threading
from concurrent.futures import ThreadPoolExecutor
from pathlib import Path
from statistics import fmean, median

HERE = Path(__file__).resolve().parent
TOP = HERE.parents[1]
sys.path.insert(0, str(HERE))
sys.dont_write_bytecode = True
import beside  # noqa: E402

STORED = HERE / "queues.csv.xz"
PLAN = HERE / "PLAN.md"
# the queues of each scenario, and those of them that only compare the bottlenecks
SINGLE = ["stamp", "pie", "codel", "red", "fq_pie", "fq_codel", "cake", "tail", "pfifo"]
CALIBRATION, CALIBRATION_BLOCKS = ("tail", "pfifo"), 3
# name, section of RFC 7928, traffic in words, blocks, more queues, options
TABLE = [
    ("one", "8", "1 CUBIC", 12, "", "--flows 1:cubic:20ms"),
    ("four", "5.1", "4 CUBIC", 12, "ecn", "--flows 4:cubic:20ms"),
    ("reno", "5.1", "4 Reno", 12, "", "--flows 4:reno:50ms"),
    ("bbrcubic", "5.2", "2 CUBIC, 2 BBR", 24, "", "--flows 2:cubic:20ms 2:bbr:20ms"),
    ("udp", "5.3", "4 CUBIC, UDP of 12 Mbit/s", 20, "ecn", "--flows 4:cubic:20ms 1:udp=12mbit:20ms"),
    ("trips", "6", "2 CUBIC each at 10, 50, 200 ms", 12, "half", "--flows 2:cubic:10ms 2:cubic:50ms 2:cubic:200ms"),
    ("far", "6", "4 CUBIC, 100 ms", 24, "ecn,half", "--flows 4:cubic:100ms"),
    ("burst", "7", "1 CUBIC, bursts of 40 packets", 12, "", "--flows 1:cubic:20ms 1:burst=40x1s:20ms"),
    ("short", "7", "1 CUBIC, short flows", 16, "", "--flows 1:cubic:20ms --short 1460x2,14600x2,146000x0.5,730000x0.1"),
    ("slow", "8", "0.5 Mbit/s, 4 CUBIC, limit 1 s", 8, "", "--rate 500kbit --limit 1s --seconds 40 --flows 4:cubic:20ms"),
    ("two", "8", "2 Mbit/s, 4 CUBIC", 12, "", "--rate 2mbit --seconds 25 --flows 4:cubic:20ms"),
    ("many", "8", "64 CUBIC", 16, "ecn", "--flows 64:cubic:20ms"),
    ("fast", "8", "100 Mbit/s, 4 CUBIC", 8, "", "--rate 100mbit --seconds 5 --flows 4:cubic:20ms"),
    ("gigabit", "8", "1 Gbit/s, 16 CUBIC", 4, "", "--rate 1gbit --seconds 2 --flows 16:cubic:20ms"),
    ("onoff", "8.2.5", "2 CUBIC, 16 more for 5 s", 20, "", "--flows 2:cubic:20ms 16:cubic:20ms:8s-13s"),
    ("step", "8.2.6", "10, 2 and 10 Mbit/s, 4 CUBIC", 12, "rate", "--rate 10mbit,10s:2mbit,25s:10mbit --seconds 40 --flows 4:cubic:20ms"),
    ("mixed", "9.1", "2 CUBIC, 2 voice, DNS, web", 16, "", "--flows 2:cubic:20ms 2:voice:20ms 1:dns=5:20ms --short 14600x3,146000x0.5"),
    ("back", "9.2", "4 CUBIC each way", 12, "", "--reverse 10mbit --flows 4:cubic:20ms back:4:cubic:20ms"),
]
# the scenarios in which rules of Linux's pie are exchanged, in a Linux of their own
EXCHANGES = ["udp", "two", "slow"]
EXCHANGE_BLOCKS = 8
EXCHANGED = ["stamp", "pie", *(f"pie-{it}" for it in beside.RULES), "pie-all", *(f"pie-all-{it}" for it in beside.RULES)]
FIELDS = ["scenario", "queue", "block", "goodput", "groups", "wait", "wait99", "short", "packets", "lost", "early", "tail", "marks", "late", "audit",
          "processor", "version"]
SCRIPTS = [f"bench/uml/{it}" for it in ("rules.sh", "rules.sed", "network.py", "traffic.c", "beside.py", "queues.py")]
VERSIONED = ["bench/uml/build.sh", *SCRIPTS, "examples/link", "examples/shared", "dist/x86_64"]
RECORD = struct.Struct("=qIIHHI")       # struct record of traffic.c
BUILDING = threading.Lock()


class Scenario:
    def __init__(self, name, section, words, blocks, more, options, queues=SINGLE, linux="build.sh"):
        self.name, self.section, self.words, self.blocks, self.linux = name, section, words, blocks, linux
        self.options = beside.options(shlex.split(f"--seconds 20 --from 0 {options}"))
        self.queues = [*queues, *filter(None, more.split(","))]

    def blocks_of(self, queue):
        """Returns the number of blocks of a queue. Queues that only compare the bottlenecks need few."""
        return min(self.blocks, CALIBRATION_BLOCKS) if queue in CALIBRATION else self.blocks

    def block(self, number, queues):
        """Returns a block for network.py, with its queues in a random order."""
        found = beside.scenario_of(self.name, self.options, dict.fromkeys(queues, number), [number]) | {"watch": 1, "linux": self.linux}
        random.Random(f"{self.name}-{number}-order").shuffle(queues)
        return found | {"order": [f"{number}-{queue}" for queue in queues]}


SCENARIOS = {row[0]: Scenario(*row) for row in TABLE}
ALL, RULES_SCENARIOS = list(SCENARIOS), [f"{it}rules" for it in EXCHANGES]
SCENARIOS |= {f"{row[0]}rules": Scenario(f"{row[0]}rules", row[1], row[2], EXCHANGE_BLOCKS, "", row[5], EXCHANGED, "rules.sh")
              for row in TABLE if row[0] in EXCHANGES}


def expected_keys():
    """Returns scenario, queue and block of each run of the plan."""
    return {(name, queue, block) for name, it in SCENARIOS.items() for queue in it.queues for block in range(1, it.blocks_of(queue) + 1)}


def git(*words):
    return subprocess.run(["git", "-C", str(TOP), *words], capture_output=True, text=True, check=False).stdout.strip()


def version():
    """Returns the version that rows have: the commit that last changed one of the files, the kernel's source and build.sh, the assembly of our queue,
    the link, and the scripts. A `+` follows if a file has a change that is not committed."""
    package = subprocess.run(["dpkg-query", "--show", "--showformat", "${Version}", "linux-source-6.1"], capture_output=True, text=True).stdout
    name = {it: git("rev-parse", f"HEAD:{it}")[:8] for it in VERSIONED}
    assembly = hashlib.sha256((TOP / "dist/x86_64/pie_c.S").read_bytes()).hexdigest()[:8]
    scripts = hashlib.sha256("".join(name[it] for it in SCRIPTS).encode()).hexdigest()[:8]
    changed = "+" if git("status", "--porcelain", "--", *VERSIONED) else ""
    return (f"commit {git('log', '-1', '--format=%h', '--abbrev=8', '--', *VERSIONED)} linux {package}/{name[VERSIONED[0]]} assembly {assembly} "
            f"link {name['examples/link']}/{name['examples/shared']} scripts {scripts}{changed}")


def key_of(row):
    return row["scenario"], row["queue"], int(row["block"])


def read_rows(text):
    """Returns the rows of a file. A last line that was not written whole is left out."""
    lines = text.splitlines(keepends=True)
    return list(csv.DictReader(io.StringIO("".join(line for line in lines if line.endswith("\n")))))


class Rows:
    """The rows: those that are stored, and those of the folder, which runs add. All have one version."""

    def __init__(self, folder, version):
        self.file, self.version, self.lock = folder / "queues.csv", version, threading.Lock()
        folder.mkdir(parents=True, exist_ok=True)
        self.stored = read_rows(lzma.open(STORED, "rt").read()) if STORED.exists() else []
        own = read_rows(self.file.read_text()) if self.file.exists() else []
        self.file.write_text(text_of(own))
        self.keys = set()
        for row in self.stored + own:
            self.take(row)
        self.all = self.stored + own

    def take(self, row):
        if row["version"] != self.version:
            sys.exit(f"bench/uml/queues.py: the version of {key_of(row)} is {row['version']}\n    and that of these files is {self.version}\n"
                     "    `git worktree add FOLDER COMMIT` gives the files of the rows' commit")
        if key_of(row) in self.keys:
            sys.exit(f"bench/uml/queues.py: two rows of {key_of(row)}")
        self.keys.add(key_of(row))

    def add(self, row):
        with self.lock, open(self.file, "a", newline="") as out:
            fcntl.flock(out, fcntl.LOCK_EX)
            self.take(row)
            csv.DictWriter(out, FIELDS, lineterminator="\n").writerow({name: beside.short_form(it) for name, it in row.items()})
            out.flush()
            os.fsync(out.fileno())


def text_of(rows):
    out = io.StringIO()
    writer = csv.DictWriter(out, FIELDS, lineterminator="\n")
    writer.writeheader()
    writer.writerows(rows)
    return out.getvalue()


def crossed(folder, begin, end):
    """Returns the waits in ms of the packets that arrive between two moments, in seconds, and the number of those that never depart."""
    begin, end = begin * 1e9, end * 1e9
    departures = {}
    for moment, source, _, port, identification, protocol in RECORD.iter_unpack((folder / "departures").read_bytes()):
        departures.setdefault((source, port, identification, protocol), []).append(moment)
    waits, lost = [], 0
    for moment, source, _, port, identification, protocol in reversed(list(RECORD.iter_unpack((folder / "arrivals").read_bytes()))):
        # (of the arrivals with one identification the latest comes first, as do the departures)
        left = departures.get((source, port, identification, protocol))
        wait = left.pop() - moment if left and left[-1] >= moment else None
        if not begin <= moment < end:
            continue
        if wait is None:
            lost += 1
        else:
            waits.append(wait / 1e6)
    return waits, lost


def row_of(scenario, block, folder, program):
    """Returns the measures of a run."""
    seconds = scenario["seconds"]
    found = beside.Found(scenario, block, folder, program)
    whole = found.row(0, seconds)
    waits, lost = crossed(folder, seconds / 4, seconds)
    if not waits or found.broken or not whole["goodput"]:
        raise ValueError(f"carried nothing, or flows broke: {found.broken}")
    if found.late or not (found.audit == "-" or found.audit.startswith("clean,")):
        raise ValueError(f"late or not clean: {found.late}, {found.audit}")
    took = [it if it is not None else float("inf") for _, _, it in found.took]
    return {name: whole[name] for name in ("goodput", "groups", "early", "tail", "marks", "late", "audit")} | {
        "wait": fmean(waits), "wait99": beside.last_of(waits, 0.99), "packets": len(waits), "lost": lost, "short": median(took) if took else None}


class Batch:
    """The runs of a call: blocks of scenarios whose rows are missing."""

    def __init__(self, program, folder, rows, names, last):
        self.program, self.folder, self.rows = program, folder, rows
        self.linux, self.stopped, self.failed = set(), False, []
        self.lock = threading.Lock()
        every = [(block, name, queue) for name in names for queue in SCENARIOS[name].queues
                 for block in range(1, min(last, SCENARIOS[name].blocks_of(queue)) + 1)]
        self.planned = len(every)
        self.parts = {}
        for block, name, queue in sorted(every, key=lambda it: (it[0], names.index(it[1]))):
            if (name, queue, block) not in rows.keys:
                self.parts.setdefault((block, name), []).append(queue)
        self.left, self.took, self.made = sum(map(len, self.parts.values())), 0.0, 0

    def stop(self, *_):
        self.stopped = True
        for it in list(self.linux):
            it.terminate()

    def run(self, part):
        (block, name), queues = part, self.parts[part]
        if self.stopped:
            return
        place = self.folder / f"{name}-{block}"
        shutil.rmtree(place, ignore_errors=True)
        place.mkdir()
        scenario = SCENARIOS[name].block(block, sorted(queues))
        (place / "block.json").write_text(json.dumps(scenario))
        seconds = self.boot(place)
        done = self.collect(scenario, name, block, place, seconds)
        if not self.stopped or done == len(queues):
            self.failed += [] if done == len(queues) else [f"{name}: block {block}: {(place / 'said').read_text()[-2000:]}"]
        if done == len(queues):
            shutil.rmtree(place)
        with self.lock:
            self.left, self.made, self.took = self.left - done, self.made + done, self.took + seconds
            each = self.took / max(1, self.made)
            print(f"block {block} of {name}: {done} runs of {len(queues)}, {seconds:.0f} processor seconds; "
                  f"{self.planned - self.left} of {self.planned} runs, {each * self.left / 3600:.1f} processor hours left", flush=True)

    def boot(self, place):
        """Boots a Linux that makes the runs of a block. Returns its processor seconds."""
        linux = linux_by(json.loads((place / "block.json").read_text())["linux"])
        with open(place / "said", "w") as said:
            it = subprocess.Popen([str(HERE / "run.sh"), sys.executable, str(HERE / "network.py"), str(place / "block.json")],
                                  stderr=said, stdout=said, start_new_session=True, env=os.environ | {"UML_LINUX": linux, "UML_SECONDS": "100000"})
            self.linux.add(it)
            if self.stopped:
                it.terminate()
            ended = threading.Event()
            threading.Thread(target=keep_near, args=(it.pid, ended), daemon=True).start()
            _, _, used = os.wait4(it.pid, 0)
            ended.set()
            it.returncode = 0
            self.linux.discard(it)
        return used.ru_utime + used.ru_stime

    def collect(self, scenario, name, block, place, seconds):
        """Adds the rows of the runs that are complete. Returns their number."""
        whole = [it for it in scenario["order"] if (place / it / "run.json").exists()]
        done = 0
        for it in whole:
            try:
                row = row_of(scenario, str(block), place / it, self.program)
            except (OSError, ValueError, KeyError, StopIteration) as why:
                self.failed.append(f"{name}: {it}: {type(why).__name__}: {why}")
                continue
            self.rows.add(row | {"scenario": name, "queue": it.split("-", 1)[1], "block": block, "processor": seconds / len(whole),
                                 "version": self.rows.version})
            done += 1
        return done


@functools.cache
def linux_by(script):
    """Returns the Linux that a script builds in the user's cache."""
    with BUILDING:
        return subprocess.run([HERE / script, *["--kept"] * (script == "build.sh")], stdout=subprocess.PIPE, text=True, check=True).stdout.strip()


def busy():
    """Returns for each processor the time that it spent on work of usual or higher priority."""
    lines = [line.split() for line in Path("/proc/stat").read_text().splitlines() if line.startswith("cpu") and line[3] != " "]
    return {int(words[0][3:]): int(words[1]) + int(words[3]) for words in lines}


def keep_near(session, ended, every=5):
    """Keeps the processes of a session on one processor: the one that other work uses least. (run.sh binds them to the one on which they begin.)"""
    before = busy()
    while not ended.wait(every):
        after = busy()
        chosen = min(os.sched_getaffinity(0), key=lambda it: after[it] - before[it] + random.random())
        before = after
        for it in Path("/proc").glob("[0-9]*/stat"):
            try:
                if int(it.read_text().rpartition(")")[2].split()[3]) == session:
                    os.sched_setaffinity(int(it.parent.name), {chosen})
            except OSError:
                pass


def run_all(batch, jobs):
    """Makes the runs of a batch. Returns 1 if one failed."""
    with ThreadPoolExecutor(jobs) as pool:
        list(pool.map(batch.run, batch.parts))
    for it in batch.failed:
        print(f"bench/uml/queues.py: {it}")
    return int(bool(batch.failed))


def store(folder):
    """Moves the rows of a folder to those that are stored."""
    now = version()
    if now not in PLAN.read_text() or now.endswith("+"):
        sys.exit(f"bench/uml/queues.py: PLAN.md does not name this version: {now}")
    rows = Rows(folder, now)
    names = list(SCENARIOS)
    rows.all.sort(key=lambda row: (int(row["block"]), names.index(row["scenario"]), SCENARIOS[row["scenario"]].queues.index(row["queue"])))
    STORED.write_bytes(lzma.compress(text_of(rows.all).encode(), preset=9))
    rows.file.write_text(text_of([]))
    print(f"{len(rows.all)} rows in {STORED.relative_to(TOP)}")


def main():
    parser = argparse.ArgumentParser(usage=__doc__.split("usage: ")[1])
    parser.add_argument("--store")
    parser.add_argument("--version", action="store_true")
    parser.add_argument("--jobs", type=int, default=1)
    parser.add_argument("--blocks", type=int, default=10 ** 6)
    parser.add_argument("--trial", action="store_true")
    parser.add_argument("program", nargs="?")
    parser.add_argument("folder", nargs="?")
    parser.add_argument("names", nargs="*")
    words = parser.parse_intermixed_args()
    if words.version:
        return print(version())
    if words.store:
        return store(Path(words.store).resolve())
    if not words.folder:
        parser.error("PIE and FOLDER are missing")
    now, folder = version(), Path(words.folder).resolve()
    if not words.trial and (now.endswith("+") or now not in PLAN.read_text()):
        sys.exit(f"bench/uml/queues.py: PLAN.md does not name this version: {now}")
    for place in (HERE, TOP / "examples/link"):
        subprocess.run(["make", "-s", "-C", place], check=True)
    batch = Batch(os.path.abspath(words.program), folder, Rows(folder, now), words.names or list(SCENARIOS), words.blocks)
    for it in (signal.SIGTERM, signal.SIGINT):
        signal.signal(it, batch.stop)
    return run_all(batch, words.jobs)


if __name__ == "__main__":
    sys.exit(main())
