#!/usr/bin/env python3
"""Runs a fleet on this machine: a Dask scheduler and three workers over 300 histories of storms and examples, some
damaged, some that differ. The table must be that of one process over the same files, also if a worker is killed in
between. A second run must take only the changed files, and list them. A worker with another `pie` must get no work.
Files that vanish, hosts without a worker and a stopped run must be reported, and no file counted twice. Then the
script tries the commands over SSH of docs/OPERATING.md: three servers on loopback addresses, with GNU parallel.

usage: tests/fleet/fleet.py [PROGRAM [HISTORIES]]      PROGRAM: crates/pie/out/pie by default; of HISTORIES (300) a tenth is damaged
needs: program
"""
import csv
import gzip
import json
import os
import random
import shutil
import signal
import socket
import subprocess
import sys
import tempfile
import time
import traceback

HERE = os.path.dirname(os.path.abspath(__file__))
TOP = os.path.dirname(os.path.dirname(HERE))
PROGRAM = os.path.abspath(sys.argv[1]) if len(sys.argv) > 1 else f"{TOP}/crates/pie/out/pie"
MANY = int(sys.argv[2]) if len(sys.argv) > 2 else 300
# The most seconds for any step: on a busy machine each step takes long.
PATIENCE = 900
failures = []


def python_with_dask():
    for name in ("python3", "/usr/bin/python3"):
        look = "import importlib.util, sys; sys.exit(importlib.util.find_spec('distributed') is None)"
        if shutil.which(name) and subprocess.run([name, "-c", look], capture_output=True).returncode == 0:
            return name
    return None


PYTHON = python_with_dask()


def check(what, holds, told=""):
    if not holds:
        failures.append(what)
        print(f"tests/fleet/fleet.py: FAILED: {what}: {told}", flush=True)


def storm(seed, packets, load):
    """Returns the history of a storm. Its threads wait for each other, so that on a busy machine it takes seconds,
    and only some are made. Its losses depend on the machine too: if senders take turns, no packet is dropped."""
    words = [PROGRAM, "storm", "--senders", "2", "--seed", str(seed), "--packets", str(packets), "--load", str(load)]
    ended = subprocess.run(words, capture_output=True, text=True)
    check(f"{' '.join(words)}: status", ended.returncode == 0, f"{ended.returncode}: {ended.stderr}")
    return ended.stdout


def all_examples():
    """Returns the histories of the examples, by name."""
    texts = {}
    for name in sorted(os.listdir(f"{TOP}/examples")):
        if name.endswith(".history"):
            with open(f"{TOP}/examples/{name}") as text:
                texts[name] = text.read()
    return texts


def make_histories(folder):
    """Histories of storms and of examples, most cut at a length of their own, a few of them long; each tenth is damaged, one of three ways."""
    chance = random.Random(8033)
    names, examples = [], list(all_examples().values())
    storms, long = [storm(seed, 250, load) for seed, load in enumerate((100, 120, 50, 80, 150), 1)], storm(6, 3000, 100)
    for number in range(MANY):
        name = f"{folder}/link{number:03}.history"
        whole = long if number % 50 == 1 else examples[number // 7 % len(examples)] if number % 7 == 0 else storms[number % len(storms)]
        lines = whole.splitlines(keepends=True)
        if number % 7 != 0:
            lines = lines[: len(lines) - number]
        at = chance.randrange(len(lines) // 2, len(lines))
        if number % 30 == 4:
            lines[at] = lines[at].replace("\n", ",1\n")
        elif number % 30 == 14:
            arrivals = [place for place, line in enumerate(lines) if line.endswith(",enqueue\n")]
            arrival = arrivals[len(arrivals) // 2]
            lines[arrival] = lines[arrival].replace(",enqueue\n", ",early\n")
        elif number % 30 == 24:
            lines = lines[:at] + ["nonsense\n"]
        with open(name, "w") as out:
            out.writelines(lines)
        names.append(name)
    return names


expected_rows = {}


def expected(name):
    """Returns the finding of one process for a file, by the program's own output; an unchanged file is not read
    again."""
    stamp = (name, os.stat(name).st_mtime_ns, os.stat(name).st_size)
    if stamp not in expected_rows:
        expected_rows[stamp] = find(name)
    return expected_rows[stamp]


def find(name):
    audit = subprocess.run([PROGRAM, "audit"], stdin=open(name), capture_output=True, text=True)
    summary = subprocess.run([PROGRAM, "explain", "--summary", "--csv"], stdin=open(name), capture_output=True, text=True).stdout.split("\n")
    finding, _, event = audit.stdout.strip().partition(",")
    row = dict(zip(summary[0].split(","), summary[1].split(","))) if len(summary) > 1 else {}
    for share, verdicts in {"loss_percent": ("early", "bytes", "packets"), "marks_percent": ("mark",)}.items():
        arrivals = int(row.get("arrivals") or 0)
        row[share] = f"{100 * sum(int(row[verdict]) for verdict in verdicts) / arrivals:.4f}" if arrivals else ""
    return {**row, "status": str(audit.returncode), "finding": finding or "fault", "event": event, "note": note(name) if audit.returncode == 1 else ""}


def note(name):
    """Returns the lines of `pie audit` about a file as one, without the file's name: the fault, and its line and field."""
    told = subprocess.run([PROGRAM, "audit", name], capture_output=True, text=True).stderr
    return "; ".join(line.removeprefix("pie: ").removeprefix(f"{name}: ").replace(f" of {name}", "") for line in told.strip().split("\n"))


def table(path):
    with open(path, newline="", errors="surrogateescape") as text:
        rows = list(csv.DictReader(text))
    check(f"{path}: each link once", len({row["link"] for row in rows}) == len(rows))
    return {row["link"]: row for row in rows}


def same(what, path, names, links=None):
    """Checks that a table has a row for each file with the finding of one process."""
    rows = table(path)
    links = links or names
    check(f"{what}: the links", sorted(rows) == sorted(links), f"{len(rows)} of {len(links)}")
    for link, name in zip(links, names):
        wanted = expected(name)
        got = {field: rows.get(link, {}).get(field) for field in wanted}
        if got != wanted:
            differ = {field: (got[field], wanted[field]) for field in wanted if got[field] != wanted[field]}
            check(f"{what}: {link}", False, differ)


def address_in(place):
    """Returns the scheduler's address, once its file has all of it."""
    try:
        with open(place) as text:
            return json.load(text)["address"]
    except (OSError, ValueError, KeyError):
        return None


def made_script(path, *lines):
    with open(path, "w") as out:
        out.write("\n".join(["#!/bin/sh", *lines, ""]))
    os.chmod(path, 0o755)
    return path


class Cluster:
    """A scheduler and workers on this machine, with the settings of fleet/dask.yaml. Each worker
    has one thread and its own folder on its path. `pie` in that folder waits at a history if a file
    with the history's name and the suffix `.hold` exists, and reports it in the folder's file
    `held`."""

    def __init__(self, folder):
        self.folder, self.processes, self.workers = folder, [], {}
        place = f"{folder}/scheduler.json"
        self.begin([PYTHON, "-m", "distributed.cli.dask_scheduler", "--host", "127.0.0.1", "--port", "0", "--no-dashboard",
                    "--scheduler-file", place])
        self.address = self.wait_for("the scheduler's address", lambda: address_in(place))

    def log(self, number):
        with open(f"{self.folder}/log{number}", errors="replace") as text:
            return text.read()

    def begin(self, words, **more):
        with open(f"{self.folder}/log{len(self.processes)}", "w") as log:
            env = {**os.environ, "DASK_CONFIG": f"{TOP}/fleet/dask.yaml"}
            more = {"cwd": self.folder, "env": env, **more, "stdout": log, "stderr": log, "stdin": subprocess.DEVNULL}
            self.processes.append(subprocess.Popen(words, start_new_session=True, **more))
        return self.processes[-1]

    def wait_for(self, what, look):
        """Waits until `look` returns a result, on a busy machine for minutes."""
        begun = time.monotonic()
        while time.monotonic() < begun + PATIENCE:
            found = look()
            if found:
                return found
            time.sleep(0.1)
        raise TimeoutError(f"no {what} after {PATIENCE} s")

    def worker(self, name, program=PROGRAM, nanny=True):
        bin_folder = f"{self.folder}/{name}"
        os.makedirs(bin_folder, exist_ok=True)
        if program:
            made_script(f"{bin_folder}/pie", "read=$(readlink /proc/$$/fd/0)",
                        f'while [ -e "$read.hold" ]; do : > "{bin_folder}/held"; sleep 0.1; done', f'exec "{program}" "$@"')
        path = f"{bin_folder}:{os.path.dirname(shutil.which('env'))}"
        words = [shutil.which(PYTHON), "-m", "distributed.cli.dask_worker", self.address, "--name", name, "--nthreads", "1", "--no-dashboard",
                 "--host", "127.0.0.1", "--nanny" if nanny else "--no-nanny", "--local-directory", bin_folder]
        self.workers[name] = self.begin(words, env={**os.environ, "PATH": path, "DASK_CONFIG": f"{TOP}/fleet/dask.yaml"})

    def wait_for_workers(self, *names):
        """Waits until the scheduler has reported the arrival of each of these workers."""
        for name in names:
            self.wait_for(f"worker {name}", lambda: any(f"name: {name}," in line for line in self.log(0).splitlines() if "Register worker" in line))

    def fleet(self, *words):
        """Begins pie-fleet; returns its process, and the number of its log."""
        return self.begin([PYTHON, "-m", "pie_fleet", *words], cwd=f"{TOP}/fleet", env=os.environ), len(self.processes) - 1

    def wait_for_row(self, begun, log, journal):
        """Waits until a running run has written a row, and checks that it still runs: it must, while a history is
        held back."""
        self.wait_for(f"row in {journal}", lambda: begun.poll() is not None or os.path.exists(journal) and os.path.getsize(journal))
        check(f"{journal}: the run goes on", begun.poll() is None, f"{begun.returncode}: {self.log(log)[-2000:]}")

    def tell(self):
        """Returns the last output of scheduler, workers and runs."""
        for number, process in enumerate(self.processes):
            print(f"tests/fleet/fleet.py: {' '.join(process.args)} ({process.poll()}):\n{self.log(number)[-3000:]}", flush=True)

    def end(self):
        for process in reversed(self.processes):
            try:
                os.killpg(process.pid, signal.SIGKILL)
            except ProcessLookupError:
                pass
            process.wait()


def stage(told):
    """Prints the time and the stage of the test on the error stream."""
    print(f"{time.strftime('%H:%M:%S')} {told}", file=sys.stderr, flush=True)


def fleet(*words, status, errors=None):
    """Runs pie-fleet, checks its status, and returns its output."""
    ended = subprocess.run([PYTHON, "-m", "pie_fleet", *words], cwd=f"{TOP}/fleet", capture_output=True, errors="surrogateescape",
                           stdin=subprocess.DEVNULL, timeout=PATIENCE)
    check(f"pie-fleet {' '.join(words)}: status", ended.returncode == status, f"{ended.returncode} and not {status}: {ended.stderr[-2000:]}")
    if errors is not None:
        check(f"pie-fleet {' '.join(words)}: {errors}", errors in ended.stderr, ended.stderr[-2000:])
    return ended.stdout


def hold(names):
    for name in names:
        with open(f"{name}.hold", "w"):
            pass


def release(names):
    for name in names:
        os.unlink(f"{name}.hold")


def main():
    work = tempfile.mkdtemp()
    cluster = None
    try:
        histories = f"{work}/histories"
        os.mkdir(histories)
        stage("histories")
        names = make_histories(histories)
        stage("alone")
        run_alone(work, names)
        stage("a cluster")
        cluster = Cluster(work)
        run_cluster(cluster, work, names)
        stage("over SSH")
        run_ssh(work, names)
    except Exception as fault:
        traceback.print_exc(file=sys.stdout)
        check(f"{type(fault).__name__}", False, fault)
    finally:
        if cluster and failures:
            cluster.tell()
        if cluster:
            cluster.end()
        shutil.rmtree(work, ignore_errors=True)
    print(f"tests/fleet/fleet.py: {MANY} histories, {len(failures)} failures", flush=True)
    return 1 if failures else 0


def run_alone(work, names):
    """Checks a run without a scheduler: one process does all work here."""
    fleet(f"{work}/histories/link00*.history", "-o", f"{work}/alone.csv", "--pie", PROGRAM, status=1)
    same("alone", f"{work}/alone.csv", names[:10])
    fleet(f"{work}/histories/link00*.history", "-o", f"{work}/alone.csv", "--pie", PROGRAM, status=1, errors="--force")
    run_named(work)
    run_over_files(work)
    run_mistakes(work)


def run_named(work):
    """Checks names that are no text, of a pattern and of a list: each history has its row, with the bytes of its name."""
    folder, links = f"{work}/named", [b"caf\xe9", b"\xff\xfe\xfd", "caf\u00e9".encode(), b"a b, 'c' \"d\"", b"-x", b"new\nline", b"esc\x1b[1m"]
    os.mkdir(folder)
    names = [os.path.join(os.fsencode(folder), link + b".history") for link in links]
    for name in names:
        shutil.copy(f"{TOP}/examples/burst.history", name)
    with open(f"{work}/named.list", "wb") as out:
        out.writelines(b"one: " + name + b"\n" for name in names[:2])
    told = fleet(f"{folder}/*.history", "--list", f"{work}/named.list", "-o", f"{work}/named.csv", "--page", f"{work}/named.html", "--pie", PROGRAM,
                 "--worst", "mean_wait", status=0)
    with open(f"{work}/named.csv", "rb") as text:
        bytes_of_table = text.read()
    rows = list(csv.DictReader(bytes_of_table.decode(errors="surrogateescape").splitlines(keepends=True)))
    check("names that are no text", {os.fsencode(row["path"]) for row in rows} == set(names) and len(rows) == 9, rows)
    check("names that are no text: clean", all(row["finding"] == "clean" for row in rows), rows)
    check("names that are no text: the worst", b"caf\xe9.history" in os.fsencode(told), told)
    check("names with control characters", "new\\x0aline.history\n" in told and "esc\\x1b[1m.history\n" in told and "\x1b" not in told, told)
    with open(f"{work}/named.html", encoding="utf-8") as text:
        page = text.read()
    check("names that are no text: the page", page.count("<tr") == 10 and "\\xff\\xfe\\xfd.history" in page and "caf\ufffd.history" in page, page)
    # an unchanged file keeps its row, also in the table of the next day
    fleet(f"{folder}/*.history", "-o", f"{work}/again.csv", "--since", f"{work}/named.csv", "--pie", PROGRAM, status=0)
    check("names that are no text: the next day", all(os.fsdecode(name) in table(f"{work}/again.csv") for name in names))


def run_mistakes(work):
    """Checks that columns that do not exist are refused before any work, that the note of a damaged history has its line and field, or the command that
    reads it, and that a link to no file has a row."""
    folder = f"{work}/mistakes"
    os.mkdir(folder)
    with open(f"{TOP}/examples/overload.history") as text:
        lines = text.readlines()
    with open(f"{folder}/fault.history", "w") as out:
        out.writelines([*lines[:6], lines[6].replace(",not", ",nott"), *lines[7:]])
    with open(f"{folder}/a b.history", "wb") as out:
        out.write(gzip.compress("".join(lines).encode()))
    os.symlink("nowhere", f"{folder}/gone.history")
    shutil.copy(f"{TOP}/examples/burst.history", f"{folder}/good.history")
    pattern, named = f"{folder}/*.history", ["--pie", PROGRAM]
    for words, told in ((["--worst", "nope"], "nope: not a column of numbers\n"), (["--worst", "mean_wiat"], "mean_wiat: not a column of numbers; the nearest is mean_wait\n"),
                        (["--worst", "note"], "note: not a column of numbers")):
        fleet(pattern, *words, "-o", f"{folder}/new.csv", *named, status=1, errors=told)
        check(f"{words}: no table", not os.path.exists(f"{folder}/new.csv") and not os.path.exists(f"{folder}/new.csv.journal"))
    fleet(pattern, "-o", f"{folder}/new.csv", *named, status=1, errors="gone.history: missing: No such file or directory")
    rows = table(f"{folder}/new.csv")
    notes = {os.path.basename(name): (row["finding"], row["note"]) for name, row in rows.items()}
    check("the notes of damaged histories", notes == {
        "a b.history": ("fault", f"the first record is not an open record; it is compressed by gzip; zcat '{folder}/a b.history' | pie audit .. reads it"),
        "fault.history": ("fault", 'record 7: unknown word; line 7, field 6 (ecn): "nott"; allowed are not, ect0, ect1, ce'),
        "gone.history": ("missing", "No such file or directory"), "good.history": ("clean", "")}, notes)
    fleet(pattern, "-o", f"{folder}/next.csv", "--since", f"{folder}/new.csv", "--worse", "nope=20%", *named, status=1, errors="nope: not a column of numbers")
    fleet(pattern, "-o", f"{folder}/next.csv", "--since", f"{folder}/new.csv", "--worse", "mean_wait=20%", "--worst", "loss_percent", *named, status=1)


def run_over_files(work):
    """Checks that no file is lost: an output that is an input or another output is refused, and so is one that exists, unless it is replaced by
    --force. A refused run leaves no journal."""
    folder = f"{work}/over"
    os.mkdir(folder)
    shutil.copy(f"{TOP}/examples/burst.history", f"{folder}/one.history")
    os.link(f"{folder}/one.history", f"{folder}/hard")
    os.symlink("one.history", f"{folder}/soft")
    shutil.copy(f"{TOP}/examples/burst.history", f"{folder}/new.csv.journal")
    for name in ("table", "page", "list"):
        with open(f"{folder}/{name}", "w") as out:
            out.write("link\n" if name == "table" else f"one: {folder}/one.history\n")

    def contents():
        return {name: open(f"{folder}/{name}", "rb").read() for name in os.listdir(folder)}

    before = contents()
    cases = [(["-o", f"{folder}/{name}"], "--force") for name in ("one.history", "hard", "soft")]
    cases += [(["-o", f"{folder}/{name}", "--force"], "input file cannot be the output") for name in ("one.history", "hard", "soft")]
    cases += [(["-o", f"{folder}/new", "--page", f"{folder}/{name}", "--force"], "input file cannot be the output") for name in ("one.history", "hard")]
    cases += [(["-o", f"{folder}/new", "--page", f"{folder}/new"], "two outputs cannot be one"),
              (["-o", f"{folder}/new", "--page", f"{folder}/new.journal"], "two outputs cannot be one"),
              (["-o", f"{folder}/new", "--page", f"{folder}/page"], "--force"), (["-o", f"{folder}/table"], "--force"),
              (["-o", f"{folder}/table", "--since", f"{folder}/table", "--force"], "input file cannot be the output"),
              (["-o", f"{folder}/list", "--list", f"{folder}/list", "--force"], "input file cannot be the output"),
              (["-o", f"{folder}/new.csv", "--force"], "not the journal of an interrupted run"),
              (["-o", f"{folder}/new", "--page", f"{folder}/none/page"], "No such file"), (["-o", folder, "--force"], "folder")]
    for words, told in cases:
        fleet(f"{folder}/*.history", *words, "--pie", PROGRAM, status=1, errors=told)
        check(f"{words}: the files", contents() == before, set(contents()) ^ set(before))
    fleet(f"{folder}/*.history", "-o", f"{folder}/table", "--page", f"{folder}/page", "--force", "--pie", PROGRAM, status=0)
    check("--force: table and page", len(table(f"{folder}/table")) == 1 and contents()["page"].endswith(b"</html>\n"))
    check("--force: other files", set(contents()) == set(before), set(contents()) ^ set(before))


def run_cluster(cluster, work, names):
    pattern = f"{work}/histories/*.history"
    where = ["--scheduler", cluster.address, "--patience", "3"]
    cluster.worker("one")
    for name in ("two", "three"):
        cluster.worker(name, nanny=False)
    cluster.wait_for_workers("one", "two", "three")
    # Each worker receives a history that is held back, because there are more of these than two workers have at
    # once. So the third worker is killed with a history in progress, after others that were finished; it has no
    # nanny to restart it.
    held = names[MANY // 3:]
    hold(held)
    begun, log = cluster.fleet(pattern, *where, "-o", f"{work}/table.csv")
    cluster.wait_for_row(begun, log, f"{work}/table.csv.journal")
    cluster.wait_for("history in the third worker's hands", lambda: begun.poll() is not None or os.path.exists(f"{work}/three/held"))
    check("the third worker was killed in the middle", begun.poll() is None and os.path.exists(f"{work}/three/held"))
    os.killpg(cluster.workers["three"].pid, signal.SIGKILL)
    release(held)
    begun.wait(timeout=PATIENCE)
    check("a worker killed in the middle: status", begun.returncode == 1, f"{begun.returncode}: {cluster.log(log)[-2000:]}")
    same("a worker killed in the middle", f"{work}/table.csv", names)
    check("the journal is gone", not os.path.exists(f"{work}/table.csv.journal"))
    stage("ten files changed")
    run_changed(work, names, where)
    stage("a run that is stopped")
    run_stopped(cluster, work, names, where)
    stage("files of hosts")
    run_hosts(cluster, work, names, where)


def change_ten(clean, quiet):
    """Changes ten files: the first clean one differs at an event, `quiet` loses far more packets,
    seven others change, and the last is removed."""
    with open(clean[0]) as text:
        lines = text.readlines()
    arrival = next(place for place, line in enumerate(lines) if line.endswith(",enqueue\n"))
    lines[arrival] = lines[arrival].replace(",enqueue\n", ",early\n")
    with open(clean[0], "w") as out:
        out.writelines(lines)
    with open(quiet, "w") as out:
        out.write(all_examples()["overload.history"])
    lines = all_examples()["reset.history"].splitlines(keepends=True)
    for number, name in enumerate(clean[1:8]):
        with open(name, "w") as out:
            out.writelines(lines[: 500 + number])
    os.unlink(clean[8])
    return arrival


def with_notes(work):
    """Returns the table as first.csv, with a mark in the notes of its rows: a row that is not read again keeps the
    mark."""
    with open(f"{work}/table.csv") as text:
        rows = list(csv.DictReader(text))
    for row in rows:
        row["note"] = row["note"] or "of the first run"
    with open(f"{work}/first.csv", "w", newline="") as out:
        to = csv.DictWriter(out, rows[0].keys())
        to.writeheader()
        to.writerows(rows)


def rises(before, names):
    """Returns the lines that report which of these lost more than before, by more than one of a hundred packets."""
    lines = []
    for name in names:
        was, now = before.get(name, {}).get("loss_percent"), expected(name)["loss_percent"]
        if was and now and float(now) > float(was) + 1:
            lines.append(f"{name}: loss_percent rose from {was} to {now}, by more than 1")
    return lines


def run_changed(work, names, where):
    """Tests a run after ten files changed: a clean one differs, one becomes worse, one is removed,
    one is new. The others are not read again."""
    clean = [name for number, name in enumerate(names) if number % 10 != 4 and number % 7 != 0]
    # (the losses of storms are not known beforehand: this is an example, a burst that lost nothing)
    quiet = names[0]
    arrival = change_ten(clean, quiet)
    changed, left = [*clean[:8], quiet], [name for name in names if name != clean[8]]
    new = f"{work}/histories/new.history"
    shutil.copy(clean[9], new)
    with_notes(work)
    told = fleet(f"{work}/histories/*.history", *where, "-o", f"{work}/second.csv", "--since", f"{work}/first.csv", "--worse", "loss_percent=1",
                 "--worst", "greatest_wait", status=1)
    lines = told.splitlines()
    differ = [line for line in lines if ": differs for the first time" in line]
    check("ten files changed: differs", differ == [f"{clean[0]}: differs for the first time, at event {arrival}"], told)
    worse = rises(table(f"{work}/table.csv"), [*left, new])
    check("ten files changed: one becomes worse", any(line.startswith(f"{quiet}: ") for line in worse), worse)
    check("ten files changed: worse", sorted(line for line in lines if " rose from " in line) == sorted(worse), (told, worse))
    worst = [float(line.split()[0]) for line in told.split("the greatest greatest_wait:\n")[1].splitlines()]
    check("the ten worst", len(worst) == 10 and worst == sorted(worst, reverse=True), told)
    again = {link for link, row in table(f"{work}/second.csv").items() if row["note"] != "of the first run" and row["finding"] != "fault"}
    check("ten files changed: only these are read again", again == {*changed, new}, sorted(again ^ {*changed, new}))
    with open(f"{work}/second.csv") as text:
        kept = text.read().replace("of the first run", "")
    with open(f"{work}/second.csv", "w") as out:
        out.write(kept)
    same("ten files changed", f"{work}/second.csv", [*left, new])
    names[:] = [*left, new]


def run_stopped(cluster, work, names, where):
    """Checks that a stopped run of a hundred files leaves its journal, and that the same command continues; a truncated line of the journal is made
    again."""
    some = [name for name in names if "/link0" in name]
    words = [f"{work}/histories/link0*.history", *where, "-o", f"{work}/third.csv"]
    held, journal = some[len(some) // 2:], f"{work}/third.csv.journal"
    hold(held)
    begun, log = cluster.fleet(*words)
    cluster.wait_for_row(begun, log, journal)
    begun.kill()
    begun.wait()
    release(held)
    check("a run that was stopped: no table", not os.path.exists(f"{work}/third.csv"))
    with open(journal) as text:
        rows = text.readlines()
    check("a run that was stopped: a journal of some", 0 < len(rows) < len(some), len(rows))
    with open(journal, "a") as out:
        out.write(rows[0][:40])
    fleet(*words, status=1)
    same("a run that was stopped", f"{work}/third.csv", some)


def run_hosts(cluster, work, names, where):
    """Files that lie on machines of their own; a host without a worker; a worker without `pie`, and one with another."""
    other = made_script(f"{work}/other", "echo pie 0.0.1")
    cluster.worker("four", program=None, nanny=False)
    cluster.worker("five", program=other, nanny=False)
    cluster.wait_for_workers("four", "five")
    listed = [f"{host}: {name}" for host, name in zip(["one", "two"] * 10, names)]
    with open(f"{work}/list", "w") as out:
        out.write("\n".join([*listed, f"nowhere: {names[0]}", f"one: {work}/gone.history", f"four: {names[1]}"]) + "\n")
    fleet("--list", f"{work}/list", *where, "-o", f"{work}/hosts.csv", "--page", f"{work}/page.html", status=1,
          errors="gets no work: it has pie 0.0.1")
    rows = table(f"{work}/hosts.csv")
    check("a host without a worker", rows[f"nowhere: {names[0]}"]["finding"] == "unreached", rows[f"nowhere: {names[0]}"])
    check("a worker without pie", rows[f"four: {names[1]}"]["finding"] == "unreached", rows[f"four: {names[1]}"])
    check("a file that is gone", rows[f"one: {work}/gone.history"]["finding"] == "missing", rows[f"one: {work}/gone.history"])
    with open(f"{work}/hosts.csv") as text:
        kept = text.readlines()
    with open(f"{work}/hosts.csv", "w") as out:
        out.writelines(line for line in kept if not line.startswith(("nowhere", "four", f"one: {work}/gone")))
    same("files of two hosts", f"{work}/hosts.csv", names[:20], [f"{host}: {name}" for host, name in zip(["one", "two"] * 10, names)])
    with open(f"{work}/page.html") as text:
        page = text.read()
    check("the page", page.count("<tr") == 24 and "pie-report " in page)


def free_port(host):
    with socket.socket() as any_port:
        any_port.bind((host, 0))
        return any_port.getsockname()[1]


def wait_for_server(host, port):
    begun = time.monotonic()
    while time.monotonic() < begun + PATIENCE:
        try:
            socket.create_connection((host, port), timeout=10).close()
            return
        except OSError:
            time.sleep(0.1)
    raise TimeoutError(f"no server came on {host}")


def start_servers(ssh, hosts):
    """Starts an SSH server of this user's on each of some loopback addresses, and writes the client's configuration for all. Sessions share a
    connection, and start no shell's profile of this user's."""
    subprocess.run(["ssh-keygen", "-q", "-t", "ed25519", "-N", "", "-f", f"{ssh}/key"], check=True)
    shutil.copy(f"{ssh}/key.pub", f"{ssh}/authorized_keys")
    os.makedirs("/run/sshd", exist_ok=True)
    servers = []
    with open(f"{ssh}/config", "w") as out:
        for host in hosts:
            port = free_port(host)
            out.write(f"Host {host}\n Port {port}\n IdentityFile {ssh}/key\n UserKnownHostsFile {ssh}/known\n StrictHostKeyChecking no\n"
                      f" LogLevel ERROR\n ControlMaster auto\n ControlPath {ssh}/to-%h\n ControlPersist 60\n")
            words = ["/usr/sbin/sshd", "-D", "-e", "-f", "/dev/null", "-h", f"{ssh}/key", "-p", str(port)]
            for option in (f"ListenAddress={host}", f"AuthorizedKeysFile={ssh}/authorized_keys", "StrictModes=no", "PidFile=none", "MaxStartups=100",
                           "MaxSessions=100", f"SetEnv=PATH={os.path.dirname(PROGRAM)}:{os.defpath} HOME={ssh}"):
                words += ["-o", option]
            servers.append(subprocess.Popen(words, stderr=open(f"{ssh}/log-{host}", "w")))
            wait_for_server(host, port)
    return servers


def run_ssh(work, names):
    """Checks docs/OPERATING.md's commands over SSH, with three servers on loopback addresses: all histories, which every host sees, and some that are
    sent."""
    if not shutil.which("parallel") or not shutil.which("rsync") or not os.path.exists("/usr/sbin/sshd"):
        print("NOT RUN: tests/fleet/fleet.py: no GNU parallel, no rsync or no sshd here (tests/install.sh fleet), so nothing went over SSH")
        return
    ssh, hosts = f"{work}/ssh", [f"127.0.0.{number}" for number in (2, 3, 4)]
    os.makedirs(ssh, mode=0o700)
    os.mkdir(f"{work}/there")
    # (--cleanup removes empty folders, also one to which a file is being sent, so a host's home is
    # not empty)
    open(f"{work}/there/home", "w").close()
    servers = start_servers(ssh, hosts)
    words = ["parallel", "--ssh", f"ssh -F {ssh}/config", "--sshlogin", ",".join(f"2/{host}" for host in hosts), "--joblog", f"{work}/joblog"]
    try:
        by_parallel("over SSH", work, work, hosts, [*words, "-X", "pie", "audit", "{}"], sorted(names))
        # (all hosts are this machine, so files are sent to a separate folder, and removed from it
        # after the audit)
        sent = [*words, "--workdir", f"{work}/there", "--transferfile", "{}", "--cleanup", "pie", "audit", "{}"]
        by_parallel("sent over SSH", work, os.path.dirname(names[0]), hosts, sent, [os.path.basename(name) for name in sorted(names)[:15]])
        check("sent over SSH: removed there", os.listdir(f"{work}/there") == ["home"])
    finally:
        for server in servers:
            server.terminate()
            server.wait()


def by_parallel(what, work, folder, hosts, words, names):
    """Returns true if a command of GNU parallel has the findings of one process for some histories, within a
    folder, and each host took part."""
    alone = subprocess.run([PROGRAM, "audit", *names], capture_output=True, text=True, cwd=folder)
    ended = subprocess.run([*words, ":::", *names], capture_output=True, text=True, cwd=folder, stdin=subprocess.DEVNULL, timeout=PATIENCE)
    check(f"{what}: the findings", sorted(ended.stdout.splitlines()) == sorted(alone.stdout.splitlines()), ended.stderr[-2000:])
    told = [line for line in ended.stderr.splitlines() if line.startswith("pie: ")]
    check(f"{what}: the faults", sorted(told) == sorted(alone.stderr.splitlines()), ended.stderr[-2000:])
    with open(f"{work}/joblog") as text:
        jobs = list(csv.DictReader(text, delimiter="\t"))
    check(f"{what}: the status", ended.returncode == sum(job["Exitval"] != "0" for job in jobs), (ended.returncode, jobs))
    check(f"{what}: each host worked", {job["Host"].rpartition("/")[2] for job in jobs} == set(hosts), {job["Host"] for job in jobs})


if __name__ == "__main__":
    if not PYTHON:
        print("NOT RUN: tests/fleet/fleet.py: no Python with Dask's distributed here (tests/install.sh fleet)")
        sys.exit(0)
    sys.exit(main())
