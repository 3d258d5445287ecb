#!/usr/bin/env python3
"""Checks the runner of the plan's runs (bench/uml/queues.py), without a run.

The runner is killed at a random moment, with a run in place of network.py that takes 30 ms, and begun again until it ends: each run of the plan then
has one row, also after a last line that was written in part, and no run that has a row was made again. SIGTERM keeps the runs that are complete. Rows of
another version and two rows of one run are refused. The waits of a run are those of its two files of packets. The stored rows are runs of the plan.
needs: nothing"""
import contextlib
import csv
import io
import lzma
import os
import random
import signal
import subprocess
import sys
import tempfile
import time
from pathlib import Path

HERE = Path(__file__).resolve().parent
sys.path[:0] = [str(HERE.parent / "shared"), str(HERE.parents[1] / "bench/uml")]
sys.dont_write_bytecode = True
from checks import check, finish  # noqa: E402
import queues  # noqa: E402

VERSION = "commit 0 linux 0"
NAMES, BLOCKS, PAUSE = ["one", "two", "step"], 3, 0.03

# what runs in place of network.py: it leaves a file for each run, and a line in `made`
STAND_IN = """
import json, sys, time
from pathlib import Path
place = Path(sys.argv[1])
for name in json.loads((place / "block.json").read_text())["order"]:
    time.sleep(float(sys.argv[2]))
    (place / name).mkdir()
    (place / name / "run.json").write_text("{}")
    with open(place.parent / "steps", "a") as out:
        out.write("1\\n")
"""


def child(folder):
    """Runs the batch with the stand-in."""
    class Batch(queues.Batch):
        def boot(self, place):
            it = subprocess.Popen([sys.executable, "-c", STAND_IN, place, str(PAUSE)])
            self.linux.add(it)
            if self.stopped:
                it.terminate()
            it.wait()
            self.linux.discard(it)
            return 1.0

    def row_of(scenario, block, place, program):
        with open(folder / "made", "a") as out:
            out.write(f"{scenario['name']} {place.name}\n")
        return dict.fromkeys(queues.FIELDS, "1")

    queues.row_of, queues.STORED = row_of, folder / "none.xz"
    batch = Batch("", folder, queues.Rows(folder, VERSION), NAMES, BLOCKS)
    signal.signal(signal.SIGTERM, batch.stop)
    queues.run_all(batch, 2)


def begun(folder):
    return subprocess.Popen([sys.executable, __file__, "--child", str(folder)], stdout=subprocess.DEVNULL, start_new_session=True)


def rows_in(folder):
    file = folder / "queues.csv"
    return list(csv.DictReader(open(file))) if file.exists() else []


def stored_rows(file):
    return queues.read_rows(lzma.open(file, "rt").read())


def progress(folder):
    """Returns the number of runs that were made so far."""
    return sum(1 for _ in open(folder / "steps")) if (folder / "steps").exists() else 0


def check_runner(folder):
    dice, kills = random.Random(7), 4
    for turn in range(kills):
        it, least = begun(folder), progress(folder) + dice.randint(3, 14)
        while progress(folder) < least:
            check(it.poll() is None, "the runner ended before it was killed")
            if it.poll() is not None:
                return
            time.sleep(0.01)
        os.killpg(it.pid, signal.SIGTERM if turn == 1 else signal.SIGKILL)
        it.wait()
        with open(folder / "queues.csv", "a") as out:
            out.write("one,stamp,1,9.5")        # (a line that was written in part)
    begun(folder).wait()
    planned = {(name, queue, block) for name in NAMES for queue in queues.SCENARIOS[name].queues
               for block in range(1, min(BLOCKS, queues.SCENARIOS[name].blocks_of(queue)) + 1)}
    found = [queues.key_of(row) for row in rows_in(folder)]
    check(len(found) == len(set(found)), "a run has two rows after the runner was killed")
    check(set(found) == planned, f"after the runner was killed, {len(planned - set(found))} runs are lost, {len(set(found) - planned)} were not planned")
    made = (folder / "made").read_text().split("\n")[:-1]
    check(len(made) <= len(planned) + kills * 2, f"{len(made)} runs were read for {len(planned)} rows and {kills} interruptions")
    check(begun(folder).wait() == 0 and len((folder / "made").read_text().split("\n")[:-1]) == len(made), "a run that has a row was made again")


def check_stop(folder):
    """SIGTERM keeps the rows of the runs that are complete in the Linux that it ends."""
    it = begun(folder)
    while progress(folder) < 1:
        time.sleep(0.01)
    it.terminate()
    it.wait()
    check(0 < len(rows_in(folder)) < 20, f"after SIGTERM the runner has {len(rows_in(folder))} rows")


def refused(call, *words):
    """Returns what a call says as it ends the program, or nothing."""
    try:
        call(*words)
    except SystemExit as why:
        return str(why.code)
    return ""


def check_rows(folder):
    queues.STORED = folder / "none.xz"
    row = dict.fromkeys(queues.FIELDS, "1") | {"scenario": "one", "queue": "stamp", "block": "1", "version": VERSION}
    for rows, word in (([row, row], "two rows"), ([row, row | {"block": "2", "version": "commit 1 linux 0"}], "the version")):
        (folder / "queues.csv").write_text(queues.text_of(rows))
        check(word in refused(queues.Rows, folder, VERSION), f"the runner takes {word}")
    (folder / "queues.csv").write_text(queues.text_of([row]))
    check("the version" in refused(queues.Rows, folder, "commit 1 linux 0"), "the runner adds to rows of another version")
    rows = queues.Rows(folder, VERSION)
    check("two rows" in refused(rows.add, row), "the runner adds a row twice")
    rows.add(row | {"block": "2"})
    check([it["block"] for it in rows_in(folder)] == ["1", "2"], "the runner loses a row")
    known, known_plan, known_top, queues.version = queues.version, queues.PLAN, queues.TOP, lambda: VERSION
    check("does not name" in refused(queues.store, folder), "rows are stored whose version the plan does not name")
    queues.PLAN = folder / "PLAN.md"
    queues.PLAN.write_text(f"This plan names {VERSION}.")
    queues.TOP = folder
    with contextlib.redirect_stdout(io.StringIO()):
        queues.store(folder)
    queues.PLAN, queues.TOP, queues.version = known_plan, known_top, known
    check(not rows_in(folder) and len(stored_rows(queues.STORED)) == 2, "rows are not moved to those that are stored")
    check(queues.Rows(folder, VERSION).keys == {("one", "stamp", 1), ("one", "stamp", 2)}, "a stored run would be made again")


def check_waits(folder):
    """Three flows: one packet is dropped, one comes before the window, and an identification comes again."""
    def file(name, packets):
        records = (queues.RECORD.pack(ms * 1_000_000, source, 1500, port, identification, 6) for ms, source, port, identification in packets)
        (folder / name).write_bytes(b"".join(records))
    file("arrivals", [(0, 1, 7, 1), (1000, 1, 7, 2), (1001, 1, 7, 3), (1002, 2, 7, 3), (1003, 2, 8, 3), (1500, 1, 7, 1), (1600, 1, 7, 2)])
    file("departures", [(5, 1, 7, 1), (1010, 1, 7, 2), (1031, 2, 8, 3), (1042, 2, 7, 3), (1501, 1, 7, 1)])
    found = queues.crossed(folder, 1, 2)
    check(sorted(found[0]) == [1, 10, 28, 40] and found[1] == 2, f"the waits and losses of packets are {found}")


def check_stored():
    """The stored rows are runs of the plan, in the version that the plan names, which is one."""
    stored = Path(__file__).resolve().parents[2] / "bench/uml/queues.csv.xz"
    rows = stored_rows(stored)
    found = [queues.key_of(row) for row in rows]
    check(len(found) == len(set(found)) and set(found) <= queues.expected_keys(), "a stored run is there twice, or is not of the plan")
    check(len({row["version"] for row in rows}) <= 1 and all(row["version"] in queues.PLAN.read_text() for row in rows), "stored runs of another version")


if sys.argv[1:2] == ["--child"]:
    child(Path(sys.argv[2]))
    sys.exit()
for case in (check_runner, check_stop, check_rows, check_waits):
    with tempfile.TemporaryDirectory() as folder:
        case(Path(folder))
check_stored()
finish()
