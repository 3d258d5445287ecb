"""Shared by the tests: paths, and worked traces run through a `Queue`."""
import atexit
import csv
import io
import os
import subprocess
import tempfile
from pathlib import Path

import juniperbowls as jb
from juniperbowls.frames import ECN

ROOT = Path(__file__).resolve().parents[3]
PIE = os.environ.get("PIE", str(ROOT / "crates/pie/out/pie"))
HISTORIES = sorted((ROOT / "examples").glob("*.history"))
EVENT_KINDS = ("arrive", "depart", "update", "reset", "params")


def worked_rows():
    """Returns the traces of tests/rows and of examples/ with their histories, except those that end with a fault."""
    folder = tempfile.TemporaryDirectory()
    atexit.register(folder.cleanup)
    subprocess.run([ROOT / "tests/shared/rows.sh", folder.name], check=True)
    rows = [(it, it.with_suffix(".out")) for it in sorted(Path(folder.name).glob("**/*.in")) if not it.with_suffix(".fault").exists()]
    return rows + [(it.with_suffix(".trace"), it) for it in HISTORIES]


def records(place):
    """Returns the records of a text."""
    return [it for it in csv.reader(io.StringIO(place.read_text(encoding="utf-8-sig"))) if it]


def told(text):
    """Returns the events of a history's records, and the codes of refusals by the controller; the book makes those
    of a full log."""
    every = list(csv.reader(text.splitlines()))
    return [it if it[0] in EVENT_KINDS else it[2] for it in every if it[0] in EVENT_KINDS or it[0] == "refused" and it[2] in "1237"]


def step(queue, record):
    """Makes the call of one trace record. A refusal is in the history."""
    kind, caller, moment, *rest = record
    words = {"moment": int(moment), "caller": int(caller)}
    try:
        if kind == "arrive":
            tag, size, ecn, word = rest
            return queue.arrive(size=int(size), ecn=ECN.index(ecn), word=int(word), tag=int(tag), **words)
        if kind == "params":
            return queue.set_params(jb.Params(*map(int, rest)), **words)
        return getattr(queue, kind)(**words)
    except (jb.Refused, jb.Exhausted) as why:
        return why


def asked(chosen):
    """Returns the records of a trace, except new parameters, as an array of events."""
    made = jb.events([jb.Kind[it[0].upper()] for it in chosen], [int(it[2]) for it in chosen], caller=[int(it[1]) for it in chosen])
    for event, record in zip(made, chosen):
        if record[0] == "arrive":
            event["tag"], event["size"], event["ecn"], event["word"] = int(record[3]), int(record[4]), ECN.index(record[5]), int(record[6])
    return made


def run(trace, by_arrays):
    """Returns the history of a trace, by single calls or by the fewest arrays."""
    out, opening, waiting = io.BytesIO(), jb.read_opening(trace), []
    queue = jb.Queue(opening, jb.Recorder(out, opening))
    for record in [*(it for it in records(trace) if it[0] in EVENT_KINDS), None]:
        if by_arrays and record and record[0] != "params":
            waiting.append(record)
            continue
        if waiting:
            try:
                queue.decide(asked(waiting), keeps_refused=True)
            except jb.Exhausted:
                pass
            waiting = []
        if record:
            step(queue, record)
    queue.close()
    return out.getvalue().decode(), queue
