"""Histories and explanations as frames: each number is the one that `pie` printed."""
import csv
import io
import os
import subprocess
from pathlib import Path

import numpy as np
import pandas as pd
import pytest
from shared import HISTORIES, PIE, ROOT, records

import juniperbowls as jb

OVERLOAD = ROOT / "examples/overload.history"


def printed(history, *options):
    done = subprocess.run([PIE, "explain", *options, "--csv", history], capture_output=True, text=True, check=True)
    return list(csv.DictReader(io.StringIO(done.stdout)))


def same(frame, rows):
    """Checks that a frame has these rows, each field as it was printed."""
    assert list(frame.columns) == list(rows[0]) and len(frame) == len(rows)
    for name in frame:
        assert ["" if pd.isna(it) else str(it) for it in frame[name]] == [row[name] for row in rows], name
        assert name in ("kind", "verdict", "cause", "ecn", "flow") or frame[name].dtype in ("uint64", "UInt64"), name


@pytest.mark.parametrize("options", [["--all"], ["--lost"], ["--summary"], ["--every", "100ms"], ["--tag", "20"]], ids=" ".join)
@pytest.mark.parametrize("history", HISTORIES, ids=lambda it: it.stem)
def test_an_explanation(history, options):
    rows = printed(history, *options)
    if rows:
        same(jb.explain(history, *options, pie=PIE), rows)
    else:
        assert len(jb.explain(history, *options, pie=PIE)) == 0


def test_parts_are_the_whole():
    rows = printed(OVERLOAD, "--all")
    parts = list(jb.explain_parts(OVERLOAD, rows=100, pie=PIE))
    assert len(parts) > 3 and [it for part in parts for it in part.index] == list(range(len(rows)))
    same(pd.concat([part.astype({"kind": str, "verdict": str, "cause": object, "ecn": object}) for part in parts]), rows)
    whole = jb.explain(OVERLOAD, pie=PIE)
    same(whole, rows)
    assert whole.kind.dtype == "category" and whole.word.dtype == "UInt64" and whole.moment.dtype == "uint64"
    early = iter(jb.explain_parts(OVERLOAD, rows=1, pie=PIE))
    next(early)
    early.close()


def test_a_large_number_stays_whole(tmp_path):
    place, opening = tmp_path / "history", jb.Opening.for_rate("10mbit")
    with jb.Queue(opening, place) as queue:
        queue.arrive(2**60 - 1, 1500, word=2**64 - 1, tag=2**64 - 3)
        queue.depart(2**60 - 1)
        queue.clock(5, 1_795_550_400_000_000_123)
        queue.decide(jb.events(2, [6]))
    told = jb.explain(place, "--all", "--wall", pie=PIE)
    assert list(told.tag[:2]) == [2**64 - 3] * 2 and told.word[0] == 2**64 - 1 and told.word[1] is pd.NA
    assert list(told.wall.isna()) == [True, True, False] and told.wall[2].year == 2063
    again = jb.read_history(place)
    assert list(again.tag[:2]) == [2**64 - 3] * 2 and again.word[0] == 2**64 - 1 and list(again.answer) == ["enqueue", "left", "empty"]


@pytest.mark.parametrize("history", HISTORIES, ids=lambda it: it.stem)
def test_a_history(history):
    frame, told = jb.read_history(history), jb.explain(history, pie=PIE)
    assert list(frame.number) == list(told.number) and list(frame.kind.astype(str)) == list(told.kind)
    for name, other in (("answer", "verdict"), ("tag", "tag"), ("size", "size"), ("word", "word"), ("ecn", "ecn"), ("moment", "moment")):
        assert list(frame[name].astype(object).fillna("")) == list(told[other].astype(object).fillna("")), name
    updates = frame[frame.kind == "update"]
    assert list(updates.prob) == list(told.probability_after[frame.kind == "update"])
    assert list(updates.burst) == list(told.burst_allowance_after[frame.kind == "update"])


def test_events_as_a_frame():
    queue = jb.Queue(jb.Opening.for_rate("10mbit"))
    frame = jb.frame(queue.decide(jb.events([1, 3, 2, 2], [5, 6, 7, 8], size=[99, 0, 0, 0]), keeps_refused=True), first=10)
    assert list(frame.number.astype(object)) == [10, pd.NA, 11, 12] and list(frame.answer) == ["enqueue", "refused", "left", "empty"]
    assert list(frame["size"].fillna(0)) == [99, 0, 99, 0]
    assert len(jb.frame(queue.decide(jb.events([], [])))) == 0


def test_a_text_that_resumes(tmp_path):
    done = subprocess.run([PIE, "cut", "--last", "30", OVERLOAD], capture_output=True, check=True)
    place = tmp_path / "part"
    place.write_bytes(done.stdout)
    frame = jb.read_history(place)
    last = sum(it[0] in ("arrive", "depart", "update", "reset") for it in records(OVERLOAD))
    assert list(frame.number) == list(range(last - 29, last + 1)) and list(jb.explain(place, pie=PIE).number) == list(frame.number)
    assert jb.read_opening(place).params == jb.Params.default()


def test_faults_and_differences(tmp_path):
    text = OVERLOAD.read_text()
    (tmp_path / "fault").write_text(text + "nothing,1\n")
    (tmp_path / "differs").write_text(text.replace(",enqueue", ",mark", 1))
    (tmp_path / "fields").write_text(text + "depart,1\n")
    for call in (jb.audit, jb.explain):
        with pytest.raises(jb.Fault, match="unknown kind") as why:
            call(tmp_path / "fault", pie=PIE)
        assert why.value.status == 1
    assert jb.audit(tmp_path / "differs", PIE) == jb.Finding("differs", 1) and not jb.audit(tmp_path / "differs", PIE).is_clean
    with pytest.raises(jb.Fault) as why:
        jb.explain(tmp_path / "differs", pie=PIE)
    assert why.value.status == 2
    with pytest.raises(ValueError, match="1 records"):
        jb.read_events(tmp_path / "fields")
    for beginning in ("", "arrive,1\n", "open,1\n", "open3,1,rate\n", "open2,1,other,0,1,1,1\n", "A letter.\nTo somebody.\n"):
        (tmp_path / "none").write_text(beginning)
        for call in (jb.read_opening, jb.read_history, jb.read_events):
            with pytest.raises(ValueError, match="no opening"):
                call(tmp_path / "none")
    for line in ("nothing,1", "lost,3", "arrive", "arrive,1,2,3,4,none,5,enqueue", "arrive,1,2,3,4,not,5,other", "depart,1,x,empty"):
        (tmp_path / "none").write_text(text + line + "\n")
        with pytest.raises(ValueError):
            jb.read_history(tmp_path / "none")
    (tmp_path / "lines").write_text("\ufeff" + text.replace("\n", "\r\n"))
    pd.testing.assert_frame_equal(jb.read_history(tmp_path / "lines"), jb.read_history(OVERLOAD))
    with pytest.raises(FileNotFoundError):
        jb.audit(tmp_path / "missing", PIE)


def test_parquet(tmp_path):
    pytest.importorskip("pyarrow")
    for name, frame in (("told", jb.explain(OVERLOAD, pie=PIE)), ("events", jb.read_history(OVERLOAD))):
        frame.to_parquet(tmp_path / name)
        pd.testing.assert_frame_equal(pd.read_parquet(tmp_path / name), frame)


@pytest.mark.parametrize("options", [["--flows", "2"], ["--flows=2", "--every=100ms"]], ids=" ".join)
def test_flows(options, tmp_path):
    place = tmp_path / "history"
    with jb.Queue(jb.Opening.for_rate("10mbit"), place, seed=1) as queue:
        tags = (np.arange(3000, dtype=np.uint64) % 5 + 1 << 32) + np.arange(3000, dtype=np.uint64)
        queue.offer(np.arange(3000) * 10**6, 1500, "10mbit", tags=tags)
    rows, told = printed(place, *options), jb.explain(place, *options, pie=PIE)
    same(told, rows)
    assert told.flow.dtype == "category" and {"0x00000001", "0x00000002", "others"} == set(told.flow)
    parts = list(jb.explain_parts(place, *options, rows=2, pie=PIE))
    assert [it for part in parts for it in part.flow] == list(told.flow)


def test_times_of_day_past_pandas_own(tmp_path):
    """pandas's nanoseconds end on 2262-04-11. Later wall-clock times are texts."""
    last = 2**63 - 1
    for name, times in (("all", [last - 9, last]), ("none", [last - 9, last + 1]), ("late", [2**64 - 10**9, 2**64 - 2])):
        place = tmp_path / name
        with jb.Queue(jb.Opening.for_rate("10mbit"), place) as queue:
            queue.arrive(0, 1500)
            queue.clock(0, times[0])
            queue.decide(jb.events(4, [0, times[1] - times[0]]))
        rows = printed(place, "--all", "--wall")
        told = jb.explain(place, "--all", "--wall", pie=PIE)
        parts = pd.concat(list(jb.explain_parts(place, "--all", "--wall", rows=1, pie=PIE)))
        assert told.wall.isna().tolist() == parts.wall.isna().tolist() == [True, False, False]
        if name == "all":
            assert [it.value for it in told.wall[1:]] == times
        else:
            assert told.wall[1:].tolist() == [row["wall"] for row in rows[1:]] and str(told.wall.dtype) == "string"


def test_many_rows_stay_in_order(tmp_path):
    place, opening = tmp_path / "history", jb.Opening.for_rate("100mbit")
    with jb.Queue(opening, place, seed=1) as queue:
        events = queue.offer(np.arange(20_000) * 100_000, 1250, "90mbit", ecn=1)
    told = jb.explain(place, pie=PIE)
    assert np.array_equal(told.number, np.arange(1, len(events) + 1)) and np.array_equal(told.moment, events["moment"])
    assert np.array_equal(told.probability_after[events["kind"] == 3], events["prob"][events["kind"] == 3])


OPENING = "open3,1,stamp,derandomized,capped,unscaled,rolling,0,1000,1024,140737488355328\n"


@pytest.mark.parametrize("line", ["arrive,1,2,3,4294967297,not,5,enqueue", "arrive,1,2,3,-1500,not,5,enqueue", "arrive,65537,2,3,4,not,5,enqueue",
                                  "arrive,1,2,18446744073709551616,4,not,5,enqueue", "arrive,1,2,3,1e3,not,5,enqueue", "arrive,1,2,3, 4,not,5,enqueue",
                                  "arrive,1,2,3,+4,not,5,enqueue", "arrive,1,2,3,4.0,not,5,enqueue", 'arrive,1,2,3,"4",not,5,enqueue',
                                  "arrive,1,2,3,,not,5,enqueue", "arrive,1,2,3,4\u0664,not,5,enqueue", "update,3,1,2,3,18446744073709551616",
                                  "params,3,1,-5,1,1,1,1,1,1,1,1,done"])
def test_numbers_out_of_range(line, tmp_path):
    (tmp_path / "history").write_text(f"{OPENING}arrive,1,1,1,1,not,1,enqueue\n{line}\n", encoding="utf-8")
    for call in (jb.read_events, jb.read_history):
        with pytest.raises(ValueError):
            call(tmp_path / "history")


@pytest.mark.parametrize("line", ["open,0,-4,16,100", "open,0,4,+16,100", "open, 0,4,16,100", "open,0,4,1_6,100", "open,0,4,16,18446744073709551616",
                                  "open,0,4,16,100,5", "open,0,4,16,\u0661", "open2,-1,bounded,0,4,16,100"])
def test_openings_out_of_range(line, tmp_path):
    (tmp_path / "history").write_text(line + "\n", encoding="utf-8")
    for call in (jb.read_opening, jb.read_events, jb.read_history):
        with pytest.raises(ValueError, match="no opening"):
            call(tmp_path / "history")


def test_an_excerpt_that_lacks_fields(tmp_path):
    done = subprocess.run([PIE, "cut", "--last", "30", OVERLOAD], capture_output=True, check=True, text=True)
    first, rest = done.stdout.split("\n", 1)
    for count in (25, 29, 30):
        (tmp_path / "cut").write_text(",".join(first.split(",")[:count]) + "\n" + rest)
        with pytest.raises(ValueError):
            jb.read_history(tmp_path / "cut")


@pytest.mark.parametrize("name", [b"caf\xe9.history", b"\xff\xfe", "caf\u00e9".encode(), b"-x", b"a\nb"], ids=repr)
def test_names_are_bytes(name, tmp_path):
    place = bytes(tmp_path) + b"/" + name
    with jb.Queue(jb.Opening.for_rate("10mbit"), place, seed=1) as queue:
        queue.offer(np.arange(9) * 10**6, 1500, "10mbit")
    for it in (place, os.fsdecode(place), Path(os.fsdecode(place))):
        events = jb.audit(it, PIE).event
        assert len(jb.explain(it, pie=PIE)) == len(jb.read_history(it)) == len(jb.read_events(it)) == events > 9
        assert jb.read_opening(it) == jb.Opening.for_rate("10mbit")
        assert sum(len(part) for part in jb.explain_parts(it, rows=2, pie=PIE)) == events
    with pytest.raises(ValueError, match="no opening"):
        Path(os.fsdecode(place)).write_text("nothing\n")
        jb.read_events(place)


def test_a_fault_with_bytes_that_are_no_text(tmp_path):
    (tmp_path / "history").write_bytes(OPENING.encode() + b"arr\xe9,1\n")
    for call in (jb.audit, jb.explain):
        with pytest.raises(jb.Fault):
            call(tmp_path / "history", pie=PIE)


@pytest.mark.parametrize("options", [["--all", "-o", "x"], ["--all", "-ox"], ["--all", "--output", "x"], ["--all", "--output=x"], ["--help"], ["-h"]],
                         ids=" ".join)
def test_options_without_a_table(options, tmp_path, monkeypatch):
    monkeypatch.chdir(tmp_path)
    for call in (jb.explain, lambda *words, pie: list(jb.explain_parts(*words, pie=pie))):
        with pytest.raises(ValueError, match="no table"):
            call(OVERLOAD, *options, pie=PIE)
    assert not list(tmp_path.iterdir())


def test_a_frame_of_no_events():
    events = jb.read_events(OVERLOAD)
    for wrong, kind in ((events.reshape(1, -1), ValueError), (1, TypeError), (events["moment"], TypeError)):
        with pytest.raises(kind, match="events"):
            jb.frame(wrong)
    assert len(jb.frame(events[3])) == 1
