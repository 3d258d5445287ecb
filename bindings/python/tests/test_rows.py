"""Worked traces through a queue, one call each and as arrays; and histories that are decided again."""
import numpy as np
import pytest
from shared import HISTORIES, ROOT, records, run, told, worked_rows

import juniperbowls as jb

# (a row of the book's log, which refuses events that the controller would decide)
ROWS = [it for it in worked_rows() if not any(record[0] == "refused" and record[2] == "5" for record in records(it[1]))]


@pytest.mark.parametrize("by_arrays", [False, True], ids=["steps", "arrays"])
@pytest.mark.parametrize("trace, history", ROWS, ids=lambda it: it.stem)
def test_a_worked_trace(trace, history, by_arrays):
    text, queue = run(trace, by_arrays)
    assert told(text) == told(history.read_text())
    shown = [it for it in records(history) if it[0] == "shown"]
    if shown and records(history)[-1][0] == "shown":
        state = queue.state
        assert [queue.packets, queue.bytes, state.prob, state.old_delay, state.accu, state.burst, state.last, state.average, state.measuring] == [
            int(it) for it in shown[-1][3:12]]


def test_there_are_rows():
    assert len(ROWS) > 50 and len(HISTORIES) == 6


@pytest.mark.parametrize("history", HISTORIES, ids=lambda it: it.stem)
def test_a_history_is_decided_again(history):
    events, opening = jb.read_events(history), jb.read_opening(history)
    if (events["kind"] == jb.Kind.PARAMS).any():
        pytest.skip("new parameters are not in the array")
    again = jb.Queue(opening).decide(events)
    assert np.array_equal(again, events)
    lines = [it for it in history.read_text().splitlines() if it.startswith(("arrive", "depart", "update", "reset"))]
    assert jb.text_of(opening, events).decode().splitlines()[1:] == lines


def test_another_target_decides_otherwise():
    history = ROOT / "examples/overload.history"
    events, opening = jb.read_events(history), jb.read_opening(history)
    early = [(jb.Queue(opening.replace(target=target)).decide(events)["answer"][events["kind"] == 1] == jb.Verdict.EARLY).sum()
             for target in ("5ms", "15ms", "50ms")]
    assert early[0] > early[1] == 63 > early[2]
