"""A queue with its own packets: arrays beside single calls; a link; refusals in arrays; histories, which `pie audit` must find clean."""
import copy
import io
import multiprocessing
import pickle
import sys
import threading
import time
from collections import deque

import numpy as np
import pytest
from shared import PIE

import juniperbowls as jb
from juniperbowls import Choices, Ecn, Kind, Opening, Queue, Refusal

MILLION = 1_000_000


def overload(count, rate, load=1.2, seed=5):
    """Packets for a link of this rate: moments, sizes, ECN fields."""
    random = np.random.default_rng(seed)
    sizes = random.integers(64, 1501, count)
    moments = np.cumsum(random.exponential(sizes.mean() * 8e9 / rate / load, count)).astype(np.uint64)
    return moments, sizes, random.integers(0, 4, count)


def by_single_calls(opening, moments, sizes, ecn, words, rate, until, history):
    """Runs the link packet by packet, over a controller for a queue that the test owns."""
    pie, waiting, queued, taken, free, rest = jb.Controller(opening, history), deque(), 0, 0, 0, 0
    while True:
        end = moments[taken] if taken < len(moments) else until
        leaves = max(free, pie.state.moment) if waiting else 2**64
        if leaves <= min(end, pie.due):
            tag, size, field, since = waiting.popleft()
            queued -= size
            pie.depart(size, queued, since, leaves, tag=tag, ecn=field)
            took, rest = divmod(size * 8 * 10**9 + (rest if leaves == free else 0), rate)
            free = leaves + took
        elif pie.due <= end:
            pie.update(queued, pie.due)
        elif taken < len(moments):
            verdict = pie.arrive(queued, sizes[taken], opening.packets - len(waiting), ecn[taken], words[taken], end, tag=taken)
            if verdict.is_queued:
                waiting.append((taken, int(sizes[taken]), Ecn.CE if verdict == jb.Verdict.MARK else Ecn(ecn[taken]), pie.state.moment))
                queued += int(sizes[taken])
            taken += 1
        else:
            return pie


@pytest.mark.parametrize("changes", [{}, {"choices": 0}, {"choices": 31}, {"profile": 2, "limit_bytes": "60kb"}, {"packets": 40}, {"limit_bytes": 20_000}], ids=str)
def test_a_link_is_what_its_single_calls_are(changes, tmp_path):
    rate, (moments, sizes, ecn) = 7_777_777, overload(4000, 7_777_777, load=1.4)
    words = np.random.default_rng(1).integers(1 << 64, size=len(moments), dtype=np.uint64)
    opening = Opening.for_rate(rate, **changes)
    one, other = io.BytesIO(), io.BytesIO()
    queue = Queue(opening, jb.Recorder(one, opening))
    events = queue.offer(moments, sizes, rate, ecn=ecn, words=words, until="10s")
    pie = by_single_calls(opening, [int(it) for it in moments], sizes, ecn, words, rate, 10**10, jb.Recorder(other, opening))
    assert one.getvalue() == other.getvalue() and queue.state == pie.state and queue.packets == 0
    assert jb.text_of(opening, events) == one.getvalue()
    # many calls have the results of one call, also if the ring must grow
    halves = Queue(opening)
    parts = [halves.offer(moments[at:at + 333], sizes[at:at + 333], rate, ecn=ecn[at:at + 333], words=words[at:at + 333])
             for at in range(0, len(moments), 333)]
    assert np.array_equal(np.concatenate([*parts, halves.offer([], [], rate, until="10s")]), events)
    # the events are decided again, in an array and one at a time
    assert np.array_equal(Queue(opening).decide(events), events)
    place = tmp_path / "history"
    place.write_bytes(one.getvalue())
    assert jb.audit(place, PIE) == jb.Finding("clean", len(events))
    assert np.array_equal(jb.read_events(place), events) and jb.read_opening(place) == opening


def test_of_one_moment_a_departure_is_first_then_an_update():
    events = Queue(Opening.for_rate(0)).offer([0, 0, 15_000_000], 1500, 800_000)
    assert list(events["kind"]) == [1, 2, 1, 2, 3, 1] and list(events["moment"]) == [0, 0, 0, *[15_000_000] * 3]


def test_the_ring_grows():
    opening = Opening.for_rate("1gbit", packets=5000)
    queue = Queue(opening)
    queue.offer(np.arange(6000) * 10, 100, "1kbit")
    assert queue.packets == 5000 and queue.bytes == 500_000
    assert list(queue.waiting["tag"][:3]) == [1, 2, 3] and len(queue.waiting) == 5000
    left = [queue.depart("1s").tag for _ in range(5000)]
    assert left == sorted(left) and queue.depart("1s") is None and queue.bytes == 0


def test_a_step_at_a_time(tmp_path):
    place = tmp_path / "history"
    with Queue(Opening.for_rate("10mbit"), place, seed=3) as queue:
        queue.clock(0, 1_795_550_400_000_000_000)
        for at in range(3000):
            queue.arrive(at * 1_000_000, 1500, Ecn.ECT0)
            if at % 2:
                queue.depart(at * 1_000_000)
            if queue.due <= at * 1_000_000:
                queue.update()
        with pytest.raises(jb.Refused) as why:
            queue.update(queue.due - 1)
        assert why.value.refusal is Refusal.TOO_SOON
        queue.set_params(queue.state.params.replace(target="5ms"), "3s")
        queue.reset("3s")
        assert queue.state.params.target == 5_000_000 and queue.state.prob == 0
    assert jb.audit(place, PIE).is_clean
    assert place.read_text().count("\nrefused,") == 1
    told = jb.explain(place, "--all", "--wall", pie=PIE)
    assert str(told.wall.iloc[-1]) == "2026-11-24 20:00:03+00:00" and (told.verdict == "early").sum() > 0


def test_a_seed_begins_the_random_words():
    texts = set()
    for seed in (1, 1, 2):
        out, opening = io.BytesIO(), Opening.for_rate("10mbit")
        queue = Queue(opening, jb.Recorder(out, opening), seed)
        queue.offer(*overload(50, 10**7)[:2], "10mbit")
        queue.arrive("1s", 100)
        texts.add(out.getvalue())
    assert len(texts) == 2


def words_of(queue, count, at):
    """Returns the random words of the next arrivals at one moment."""
    return [int(it) for it in queue.decide(jb.events(1, [at] * count, size=1, word=queue._draw(count)))["word"]]


def test_a_refusal_uses_no_random_word():
    opening, wanted = Opening.for_rate("10mbit"), words_of(Queue(Opening.for_rate("10mbit"), seed=8), 8, 1)
    queue = Queue(opening, seed=8)
    for at, size in ((2**60, 1), (1, 0), (1, 65_536)):
        with pytest.raises(jb.Refused):
            queue.arrive(at, size)
    with pytest.raises(TypeError):
        queue.arrive(1, None)
    out = io.BytesIO()
    one = Queue(opening, jb.Recorder(out, opening), seed=8)
    one.arrive(1, 1)
    with pytest.raises(jb.Refused, match="arrival 2") as why:
        one.offer([1, 1, 1, 1, 1], [1, 1, 0, 1, 1], "1kbit")
    assert list(why.value.events["word"][why.value.events["kind"] == 1]) == wanted[1:3]
    with pytest.raises(ValueError, match="size"):
        one.offer([1], [2**32], "1kbit")
    with pytest.raises(ValueError, match=r"^moment: an array of one dimension is wanted, and not one of the shape \(2, 1\)$"):
        one.offer([[1], [1]], 1, "1kbit")
    with pytest.raises(ValueError, match=r"^size: an array of one dimension is wanted, and not one of the shape \(1, 2\)$"):
        one.offer([1, 1], [[1, 1]], "1kbit")
    with pytest.raises(ValueError, match="^size: there are 3 numbers, and 2 are wanted$"):
        one.offer([1, 1], [1, 1, 1], "1kbit")
    one.arrive(1, 1)
    told = one.offer([1, 1], 1, "1kbit")
    one.arrive(1, 1)
    assert list(told["word"][told["kind"] == 1]) == wanted[4:6] and list(queue._draw(2)) == wanted[:2]
    assert [int(it.split(",")[6]) for it in out.getvalue().decode().splitlines() if it.startswith("arrive")] == wanted[:7]


def test_a_refused_call_has_the_events_before_it():
    opening, random = Opening.for_rate("10mbit"), np.random.default_rng(2)
    moments, sizes, ecn = overload(3000, 10**7)
    words = random.integers(1 << 64, size=3000, dtype=np.uint64)
    whole = Queue(opening).offer(moments, sizes, "10mbit", ecn=ecn, words=words)
    queue, wrong = Queue(opening), sizes.copy()
    wrong[2000] = 0
    with pytest.raises(jb.Refused, match="arrival 2000") as why:
        queue.offer(moments, wrong, "10mbit", ecn=ecn, words=words)
    before, at = why.value.events, why.value.index
    rest = queue.offer(moments[at:], sizes[at:], "10mbit", ecn=ecn[at:], words=words[at:])
    assert at == 2000 and np.array_equal(np.concatenate([before, rest]), whole)
    limited = Queue(opening.replace(events=1000))
    with pytest.raises(jb.Exhausted) as ended:
        limited.offer(moments, sizes, "10mbit", ecn=ecn, words=words)
    assert np.array_equal(ended.value.events, whole[:1000])
    again = Queue(opening)
    asked = whole.copy()
    asked["size"][700], asked["kind"][700] = 0, Kind.ARRIVE
    with pytest.raises(jb.Refused, match="event 700") as why:
        again.decide(asked)
    assert np.array_equal(why.value.events, whole[:700])
    with pytest.raises(jb.Exhausted) as ended:
        Queue(opening.replace(events=1000)).decide(whole)
    assert np.array_equal(ended.value.events, whole[:1000])


def test_the_end_of_the_events_is_refused_last(tmp_path):
    """The order of refusals in docs/FORMATS.md: parameters, the moment, the size, an update too soon, and only then too many events."""
    place, opening = tmp_path / "history", Opening.for_rate("10mbit", events=2, mode=0, packets=9, tail=9)
    with Queue(opening, place) as queue:
        queue.arrive(5, 100)
        queue.arrive(6, 100)
        before = queue.state, queue.packets, queue.bytes, queue.waiting.tolist()
        bad = opening.params.replace(target=1)
        for refusal, call in ((Refusal.BAD_MOMENT, lambda: queue.arrive(2**60, 0)), (Refusal.BAD_SIZE, lambda: queue.arrive(7, 0)),
                              (Refusal.BAD_MOMENT, lambda: queue.depart(2**60)), (Refusal.BAD_MOMENT, lambda: queue.reset(2**60)),
                              (Refusal.TOO_SOON, lambda: queue.update(7)), (Refusal.BAD_PARAMS, lambda: queue.set_params(bad, 2**60)),
                              (Refusal.BAD_MOMENT, lambda: queue.set_params(opening.params, 2**60)),
                              (Refusal.BAD_SIZE, lambda: queue.decide(jb.events(1, [7], size=0))),
                              (Refusal.BAD_MOMENT, lambda: queue.offer([2**60], 100, "1kbit"))):
            with pytest.raises(jb.Refused) as why:
                call()
            assert why.value.refusal is refusal
        for call in (lambda: queue.arrive(7, 1), lambda: queue.depart(7), queue.update, lambda: queue.reset(7),
                     lambda: queue.set_params(opening.params, 7), lambda: queue.decide(jb.events(2, [7])), lambda: queue.offer([7], 1, "1kbit")):
            with pytest.raises(jb.Exhausted):
                call()
        assert (queue.state, queue.packets, queue.bytes, queue.waiting.tolist()) == before
        kept = jb.events([1, 3], [7, 8], size=0)
        assert list(queue.decide(kept, keeps_refused=True)["answer"]) == [102, 103]
    assert [it.split(",")[2] for it in place.read_text().splitlines() if it.startswith("refused")] == [*"121137121", *"23"]
    assert jb.audit(place, PIE) == jb.Finding("clean", 2)


def test_far_moments_end_at_once():
    queue = Queue(Opening.for_rate("10mbit"), seed=1)
    before = queue.state
    with pytest.raises(jb.Refused, match="arrival 0") as why:
        queue.offer([time.time_ns()], 1500, "10mbit")
    assert why.value.refusal is Refusal.BAD_MOMENT and len(why.value.events) == 0
    for moments, until in (([2**60 - 1], 0), ([10, 10**18, 2**60], 0), ([], time.time_ns()), ([1], 2**60 - 1)):
        with pytest.raises(ValueError, match="updates come due"):
            queue.offer(moments, 1500, "10mbit", until=until)
    assert queue.state == before and queue.packets == 0
    # a queue that is opened there continues
    late = Queue(Opening.for_rate("10mbit", moment=2**60 - 2))
    assert list(late.offer([2**60 - 1], 1500, "10mbit")["moment"]) == [2**60 - 1]
    with pytest.raises(jb.Refused, match="arrival 1"):
        queue.offer([7, 2**60], 1500, "10mbit")
    assert queue.state.moment == 7


@pytest.mark.parametrize("copied", [copy.copy, copy.deepcopy, lambda it: pickle.loads(pickle.dumps(it))], ids=["copy", "deepcopy", "pickle"])
def test_a_copy_goes_on_by_itself(copied):
    moments, sizes, ecn = overload(4000, 10**7)
    queue = Queue(Opening.for_rate("10mbit"), seed=4)
    queue.offer(moments[:1500], sizes[:1500], "10mbit", ecn=ecn[:1500])
    other = copied(queue)
    before = other.state, other.packets, other.bytes, other.waiting.tolist()
    assert before == (queue.state, queue.packets, queue.bytes, queue.waiting.tolist())
    events = queue.offer(moments[1500:], sizes[1500:], "10mbit", ecn=ecn[1500:], until="9s")
    queue.offer(np.arange(3000, dtype="u8") + 10**10, 1, "1kbit")  # (its ring grows)
    assert before == (other.state, other.packets, other.bytes, other.waiting.tolist())
    del queue
    assert np.array_equal(other.offer(moments[1500:], sizes[1500:], "10mbit", ecn=ecn[1500:], until="9s"), events)
    pie = jb.Controller(Opening.for_rate("10mbit"))
    second = copied(pie)
    pie.arrive(0, 1, 1, 0, 0, 9)
    assert (pie.state.moment, second.state.moment) == (9, 0)


def test_what_records_a_history_has_no_copy(tmp_path):
    opening = Opening.for_rate("10mbit")
    with Queue(opening, tmp_path / "one") as queue, jb.Recorder(tmp_path / "two", opening) as history:
        for it in (queue, jb.Controller(opening, history)):
            for copied in (copy.copy, copy.deepcopy, pickle.dumps):
                with pytest.raises(TypeError, match="records a history"):
                    copied(it)


def refused_in_a_process(at):
    return Queue(Opening.for_rate("10mbit")).offer([1, 2, at], 100, "10mbit")


def test_exceptions_reach_another_process():
    with pytest.raises(jb.Refused) as why:
        jb.Controller(Opening.for_rate(0, target=1))
    again = pickle.loads(pickle.dumps(why.value))
    assert (str(again), again.refusal, again.index, again.events) == (str(why.value), Refusal.BAD_PARAMS, None, None)
    fault = pickle.loads(pickle.dumps(jb.Fault("a text", 2)))
    assert (str(fault), fault.status) == ("a text", 2)
    limited = pickle.loads(pickle.dumps(Queue(Opening.for_rate(0))._exhausted()))
    assert isinstance(limited, jb.Exhausted) and limited.events is None
    with multiprocessing.get_context("spawn").Pool(1) as pool:
        with pytest.raises(jb.Refused, match="arrival 2") as why:
            pool.map_async(refused_in_a_process, [2**60]).get(timeout=600)
    assert why.value.index == 2 and len(why.value.events) == 3


def test_a_file_that_exists_is_left(tmp_path):
    place, opening = tmp_path / "history", Opening.for_rate("10mbit")
    place.write_text("kept")
    for make in (lambda: Queue(opening, place), lambda: jb.Recorder(place, opening), lambda: Queue(opening, str(place))):
        with pytest.raises(FileExistsError):
            make()
    assert place.read_text() == "kept"
    for make in (lambda: Queue(opening, place, force=True), lambda: jb.Recorder(place, opening, force=True)):
        make().close()
        assert jb.audit(place, PIE) == jb.Finding("clean", 0)


def test_what_is_printed_of_them(tmp_path):
    opening = Opening.for_rate("10mbit")
    queue = Queue(opening, tmp_path / "history")
    queue.arrive(7, 1500)
    assert repr(queue) == "Queue(moment=7, prob=0, due=15000000, packets=1, bytes=1500, events=1)"
    assert repr(queue._history) == f"Recorder('{tmp_path}/history', records=2, untold=0)"
    assert repr(jb.Recorder(io.BytesIO(), opening)) == "Recorder(a file, records=1, untold=0)"
    assert repr(jb.Controller(opening)) == "Controller(moment=0, prob=0, due=15000000)"
    shown = [queue, queue.state, queue._history, opening, jb.Controller(opening), queue.depart(8), jb.Refused(101), jb.Finding("clean", 1)]
    assert not any("0x" in repr(it) for it in shown)
    queue.close()


def test_whole_numbers_in_any_form():
    large = [2**63, 5, 2**64 - 1, 0]
    made = jb.events(1, [1, 2, 3, 4], size=1, word=large, tag=tuple(reversed(large)))
    assert list(made["word"]) == large and list(made["tag"]) == large[::-1]
    assert list(jb.events(1, [2**64 - 1, 1])["moment"]) == [2**64 - 1, 1]
    assert list(jb.events(1, [1, 2], word=[np.uint64(2**64 - 1), 3])["word"]) == [2**64 - 1, 3]
    for values, kind in (([2**64, 1], ValueError), ([-1, 2**63], ValueError), ([1.0, 2**63], TypeError), ([None, 2**63], TypeError),
                         ([True, False], TypeError), (["1", 2**63], TypeError), (np.array([1.5, 2]), TypeError)):
        with pytest.raises(kind, match="word"):
            jb.events(1, [1, 2], word=values)


def test_columns_of_a_frame_come_back():
    moments, sizes, ecn = overload(300, 10**7)
    events = Queue(Opening.for_rate("10mbit"), seed=1).offer(moments, sizes, "10mbit", ecn=ecn)
    rows = jb.frame(events)
    came = rows[rows.kind == "arrive"]
    assert str(came.word.dtype) == "UInt64" and int(came.word.max()) > 2**63
    again = Queue(Opening.for_rate("10mbit")).offer(came.moment, came["size"], "10mbit", ecn=ecn, words=came.word, tags=came.tag)
    assert np.array_equal(again, events)
    with pytest.raises(TypeError, match="word: .* missing"):
        jb.events(1, rows.moment, word=rows.word)


def test_refusals_in_arrays(tmp_path):
    place, opening = tmp_path / "history", Opening.for_rate("10mbit")
    asked = jb.events([1, 3, 1, 2, 2, 4], [10, 20, 30, 2**60, 40, 50], size=[100, 0, 0, 0, 0, 0], caller=9)
    queue = Queue(opening, place)
    with pytest.raises(jb.Refused, match="event 1") as why:
        queue.decide(asked)
    assert why.value.refusal is Refusal.TOO_SOON and why.value.index == 1 and queue.packets == 1
    kept = queue.decide(asked, keeps_refused=True)
    assert list(kept["answer"]) == [0, 103, 102, 101, 0, 0] and queue.packets == 1
    with pytest.raises(ValueError, match="event 1"):
        queue.decide(jb.events([4, 5], [60, 60]))
    with pytest.raises(jb.Refused, match="arrival 2") as why:
        queue.offer([70, 80, 90], [100, 100, 0], "10mbit")
    assert why.value.index == 2 and queue.state.moment == 80
    late = Queue(opening.replace(moment=2**60 - 1))
    with pytest.raises(jb.Refused, match="the link") as why:
        late.offer([2**60 - 1] * 2, 65_535, "1mbit", until=2**60 + 10**10)
    assert why.value.refusal is Refusal.BAD_MOMENT and late.packets == 1
    queue.close()
    events = sum(it.startswith(("arrive", "depart", "update", "reset")) for it in place.read_text().splitlines())
    assert jb.audit(place, PIE) == jb.Finding("clean", events)
    limited = Queue(opening.replace(events=3))
    with pytest.raises(ValueError, match="event 1"):
        limited.decide(jb.events([1, 0], [1, 2], size=9))
    limited.decide(jb.events([1, 2], [1, 2], size=9))
    with pytest.raises(jb.Exhausted):
        limited.decide(jb.events([1, 2], [1, 2], size=9))
    with pytest.raises(jb.Exhausted):
        limited.set_params(opening.params, 3)
    assert limited.packets == 1


def test_bad_arrays():
    queue = Queue(Opening.for_rate("10mbit"))
    for moments, sizes, words in (([-1], 1, ValueError), ([1.5], 1, TypeError), ([2**64], 1, (TypeError, ValueError)), ([1], [2**32], ValueError),
                                  ([1, 2], [1, 2, 3], ValueError), (["1"], 1, TypeError), ([[1]], 1, ValueError), ([None], 1, TypeError)):
        with pytest.raises(words):
            queue.offer(moments, sizes, "10mbit")
    for rate in (0, "0bit", 2**60):
        with pytest.raises(ValueError):
            queue.offer([1], 1, rate)
    with pytest.raises(ValueError, match="ecn"):
        jb.events(1, [1], size=1, ecn=256)
    with pytest.raises(TypeError, match="delay"):
        jb.events(1, [1], delay=1)
    assert queue.state.moment == 0 and len(queue.decide(jb.events([], []))) == 0 and len(queue.offer([], [], "1mbit")) == 0


def test_a_wrong_event_is_not_written(tmp_path):
    opening = Opening.for_rate("10mbit")
    events = Queue(opening).offer([1, 2, 3], 100, "10mbit")
    for name, value in (("reserved", 1), ("ecn", 4), ("answer", 6), ("delay", 7), ("kind", 0)):
        wrong = events.copy()
        wrong[2][name] = value
        with jb.Recorder(tmp_path / name, opening) as history, pytest.raises(ValueError, match="event 2"):
            history.record(wrong)
        assert (tmp_path / name).read_bytes() == jb.text_of(opening, events[:2])
    # another answer is written, and an audit finds it
    wrong = events.copy()
    wrong[1]["answer"] = jb.Verdict.EARLY if wrong[1]["kind"] == Kind.ARRIVE else 5
    (tmp_path / "wrong").write_bytes(jb.text_of(opening, events[:1]) + b"arrive,1,2,1,100,not,0,early\n")
    assert jb.audit(tmp_path / "wrong", PIE) == jb.Finding("differs", 2)


def test_a_million_arrivals():
    moments, sizes, ecn = overload(MILLION, 10**8)
    queue = Queue(Opening.for_rate("100mbit"), seed=1)
    events = queue.offer(moments, sizes, "100mbit", ecn=ecn)
    arrivals = events[events["kind"] == Kind.ARRIVE]
    assert np.array_equal(arrivals["tag"], np.arange(MILLION)) and len(events) > 1.8 * MILLION
    assert 0.05 < np.isin(arrivals["answer"], (2, 3, 4)).mean() < 0.3


def six_events():
    return jb.events([1, 1, 1, 3, 2, 4], [1, 2, 3, 15_000_000, 15_000_001, 15_000_002], size=[100, 200, 300, 0, 0, 0], tag=[7, 8, 9, 0, 0, 0],
                     word=[11, 12, 13, 0, 0, 0], caller=1)


def test_fields_in_another_order_go_by_name(tmp_path):
    wanted, opening = Queue(Opening.for_rate("10mbit")).decide(six_events()), Opening.for_rate("10mbit")
    for kinds in (dict.fromkeys(jb.EVENT.names, "<i8"), dict.fromkeys(jb.EVENT.names, ">u8"), {name: jb.EVENT[name] for name in jb.EVENT.names}):
        other = np.zeros(6, [(name, kinds[name]) for name in reversed(jb.EVENT.names)])
        for name in jb.EVENT.names:
            other[name] = six_events()[name]
        made = Queue(opening).decide(other)
        assert np.array_equal(made, wanted) and made.dtype == jb.EVENT
        decided = other.copy()
        for name in jb.EVENT.names:
            decided[name] = wanted[name]
        assert jb.text_of(opening, decided) == jb.text_of(opening, wanted)
    wide = np.zeros(1, [(name, "<i8") for name in jb.EVENT.names])
    for name, value in (("size", 2**32 + 1), ("size", -1500), ("caller", 65_537), ("ecn", 256), ("kind", 257), ("moment", -1)):
        wrong = wide.copy()
        wrong["kind"], wrong[name] = 1, value
        for call in (Queue(opening).decide, lambda it: jb.text_of(opening, it)):
            with pytest.raises(ValueError, match=name):
                call(wrong)


def test_what_is_no_array_of_events():
    opening, events = Opening.for_rate("10mbit"), six_events()
    masked = np.ma.array(events, mask=[(False,) * len(jb.EVENT.names)] * 5 + [(True,) + (False,) * (len(jb.EVENT.names) - 1)])
    lacks = events[["moment", "tag", "size", "kind", "caller", "ecn"]]
    queue = Queue(opening)
    for wrong, kind in ((1, TypeError), ([1], TypeError), (None, TypeError), ([(1,) * 11], TypeError), (np.zeros(3, "u8"), TypeError), (lacks, TypeError),
                        (masked, TypeError), (masked[5], TypeError), (events.reshape(2, 3), ValueError), (events.reshape(6, 1), ValueError)):
        for call in (queue.decide, lambda it: jb.text_of(opening, it)):
            with pytest.raises(kind, match="events"):
                call(wrong)
    assert queue.packets == 0 and queue.state.moment == 0
    assert len(queue.decide(np.ma.array(events[:1]))) == len(queue.decide(events[1])) == 1 and queue.packets == 2
    assert list(queue.decide(events[::-1][3:], keeps_refused=2**40)["tag"]) == [9, 8, 7]


def test_masked_numbers_are_refused():
    queue, numbers = Queue(Opening.for_rate("10mbit")), np.ma.array([5, 6], mask=[False, True])
    for call in (lambda: jb.events(1, numbers, size=9), lambda: jb.events(1, [5, 6], size=numbers), lambda: jb.events(1, [5], size=np.ma.masked),
                 lambda: queue.offer(numbers, 9, "1mbit"), lambda: queue.offer([5, 6], 9, "1mbit", words=numbers)):
        with pytest.raises(TypeError, match="masked"):
            call()
    assert queue.state.moment == 0
    assert list(jb.events(1, np.ma.array([5, 6]), size=9)["moment"]) == [5, 6]


class Interrupted(io.BytesIO):
    """A file that lets another thread make its call while the record of `during` is written."""

    during, call, other = b"", None, None

    def write(self, text):
        if self.other is None and self.during and bytes(text).startswith(self.during):
            self.other = threading.Thread(target=self.call)
            self.other.start()
            self.other.join(2)  # (its call waits for the end of this one, so that it never ends in this time)
        return super().write(text)


@pytest.mark.parametrize("owner", [Queue, jb.Controller], ids=["queue", "controller"])
def test_threads_take_turns(owner):
    out, opening = Interrupted(), Opening.for_rate("10mbit")
    made = owner(opening, jb.Recorder(out, opening))

    def arrive(moment):
        return made.arrive(moment, 100, word=1) if owner is Queue else made.arrive(0, 100, 9, 0, 1, moment)

    out.during, out.call = b"arrive,1,1,", lambda: arrive(2)
    arrive(1)
    out.other.join()
    made.reset(3)
    moments = [line.split(",")[2] for line in out.getvalue().decode().splitlines()[1:]]
    assert moments == ["1", "2", "3"]


def test_many_threads_on_one_queue(tmp_path):
    """Threads that switch often, while the ring of packets grows: no packet is lost, and the history is clean."""
    place, before = tmp_path / "history", sys.getswitchinterval()
    sys.setswitchinterval(1e-6)
    try:
        with Queue(Opening.for_rate("10mbit", packets=1 << 20, limit_bytes=1 << 30), place, seed=1) as queue:
            def pass_packets(at):
                for _ in range(5):
                    queue.decide(jb.events(1, np.arange(400, dtype="u8"), size=100, tag=at, word=2**64 - 1))
                    for _ in range(100):
                        queue.arrive(0, 100, word=2**64 - 1)

            threads = [threading.Thread(target=pass_packets, args=(at,)) for at in range(4)]
            for it in threads:
                it.start()
            for it in threads:
                it.join()
            assert (queue.packets, queue.bytes, len(queue.waiting)) == (10_000, 1_000_000, 10_000)
    finally:
        sys.setswitchinterval(before)
    assert jb.audit(place, PIE) == jb.Finding("clean", 10_000)
