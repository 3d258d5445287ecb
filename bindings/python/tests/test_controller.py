"""Tests of the calls for a queue that the caller owns: worked rows, errors with the library's descriptions, bad
values, and the output of a recorder."""
import io

import pytest

import juniperbowls as jb
from juniperbowls import Choices, Controller, Ecn, Opening, Params, Profile, Refusal, Verdict

LATEST = 2**60 - 1
FIRST = {"queued": 0, "size": 1500, "room": 1, "ecn": Ecn.NOT, "word": 0, "moment": 0}


def controller(**changes):
    return Controller(Opening.for_rate(0, **changes))


def refused(refusal, call, *words, **named):
    with pytest.raises(jb.Refused) as caught:
        call(*words, **named)
    assert caught.value.refusal is refusal and str(caught.value).startswith(jb.refusal.text_of(refusal))
    return caught.value


def test_numbers_with_units():
    assert [jb.read_time(it) for it in ("1.5ms", "20MSecs", ".5us")] == [1_500_000, 20_000_000, 500]
    assert [jb.read_rate(it) for it in ("100mbit", "1kbps", "1Kibit")] == [100_000_000, 8000, 1024]
    assert [jb.read_size(it) for it in ("256kb", "1500", "8kbit")] == [262_144, 1500, 1024]
    assert jb.read_packets("1000p") == 1000
    for text, refusal in (("20", Refusal.NOT_A_NUMBER), ("", Refusal.NOT_A_NUMBER), ("-1s", Refusal.NOT_A_NUMBER), ("1.5ns", Refusal.TOO_PRECISE),
                          ("1152921504.606846976s", Refusal.TOO_GREAT), ("1ms\0", Refusal.NOT_A_NUMBER), ("1\u00b5s", Refusal.NOT_A_NUMBER)):
        refused(refusal, jb.read_time, text)


def test_parameters():
    assert Params.default() == Params(15_000_000, 15_000_000, 150_000_000, 125, 1250, 1024, 262_144, 10**11, 16_384)
    assert Params.for_rate("100mbit").limit_bytes == 2_500_000
    assert Params.for_rate("1gbit", target="20ms", limit_bytes="1mb").replace(alpha=7) == Params(
        20_000_000, 15_000_000, 150_000_000, 7, 1250, 1024, 1 << 20, 10**11, 16_384)
    assert Params.default().check() is None and Params.default().replace(dq_threshold=3000).check() == "dq_threshold"
    opening = Opening.for_rate("10mbit", target="5ms", choices=Choices.DELAY_STAMP | Choices.DECAY_HALF, packets="1000p", moment="1s")
    assert (opening.params.target, opening.choices, opening.packets, opening.moment) == (5_000_000, 17, 1000, 10**9)
    assert opening.replace(beta=0) == Opening.for_rate("10mbit", target="5ms", choices=17, packets=1000, moment=10**9, beta=0)


def test_openings_that_are_refused():
    for changes, refusal in (({"target": 1}, Refusal.BAD_PARAMS), ({"moment": LATEST + 1}, Refusal.BAD_MOMENT), ({"profile": 3}, Refusal.BAD_PROFILE),
                             ({"choices": 32}, Refusal.BAD_CHOICES), ({"packets": 0}, Refusal.BAD_LIMITS), ({"tail": 2**20 + 1}, Refusal.BAD_LIMITS),
                             ({"events": 2**47 + 1}, Refusal.BAD_LIMITS), ({"mode": 2}, Refusal.BAD_LIMITS)):
        refused(refusal, Controller, Opening.for_rate(0, **changes))
    assert "(target)" in str(refused(Refusal.BAD_PARAMS, controller, target=1))
    for changes in ({"target": 2**64}, {"target": -1}, {"events": 1 << 80}):
        with pytest.raises(ValueError):
            controller(**changes)
    for changes in ({"target": 1.5}, {"alpha": "1"}, {"no_such": 1}, {"rate": None}):
        with pytest.raises(TypeError):
            controller(**changes)


def test_the_documentation_of_the_header():
    pie = Controller(Opening.for_rate("100mbit"))
    assert pie.arrive(3000, 1500, 7, Ecn.ECT0, 0x9E3779B97F4A7C15, 10) is Verdict.ENQUEUE
    assert pie.depart(1500, 3000, 10, 25) is None and pie.state.waited == 15
    assert pie.update(3000, pie.due) == jb.Updated(30_000_000, 15, 0, 150_000_000)
    pie.empty(LATEST)
    assert pie.state.moment == LATEST
    pie.reset(5)
    assert (pie.state.waited, pie.state.profile, pie.state.choices) == (0, Profile.ALWAYS_ON, Choices.DELAY_STAMP)


def test_calls_that_are_refused():
    pie = controller()
    before = pie.state
    refused(Refusal.BAD_MOMENT, pie.arrive, **{**FIRST, "moment": LATEST + 1})
    refused(Refusal.BAD_SIZE, pie.arrive, **{**FIRST, "size": 0})
    refused(Refusal.BAD_SIZE, pie.arrive, **{**FIRST, "size": 65_536})
    refused(Refusal.BAD_ECN, pie.arrive, **{**FIRST, "ecn": 4})
    refused(Refusal.BAD_QUEUE, pie.arrive, **{**FIRST, "queued": 2**30 + 1})
    refused(Refusal.BAD_MOMENT, pie.depart, 1500, 0, 0, LATEST + 1)
    refused(Refusal.BAD_SIZE, pie.depart, 0, 0, 0, 0)
    refused(Refusal.BAD_QUEUE, pie.depart, 1500, 2**30 + 1, 0, 0)
    refused(Refusal.BAD_MOMENT, pie.empty, LATEST + 1)
    refused(Refusal.TOO_SOON, pie.update, 0, pie.due - 1)
    refused(Refusal.BAD_QUEUE, pie.update, 2**30 + 1, pie.due)
    refused(Refusal.BAD_MOMENT, pie.reset, LATEST + 1)
    assert "(alpha)" in str(refused(Refusal.BAD_PARAMS, pie.set_params, Params.default().replace(alpha=2**40), 0))
    refused(Refusal.BAD_MOMENT, pie.set_params, Params.default(), LATEST + 1)
    assert pie.state == before
    refused(Refusal.BAD_ARRIVED, pie.depart, 1500, 0, 1, 5)
    assert pie.state.moment == 0 and controller(choices=Choices.USUAL).depart(1500, 0, 1, 5) is None


@pytest.mark.parametrize("name, value", [("queued", 2**64), ("size", 2**32), ("room", 2**32), ("ecn", 256), ("word", 2**64), ("moment", 2**64),
                                         ("queued", -1), ("word", -1), ("tag", 2**64), ("caller", 2**16)])
def test_numbers_that_c_would_cut(name, value):
    pie = controller()
    with pytest.raises(ValueError, match=name):
        pie.arrive(**{**FIRST, name: value})
    with pytest.raises(TypeError, match=name):
        pie.arrive(**{**FIRST, name: 0.5})
    assert pie.state.moment == 0


def test_what_a_recorder_writes():
    out, opening = io.BytesIO(), Opening.for_rate(0, mode=jb.Mode.BOUNDED, choices=Choices.USUAL, packets=64, events=100)
    history = jb.Recorder(out, opening)
    pie = Controller(opening, history)
    assert pie.arrive(0, 65_535, 1, Ecn.ECT1, 2**64 - 1, 7, tag=2**64 - 1, caller=65_535) is Verdict.ENQUEUE
    assert pie.arrive(0, 65_535, 0, Ecn.ECT1, 0, 8, tag=3) is Verdict.PACKETS
    pie.depart(1, 0, 7, LATEST, tag=3, ecn=Ecn.CE)
    pie.empty(9)
    assert pie.update(0, 15_000_000).due == LATEST + 15_000_000
    refused(Refusal.TOO_SOON, pie.update, 0, 15_000_000)
    refused(Refusal.BAD_ECN, pie.arrive, 0, 1, 1, 4, 0, 0)
    pie.reset(5)
    pie.set_params(Params.default().replace(target=5), 6)
    refused(Refusal.BAD_PARAMS, pie.set_params, Params.default().replace(target=1), 6)
    with pytest.raises(ValueError):
        history.clock(0, 0)
    assert out.getvalue().decode().splitlines() == [
        "open,0,64,1024,100", "arrive,65535,7,18446744073709551615,65535,ect1,18446744073709551615,enqueue", "arrive,1,8,3,65535,ect1,0,packets",
        f"depart,2,{LATEST},left,3,1,ce", "depart,2,9,empty", "update,3,15000000,0,0,150000000", "refused,7,3", "reset,3,5,done",
        "params,3,6,5,15000000,150000000,125,1250,1024,262144,100000000000,16384,done", "refused,10,7"]
    assert (history.records, history.untold) == (10, 1)


def test_the_time_of_day_and_lost_events(tmp_path):
    place = tmp_path / "history"
    opening = Opening.for_rate("100mbit")
    with jb.Recorder(place, opening) as history:
        history.clock("1ms", 1_795_550_400_000_000_000)
        history.lost(3)
        with pytest.raises(ValueError):
            history.lost(0)
        with pytest.raises(ValueError):
            history.clock(LATEST + 1, 0)
    assert place.read_text().splitlines()[1:] == ["clock,1000000,1795550400000000000", "lost,3"] and jb.read_opening(place) == opening
    with pytest.raises(ValueError):
        jb.Recorder(tmp_path / "other", opening.replace(tail=0))
    assert not (tmp_path / "other").exists()
