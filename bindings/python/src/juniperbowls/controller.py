"""A controller for a queue that the caller owns: single calls for arrivals and departures."""
from __future__ import annotations

import threading
from ctypes import byref
from dataclasses import dataclass
from enum import IntEnum
from typing import Any, NamedTuple

from ._library import LIBRARY, RawEvent, RawState, number
from .history import Recorder
from .opening import Choices, Opening, Params, Profile, whole
from .refusal import Refusal, Refused


class Verdict(IntEnum):
    """The verdict on an arriving packet."""
    ENQUEUE = 0
    MARK = 1
    EARLY = 2
    BYTES = 3
    PACKETS = 4

    @property
    def is_queued(self) -> bool:
        """True if the packet is queued, marked or unmarked."""
        return self <= Verdict.MARK


class Ecn(IntEnum):
    """The ECN field of an IP header (RFC 3168, section 5)."""
    NOT = 0
    ECT1 = 1
    ECT0 = 2
    CE = 3


class Kind(IntEnum):
    """The kind of an event."""
    ARRIVE = 1
    DEPART = 2
    UPDATE = 3
    RESET = 4
    PARAMS = 5
    LOST = 6


class Updated(NamedTuple):
    """The result of an update: the moment from which the next update is not too soon, the delay that it used (ns),
    and the probability (10^-12) and the burst allowance (ns) after it."""
    due: int
    delay: int
    prob: int
    burst: int


@dataclass(frozen=True)
class State:
    """The registers of a controller, with the fields of include/pie.h."""
    params: Params
    moment: int
    prob: int
    old_delay: int
    burst: int
    last: int
    accu: int
    average: int
    measuring: int
    cycle_start: int
    cycle_count: int
    profile: Profile
    active: int
    choices: Choices
    waited: int

    @classmethod
    def of(cls, raw: RawState) -> State:
        """Returns the registers of a struct."""
        numbers = {name: getattr(raw, name) for name, *_ in RawState._fields_[1:]}
        numbers |= {"profile": Profile(raw.profile), "choices": Choices(raw.choices)}
        return cls(Params.of(raw.params), **numbers)


def opened(opening: Opening) -> RawState:
    """Returns the state of a controller with this opening."""
    state = RawState()
    code = LIBRARY.pie_open(byref(state), byref(opening.raw()))
    if code:
        raise Refused(code, opening.params.check() or "")
    return state


def event(kind: Kind, moment: int | str, caller: int, **rest: int) -> RawEvent:
    """Returns an event that can be decided."""
    bits = {"size": 32, "ecn": 8}
    numbers = {name: number(name, value, bits.get(name, 64)) for name, value in rest.items()}
    return RawEvent(kind=kind, moment=whole("moment", moment), caller=number("caller", caller, 16), **numbers)


def set_params(state: RawState, params: Params, asked: RawEvent) -> None:
    """Sets new parameters."""
    code = LIBRARY.pie_set_params_event(byref(state), byref(params.raw()), byref(asked))
    if code:
        raise Refused(code, params.check() or "" if code == Refusal.BAD_PARAMS else "")


class StateOwner:
    """The owner of a controller's state. A copy, and an unpickled object, has a state of its own; an object with
    a history cannot be copied. If several threads use one object, each call waits until the others have ended, also
    with their records."""

    _state: RawState
    _history: Recorder | None
    _lock: threading.RLock  # type: ignore[valid-type]

    def __getstate__(self) -> dict[str, Any]:
        if self._history is not None:
            raise TypeError(f"a {type(self).__name__} that records a history cannot be copied: both would write to one text")
        with self._lock:
            own = {name: value for name, value in self.__dict__.items() if name != "_lock"}
            return {**own, "_state": bytes(self._state)}

    def __setstate__(self, pickled: dict[str, Any]) -> None:
        self.__dict__.update(pickled, _state=RawState.from_buffer_copy(pickled["_state"]), _lock=threading.RLock())

    def __repr__(self) -> str:
        return f"{type(self).__name__}({self._numbers()})"

    def _numbers(self) -> str:
        return f"moment={self._state.moment}, prob={self._state.prob}, due={self.due}"

    @property
    def state(self) -> State:
        """The registers."""
        with self._lock:
            return State.of(self._state)

    @property
    def due(self) -> int:
        """The earliest moment at which the next update is not too soon."""
        with self._lock:
            return int(LIBRARY.pie_due(byref(self._state)))


class Controller(StateOwner):
    """A PIE controller for a queue of the caller. The caller has the packets, the clock and the
    random words. Each method is a call of include/pie.h, which states the caller's duties. A
    refused call raises `Refused` and changes nothing. With a `Recorder` each call writes its
    record, also if it is refused. Calls of several threads take turns.

    >>> pie = Controller(Opening.for_rate("100mbit"))
    >>> pie.arrive(queued=3000, size=1500, room=7, ecn=Ecn.ECT0, word=0x9e3779b97f4a7c15, moment=10)
    <Verdict.ENQUEUE: 0>
    >>> pie.depart(size=1500, left=3000, arrived=10, moment=25)
    >>> pie.update(queued=3000, moment=pie.due).due
    30000000
    """

    def __init__(self, opening: Opening, history: Recorder | None = None):
        self._state, self._history, self._lock = opened(opening), history, threading.RLock()

    def arrive(self, queued: int, size: int, room: int, ecn: int, word: int, moment: int | str, *, tag: int = 0, caller: int = 1) -> Verdict:
        """Decides an arriving packet, with `queued` bytes in the queue, room for `room` more packets, and a random
        word of 64 bits."""
        asked = event(Kind.ARRIVE, moment, caller, size=size, ecn=ecn, word=word, tag=tag)
        waiting, packets = number("queued", queued), number("room", room, 32)
        with self._lock:
            return Verdict(self._told(LIBRARY.pie_arrive_event(byref(self._state), waiting, packets, byref(asked)), asked))

    def depart(self, size: int, left: int, arrived: int, moment: int | str, *, tag: int = 0, ecn: int = Ecn.NOT, caller: int = 2) -> None:
        """Records the departure of a packet that leaves `left` bytes in the queue. `arrived` is `state.moment`
        right after its arrival."""
        asked = event(Kind.DEPART, moment, caller, size=size, ecn=ecn, tag=tag)
        waiting, since = number("left", left), number("arrived", arrived)
        with self._lock:
            self._told(LIBRARY.pie_depart_event(byref(self._state), waiting, since, byref(asked)), asked)

    def empty(self, moment: int | str, *, caller: int = 2) -> None:
        """Records a departure that found the queue empty."""
        asked = event(Kind.DEPART, moment, caller)
        with self._lock:
            self._told(LIBRARY.pie_empty_event(byref(self._state), byref(asked)), asked)

    def update(self, queued: int, moment: int | str, *, caller: int = 3) -> Updated:
        """Makes an update with `queued` bytes in the queue. It is refused before `due`."""
        asked = event(Kind.UPDATE, moment, caller)
        waiting = number("queued", queued)
        with self._lock:
            self._told(LIBRARY.pie_update_event(byref(self._state), waiting, byref(asked)), asked)
            return Updated(self.due, asked.delay, asked.prob, asked.burst)

    def reset(self, moment: int | str, *, caller: int = 3) -> None:
        """Resets the controller: probability, delays and rate estimate are 0, and the burst
        allowance is whole."""
        asked = event(Kind.RESET, moment, caller)
        with self._lock:
            self._told(LIBRARY.pie_reset_event(byref(self._state), byref(asked)), asked)

    def set_params(self, params: Params, moment: int | str, *, caller: int = 3) -> None:
        """Sets new parameters, and clears the rate estimate."""
        asked = event(Kind.PARAMS, moment, caller)
        with self._lock:
            try:
                set_params(self._state, params, asked)
            finally:
                if self._history:
                    self._history.record_params(asked, params)

    def _told(self, answer: int, asked: RawEvent) -> int:
        if self._history:
            self._history.record(asked)
        if answer > 100:
            raise Refused(answer)
        return answer
