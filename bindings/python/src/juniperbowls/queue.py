"""A queue of packets behind a controller, for simulations: one event at a time, or numpy arrays of
events at the speed of C."""
from __future__ import annotations

import copy
import threading
from ctypes import byref
from types import TracebackType
from typing import Any, NamedTuple

import numpy as np
import numpy.typing as npt

from ._library import ALL, EVENTS, GROW, LIBRARY, MAX_MOMENT, OUT, REFUSED, RawEvent, RawQueue, RawState, number
from .controller import Ecn, Kind, StateOwner, Updated, Verdict, event, opened, set_params
from .history import EVENT, Events, Place, Recorder, as_events, column
from .opening import Opening, Params, whole
from .refusal import Refused

PACKET = np.dtype([("tag", "<u8"), ("since", "<u8"), ("size", "<u4"), ("ecn", "<u4")])
_SPARE = 1 << 16  # events, for updates and for queued packets
_MOST_UPDATES = 1 << 26  # the most updates of one call in the pauses between arrivals: 4 GB of events


class Packet(NamedTuple):
    """A departed packet. `ecn` is its ECN field on departure: CE if it was marked."""
    tag: int
    size: int
    ecn: Ecn


class Exhausted(RuntimeError):
    """The number of the queue's events is at the limit of its opening."""

    #: of a call over an array: the events that it decided before
    events: Events | None = None


def events(kinds: npt.ArrayLike, moments: npt.ArrayLike, **columns: npt.ArrayLike) -> Events:
    """Returns events that can be decided: each has a kind and a moment; arrivals also have `size`,
    `ecn`, `word` and `tag`; all have `caller`."""
    at = column("moment", moments, "u8")
    made = np.zeros(len(at), EVENT)
    for name, values in {"kind": kinds, "moment": at, **columns}.items():
        if name not in ("kind", "moment", "tag", "word", "size", "ecn", "caller"):
            raise TypeError(f"{name} is nothing that an event is asked with")
        made[name] = column(name, values, EVENT[name].str, len(at))
    return made


class Queue(StateOwner):
    """A packet queue with PIE. An error raises `Refused` and changes nothing. `history` is a file name or a
    `Recorder`: every event is then recorded, by the library's writers, and `pie audit` finds the history clean. An
    existing file is left unchanged, unless `force` replaces it. Random words that are not passed come from a
    generator with the seed `seed`. Calls of several threads take turns. A copy (`copy.copy`) continues independently,
    with the same random words; a queue that records a history cannot be copied.

        >>> queue = Queue(Opening.for_rate("10mbit"), history="link.history", seed=1)
        >>> queue.arrive(moment="1ms", size=1500, ecn=Ecn.ECT0)
        <Verdict.ENQUEUE: 0>
        >>> queue.depart(moment="2ms")
        Packet(tag=0, size=1500, ecn=<Ecn.ECT0: 2>)
    """

    def __init__(self, opening: Opening, history: Place | Recorder | None = None, seed: int | None = None, force: bool = False):
        self._state, self._lock = opened(opening), threading.RLock()
        self._ring = np.zeros(min(1024, _power(opening.packets)), PACKET)
        self._queue = RawQueue(self._ring.ctypes.data, len(self._ring), 0, 0, opening.packets, 0, 0, opening.events)
        self._history = history if isinstance(history, Recorder) or history is None else Recorder(history, opening, force)
        self._random = np.random.default_rng(seed)
        self._words = np.zeros(0, np.uint64)  # random words that were drawn but not used
        self._arrivals = 0

    def __getstate__(self) -> dict[str, Any]:
        with self._lock:
            own = {"_queue": bytes(self._queue), "_ring": self._ring.copy(), "_random": copy.deepcopy(self._random)}
            return {**super().__getstate__(), **own}

    def __setstate__(self, pickled: dict[str, Any]) -> None:
        super().__setstate__({**pickled, "_queue": RawQueue.from_buffer_copy(pickled["_queue"])})
        self._queue.ring = self._ring.ctypes.data

    def _numbers(self) -> str:
        return f"{super()._numbers()}, packets={self.packets}, bytes={self.bytes}, events={self._queue.events}"

    @property
    def packets(self) -> int:
        """Number of queued packets."""
        return int(self._queue.packets)

    @property
    def bytes(self) -> int:
        """Number of queued bytes."""
        return int(self._queue.bytes)

    @property
    def waiting(self) -> npt.NDArray[np.void]:
        """The queued packets, oldest first: `tag`, `size`, `ecn` on departure, and `since`, the
        moment of arrival."""
        with self._lock:
            return np.roll(self._ring, -self._queue.first)[:self.packets]

    def arrive(self, moment: int | str, size: int, ecn: int = Ecn.NOT, *, word: int | None = None, tag: int | None = None,
               caller: int = 1) -> Verdict:
        """Decides an arriving packet: it is queued, marked and queued, or dropped. Without `tag` packets are
        numbered from 0. A refused call uses no random word."""
        asked = event(Kind.ARRIVE, moment, caller, size=size, ecn=ecn, word=0 if word is None else word, tag=0 if tag is None else tag)
        with self._lock:
            if tag is None:
                asked.tag = self._arrivals
            drawn = self._draw(1 if word is None else 0)
            if word is None:
                asked.word = int(drawn[0])
            try:
                self._decide_one(asked)
            except (Refused, Exhausted):
                self._keep(drawn)
                raise
            self._arrivals += 1
        return Verdict(asked.answer)

    def _draw(self, count: int) -> npt.NDArray[np.uint64]:
        """Returns this many random words, saved ones first."""
        kept, self._words = self._words[:count], self._words[count:]
        more = self._random.integers(1 << 64, size=count - len(kept), dtype=np.uint64)
        return np.concatenate([kept, more]) if len(kept) else more

    def _keep(self, words: npt.NDArray[np.uint64]) -> None:
        """Keeps unused random words for the next arrivals."""
        self._words = np.concatenate([words, self._words])

    def depart(self, moment: int | str, *, caller: int = 2) -> Packet | None:
        """Removes and returns the oldest packet, or returns None if the queue is empty."""
        asked = event(Kind.DEPART, moment, caller)
        self._decide_one(asked)
        return Packet(asked.tag, asked.size, Ecn(asked.ecn)) if asked.answer == 0 else None

    def update(self, moment: int | str | None = None, *, caller: int = 3) -> Updated:
        """Makes an update, by default at `due`."""
        with self._lock:
            asked = event(Kind.UPDATE, self.due if moment is None else moment, caller)
            self._decide_one(asked)
            return Updated(self.due, asked.delay, asked.prob, asked.burst)

    def reset(self, moment: int | str, *, caller: int = 3) -> None:
        """Resets the controller. The packets stay in the queue."""
        self._decide_one(event(Kind.RESET, moment, caller))

    def set_params(self, params: Params, moment: int | str, *, caller: int = 3) -> None:
        """Sets new parameters."""
        asked = event(Kind.PARAMS, moment, caller)
        with self._lock:
            state = RawState.from_buffer_copy(self._state)
            try:
                set_params(state, params, asked)
            except Refused:
                self._record_params(asked, params)
                raise
            if self._queue.events >= self._queue.most_events:
                raise self._exhausted()
            self._state = state
            self._queue.events += 1
            self._record_params(asked, params)

    def _record_params(self, asked: RawEvent, params: Params) -> None:
        if self._history:
            self._history.record_params(asked, params)

    def _exhausted(self, decided: Events | None = None) -> Exhausted:
        why = Exhausted(f"there were {self._queue.events} events, as many as the opening allows")
        why.events = decided
        return why

    def _decide_one(self, asked: RawEvent) -> None:
        with self._lock:
            while not LIBRARY.pie_array_decide(byref(self._state), byref(self._queue), byref(asked), 1, False):
                if self._queue.why == REFUSED:
                    self._record(asked)
                    raise Refused(asked.answer)
                self._go_on()
            self._record(asked)

    def decide(self, asked: Events, keeps_refused: bool = False) -> Events:
        """Decides events (made by `events`) in order and returns them with their results: departures with the
        packet that left, or answer 5 if the queue was empty. At the first error `Refused` has its `index`, and
        `events` has the earlier events with their results. With `keeps_refused` a refused event has an `answer` above 100, and the next event is
        decided. Raises `TypeError` if `asked` is not an array of events or has masked values, and `ValueError` if it has several dimensions."""
        made = np.array(as_events(asked), order="C")
        strange = np.flatnonzero((made["kind"] < Kind.ARRIVE) | (made["kind"] > Kind.RESET))
        if len(strange):
            raise ValueError(f"event {strange[0]} is no arrival, departure, update or reset")
        with self._lock:
            return self._decide(made, bool(keeps_refused))

    def _decide(self, made: Events, keeps_refused: bool) -> Events:
        done = 0
        while done < len(made):
            passed = LIBRARY.pie_array_decide(byref(self._state), byref(self._queue), made[done:].ctypes.data, len(made) - done, keeps_refused)
            self._record(made[done:done + passed])
            done += passed
            if self._queue.why == REFUSED:
                self._record(made[done:done + 1])
                raise Refused(int(made[done]["answer"]), f"event {done}", done, made[:done])
            self._go_on(made[:done])
        return made

    def offer(self, moments: npt.ArrayLike, sizes: npt.ArrayLike, rate: int | str, *, ecn: npt.ArrayLike = Ecn.NOT,
              words: npt.ArrayLike | None = None, tags: npt.ArrayLike | None = None, until: int | str = 0, caller: int = 1) -> Events:
        """Passes packets with these arrival moments through a link of this rate, which takes the oldest packet as soon as the link is free; updates
        are made when they are due. Returns all events in order: arrivals, departures by
        caller 2, updates by caller 3. After the last arrival the link continues to the moment `until`; a later call
        continues from there. In a pause each due update is made; more than 2^26 of them raise `ValueError`, and
        nothing is decided. At an arrival with an error `Refused` has its `index`, and `events` has all events
        before it; the remaining arrivals can be passed again, and use the random words that they would have had."""
        speed = whole("rate", rate)
        if not 1 <= speed < 1 << 60:
            raise ValueError("rate: a link has a rate of 1 bit a second to 2^60 - 1")
        end = whole("until", until)
        with self._lock:
            arrivals = self._arriving(moments, sizes, ecn, words, tags, caller)
            self._check_pauses(arrivals["moment"], end)
            self._queue.rate = speed
            drawn = self._draw(len(arrivals) if words is None else 0)
            if words is None:
                arrivals["word"] = drawn
            taken = self._arrivals
            try:
                return self._offer(arrivals, end)
            finally:
                self._keep(drawn[self._arrivals - taken:])

    def _offer(self, arrivals: Events, end: int) -> Events:
        taken, made = 0, 0
        parts: list[Events] = []
        # (the system allocates memory only when it is written)
        out = np.empty(2 * len(arrivals) + _SPARE, EVENT)
        while True:
            more = LIBRARY.pie_array_offer(byref(self._state), byref(self._queue), arrivals[taken:].ctypes.data, len(arrivals) - taken, end,
                                           out[made:].ctypes.data, len(out) - made)
            taken += self._queue.taken
            self._arrivals += self._queue.taken
            self._record(out[made:made + more])
            made += more
            if self._queue.why == ALL:
                return np.concatenate([*parts, out[:made]]) if parts else out[:made]
            if self._queue.why == REFUSED:
                self._record(out[made:made + 1])
                about = f"arrival {taken}" if out[made]["kind"] == Kind.ARRIVE else "the link"
                raise Refused(int(out[made]["answer"]), about, taken, np.concatenate([*parts, out[:made]]))
            if self._queue.why == OUT:
                parts.append(out)
                out, made = np.empty(2 * (len(arrivals) - taken) + _SPARE, EVENT), 0
            self._go_on(np.concatenate([*parts, out[:made]]) if self._queue.why == EVENTS else None)

    def _check_pauses(self, moments: npt.NDArray[Any], end: int) -> None:
        """Rejects moments so far ahead that the updates up to them would fill the memory. An arrival after the last
        moment is rejected at its place."""
        late = np.flatnonzero(moments > MAX_MOMENT)
        reached = moments[:late[0]] if len(late) else moments
        last = min(max(int(reached.max(initial=0)), 0 if len(late) else end), MAX_MOMENT)
        updates = (last - self.due) // self._state.params.t_update + 1
        if updates > _MOST_UPDATES:
            raise ValueError(f"{updates} updates come due up to the moment {last}, more than {_MOST_UPDATES}: open the queue at a moment near the first "
                             "arrival, or count moments from it")

    def _arriving(self, moments: npt.ArrayLike, sizes: npt.ArrayLike, ecn: npt.ArrayLike, words: npt.ArrayLike | None, tags: npt.ArrayLike | None,
                  caller: int) -> Events:
        count = len(np.atleast_1d(np.asarray(moments)))
        names = np.arange(self._arrivals, self._arrivals + count, dtype=np.uint64) if tags is None else tags
        return events(int(Kind.ARRIVE), moments, size=sizes, ecn=ecn, word=0 if words is None else words, tag=names,
                      caller=number("caller", caller, 16))

    def _go_on(self, decided: Events | None = None) -> None:
        """Enlarges the ring if the last loop ended for lack of memory. The events before were
        decided."""
        if self._queue.why == GROW:
            packets = self.waiting
            self._ring = np.zeros(2 * len(self._ring), PACKET)
            self._ring[:len(packets)] = packets
            self._queue.ring, self._queue.slots, self._queue.first = self._ring.ctypes.data, len(self._ring), 0
        elif self._queue.why == EVENTS:
            raise self._exhausted(decided)

    def _record(self, made: RawEvent | Events) -> None:
        if self._history:
            self._history.record(made)

    def clock(self, moment: int | str, unix_time: int) -> None:
        """Records the wall-clock time at this moment: `unix_time`, in ns since 1970."""
        if self._history:
            with self._lock:
                self._history.clock(moment, unix_time)

    def close(self) -> None:
        """Ends the history."""
        if self._history:
            with self._lock:
                self._history.close()

    def __enter__(self) -> Queue:
        return self

    def __exit__(self, kind: type[BaseException] | None, value: BaseException | None, trace: TracebackType | None) -> None:
        self.close()


def _power(least: int) -> int:
    """Returns the least power of two that is at least this number."""
    return 1 << (max(least, 1) - 1).bit_length()
