"""Histories: events in numpy arrays, written by the library's writers, and read again."""
from __future__ import annotations

import ctypes
import io
import operator
from collections.abc import Callable
from ctypes import byref, c_size_t, c_uint64
from os import PathLike, fspath
from types import TracebackType
from typing import Any, BinaryIO, Union

import numpy as np
import numpy.typing as npt

from ._library import LIBRARY, RECORD_ROOM, RawEvent, number
from .opening import Opening, Params, whole

#: One event: the numpy type of include/pie.h's struct pie_event.
EVENT = np.dtype([*((name, "<u8") for name in ("moment", "tag", "word", "delay", "prob", "burst")), ("size", "<u4"), ("answer", "<u4"),
                  ("caller", "<u2"), ("kind", "u1"), ("ecn", "u1"), ("reserved", "<u4")])
Events = npt.NDArray[np.void]
Place = Union[str, bytes, "PathLike[str]", "PathLike[bytes]"]
_AT_ONCE = 4096


def _is_masked(values: object) -> bool:
    """Returns true if a value of a masked array is masked."""
    if not isinstance(values, np.ma.MaskedArray):
        return False
    return bool(np.ma.flatten_mask(np.ma.getmaskarray(values)).any())  # type: ignore[no-untyped-call]


def _whole(name: str, values: npt.NDArray[Any]) -> npt.NDArray[Any]:
    """Returns objects as an array of 64-bit numbers. The objects are Python integers, which numpy
    would convert to floating point if some are above 2^63 - 1, or columns of pandas that may lack
    numbers."""
    try:
        numbers = [operator.index(it) for it in values.flat]
    except TypeError:
        raise TypeError(f"{name}: these are not whole numbers, or one is missing") from None
    if min(numbers) < 0 or max(numbers) >= 1 << 64:
        raise ValueError(f"{name}: a number does not fit in 64 bits without a sign")
    return np.array(numbers, np.uint64).reshape(values.shape)


def column(name: str, values: npt.ArrayLike, kind: str, count: int | None = None) -> npt.NDArray[Any]:
    """Returns whole numbers as an array of this type, without truncation by numpy; one number is repeated `count`
    times."""
    if _is_masked(values):
        raise TypeError(f"{name}: a number is masked")
    found = np.asarray(values)
    if found.dtype.kind == "b":
        raise TypeError(f"{name}: these are truth values, and no numbers")
    if found.dtype.kind not in "iu" and found.size:
        found = _whole(name, np.asarray(values, dtype=object))
    is_within = not found.size or (found.dtype.kind == "u" or found.min() >= 0) and (found.dtype == kind or int(found.max()) <= np.iinfo(kind).max)
    if not is_within:
        raise ValueError(f"{name}: a number does not fit in {np.iinfo(kind).bits} bits without a sign")
    if found.ndim > 1:
        raise ValueError(f"{name}: an array of one dimension is wanted, and not one of the shape {found.shape}")
    if count is not None and found.ndim == 1 and len(found) != count:
        raise ValueError(f"{name}: there are {len(found)} numbers, and {count} are wanted")
    numbers: npt.NDArray[Any] = np.atleast_1d(found.astype(kind, copy=False))
    return np.broadcast_to(numbers, (count,)) if count is not None and found.ndim == 0 else numbers


def as_events(values: object) -> Events:
    """Returns events as an array of one dimension and of the type EVENT; one event becomes an array. Fields in another
    order are matched by their names. Raises `TypeError` if `values` is not an array with the fields of EVENT or has a
    masked value, and `ValueError` if it has several dimensions or a number out of its range."""
    if _is_masked(values):
        raise TypeError("events: a value is masked")
    if not isinstance(values, (np.ndarray, np.void)) or set(values.dtype.names or ()) != set(EVENT.names or ()):
        raise TypeError("events: these are not events of the type EVENT, which `events` makes")
    found: Events = np.atleast_1d(np.asarray(values))
    if found.ndim > 1:
        raise ValueError(f"events: an array of one dimension is wanted, and not one of the shape {found.shape}")
    if found.dtype == EVENT:
        return found
    made = np.zeros(len(found), EVENT)
    for name in EVENT.names or ():
        made[name] = column(name, found[name], EVENT[name].str)
    return made


class Recorder:
    """Writes a history to a file, given by its name or open for bytes: the opening, and then each
    event in order. `pie audit` can audit the result. Close the recorder, or use it in a `with`
    statement; before that, the end may be missing in the file. If a file of this name exists, it is
    left unchanged and `FileExistsError` is raised; `force` replaces it.

    >>> with Recorder("link.history", opening) as history:
    ...     pie = Controller(opening, history)
    """

    def __init__(self, out: Place | BinaryIO, opening: Opening, force: bool = False):
        text = _text(lambda to, room: LIBRARY.pie_write_opening(byref(opening.raw()), to, room))
        if not text:
            raise ValueError(f"an opening that no history has: {opening}")
        #: the number of records, with the opening
        self.records = 1
        #: the number of omitted refused calls, for which histories have no code
        self.untold = 0
        self._has_clock = text.startswith(b"open3,")
        self._is_own = isinstance(out, (str, bytes, PathLike))
        self._out: Any = open(fspath(out), "wb" if force else "xb") if isinstance(out, (str, bytes, PathLike)) else out
        self._name = repr(fspath(out)) if isinstance(out, (str, bytes, PathLike)) else "a file"
        self._out.write(text)

    def __repr__(self) -> str:
        return f"Recorder({self._name}, records={self.records}, untold={self.untold})"

    def record(self, events: RawEvent | Events) -> None:
        """Writes the records of events. For a refused event it writes the record of the refusal.
        Raises `ValueError` at an event that no history can contain; the events before it have been
        written. Raises `TypeError` if they are not events or a value is masked, and `ValueError` if the
        array has several dimensions; then nothing is written."""
        if isinstance(events, RawEvent):
            self._record(ctypes.addressof(events), 1, 0)
            return
        data = np.ascontiguousarray(as_events(events))
        for at in range(0, len(data), _AT_ONCE):
            part = data[at:at + _AT_ONCE]
            self._record(part.ctypes.data, len(part), at)

    def _record(self, events: int, count: int, at: int) -> None:
        room = count * RECORD_ROOM
        text, length, records, untold = ctypes.create_string_buffer(room), c_size_t(), c_uint64(self.records), c_uint64(self.untold)
        passed = LIBRARY.pie_array_write(events, count, byref(records), byref(untold), text, room, byref(length))
        self.records, self.untold = records.value, untold.value
        self._out.write(memoryview(text)[:length.value])
        if passed < count:
            raise ValueError(f"event {at + passed} is none that a history has, or has new parameters")

    def record_params(self, event: RawEvent, params: Params) -> None:
        """Writes the record of new parameters, or of their refusal."""
        if event.answer > 100:
            text = _text(lambda to, room: LIBRARY.pie_write_refused(self.records + 1, event.answer, to, room))
            self.untold += not text
        else:
            text = _text(lambda to, room: LIBRARY.pie_write_params(byref(event), byref(params.raw()), to, room))
        self._put(text)

    def clock(self, moment: int | str, unix_time: int) -> None:
        """Writes a `clock` record: the wall-clock time at this moment was `unix_time` (ns since
        1970, as from `time.time_ns()`). The history must be of version three; it is if the
        opening's `events` is above 2^40, as by default."""
        at, time = whole("moment", moment), number("unix_time", unix_time)
        text = _text(lambda to, room: LIBRARY.pie_write_clock(at, time, to, room)) if self._has_clock else b""
        if not text:
            raise ValueError("a time of day that this history cannot have")
        self._put(text)

    def lost(self, count: int) -> None:
        """Writes the record of this number of missing events. An audit of the text ends there with
        a fault."""
        missing = number("count", count)
        text = _text(lambda to, room: LIBRARY.pie_write_lost(missing, to, room))
        if not text:
            raise ValueError("no event is missing")
        self._put(text)

    def _put(self, text: bytes) -> None:
        self.records += bool(text)
        self._out.write(text)

    def flush(self) -> None:
        """Writes all pending records to the file."""
        self._out.flush()

    def close(self) -> None:
        """Ends the history. Closes the file if the recorder opened it."""
        if self._is_own:
            self._out.close()
        else:
            self._out.flush()

    def __enter__(self) -> Recorder:
        return self

    def __exit__(self, kind: type[BaseException] | None, value: BaseException | None, trace: TracebackType | None) -> None:
        self.close()


def _text(write: Callable[[ctypes.Array[ctypes.c_char], int], Any]) -> bytes:
    """Returns the bytes that a call writes into a buffer of this size."""
    room = ctypes.create_string_buffer(RECORD_ROOM)
    length = write(room, RECORD_ROOM)
    return room.raw[:length]


def text_of(opening: Opening, events: Events) -> bytes:
    """Returns the history text of these events, which come after the opening."""
    out = io.BytesIO()
    Recorder(out, opening).record(events)
    return out.getvalue()
