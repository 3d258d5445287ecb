"""The shared library by ctypes: its structs and calls, as include/pie.h and native/pie_arrays.h declare them."""
from __future__ import annotations

import ctypes
import types
from ctypes import POINTER, Structure, c_char_p, c_size_t, c_uint8, c_uint16, c_uint32, c_uint64, c_void_p
from pathlib import Path
from typing import Any

NINE = ("target", "t_update", "max_burst", "alpha", "beta", "mean_pkt", "limit_bytes", "mark_ecnth", "dq_threshold")
RECORD_ROOM = 256
MAX_MOMENT = (1 << 60) - 1


class RawParams(Structure):
    """struct pie_params"""
    _fields_ = [(name, c_uint64) for name in NINE]


class RawOpening(Structure):
    """struct pie_opening"""
    _fields_ = [("params", RawParams), *((name, c_uint64) for name in ("moment", "profile", "choices", "mode", "packets", "tail", "events"))]


class RawState(Structure):
    """struct pie_state"""
    _fields_ = [("params", RawParams), *((name, c_uint64) for name in (
        "moment", "prob", "old_delay", "burst", "last", "accu", "average", "measuring", "cycle_start", "cycle_count", "profile", "active", "choices",
        "waited"))]


class RawUpdated(Structure):
    """struct pie_updated"""
    _fields_ = [(name, c_uint64) for name in ("code", "due", "delay", "prob", "burst")]


class RawEvent(Structure):
    """struct pie_event"""
    _fields_ = [*((name, c_uint64) for name in ("moment", "tag", "word", "delay", "prob", "burst")), ("size", c_uint32), ("answer", c_uint32),
                ("caller", c_uint16), ("kind", c_uint8), ("ecn", c_uint8), ("reserved", c_uint32)]


class RawQueue(Structure):
    """struct pie_array_queue"""
    _fields_ = [("ring", c_void_p), *((name, c_uint32) for name in ("slots", "first", "packets", "most_packets")),
                *((name, c_uint64) for name in ("bytes", "events", "most_events", "rate", "link_free", "rest", "taken", "why"))]


ALL, REFUSED, GROW, EVENTS, KIND, OUT = range(6)  # why a loop over an array ended

_STATE, _EVENT, _PARAMS, _OPENING = POINTER(RawState), POINTER(RawEvent), POINTER(RawParams), POINTER(RawOpening)
_QUEUE, _NUMBER, _LENGTH = POINTER(RawQueue), POINTER(c_uint64), POINTER(c_size_t)
_TEXT = (c_void_p, c_size_t)  # the destination of a record, and its room in bytes
# the result and the arguments of each call
CALLS: dict[str, tuple[object, tuple[object, ...]]] = {
    "pie_default_params": (None, (_PARAMS,)),
    "pie_check_params": (c_uint32, (_PARAMS,)),
    "pie_params_for": (None, (c_uint64, _PARAMS)),
    "pie_default_opening": (None, (_OPENING, c_uint64)),
    "pie_open": (c_uint32, (_STATE, _OPENING)),
    "pie_due": (c_uint64, (_STATE,)),
    "pie_arrive_event": (c_uint32, (_STATE, c_uint64, c_uint32, _EVENT)),
    "pie_depart_event": (c_uint32, (_STATE, c_uint64, c_uint64, _EVENT)),
    "pie_empty_event": (c_uint32, (_STATE, _EVENT)),
    "pie_update_event": (c_uint32, (_STATE, c_uint64, _EVENT)),
    "pie_reset_event": (c_uint32, (_STATE, _EVENT)),
    "pie_set_params_event": (c_uint32, (_STATE, _PARAMS, _EVENT)),
    "pie_write_params": (c_size_t, (_EVENT, _PARAMS, *_TEXT)),
    "pie_write_opening": (c_size_t, (_OPENING, *_TEXT)),
    "pie_write_clock": (c_size_t, (c_uint64, c_uint64, *_TEXT)),
    "pie_write_lost": (c_size_t, (c_uint64, *_TEXT)),
    "pie_write_refused": (c_size_t, (c_uint64, c_uint32, *_TEXT)),
    "pie_read_time": (c_uint32, (c_char_p, c_size_t, _NUMBER)),
    "pie_read_rate": (c_uint32, (c_char_p, c_size_t, _NUMBER)),
    "pie_read_size": (c_uint32, (c_char_p, c_size_t, _NUMBER)),
    "pie_read_packets": (c_uint32, (c_char_p, c_size_t, _NUMBER)),
    "pie_array_decide": (c_size_t, (_STATE, _QUEUE, c_void_p, c_size_t, c_uint32)),
    "pie_array_offer": (c_size_t, (_STATE, _QUEUE, c_void_p, c_size_t, c_uint64, c_void_p, c_size_t)),
    "pie_array_write": (c_size_t, (c_void_p, c_size_t, _NUMBER, _NUMBER, *_TEXT, _LENGTH)),
    "pie_array_text": (c_char_p, (c_uint64,)),
    "pie_array_version": (c_char_p, ()),
}


_LOOPS = ("pie_array_decide", "pie_array_offer", "pie_array_write")


def _load() -> Any:
    """Returns the calls of the library in the wheel, or of the system's library if the wheel has none. Loops over arrays
    release Python's global lock; the other calls are shorter than its release."""
    beside = Path(__file__).with_name("libpie.so.0")
    place = str(beside) if beside.exists() else "libpie.so.0"
    short, loops = ctypes.PyDLL(place), ctypes.CDLL(place)
    calls = types.SimpleNamespace()
    for name, (result, takes) in CALLS.items():
        call = getattr(loops if name in _LOOPS else short, name)
        call.restype, call.argtypes = result, takes
        setattr(calls, name, call)
    return calls


LIBRARY = _load()
VERSION: str = LIBRARY.pie_array_version().decode()


def number(name: str, value: object, bits: int = 64) -> int:
    """Returns a whole number after a check that it fits its type of C; ctypes would truncate it."""
    try:
        whole = value.__index__()  # type: ignore[attr-defined]
    except AttributeError:
        raise TypeError(f"{name}: {value!r} is not a whole number") from None
    if not 0 <= whole < 1 << bits:
        raise ValueError(f"{name}: {value!r} does not fit in {bits} bits without a sign")
    return int(whole)
