"""The configuration of a controller: parameters and other fields. Numbers may be texts with units of tc."""
from __future__ import annotations

from ctypes import byref, c_uint64
from dataclasses import dataclass, fields, replace
from enum import IntEnum, IntFlag

from ._library import LIBRARY, NINE, RawOpening, RawParams, number
from .refusal import Refused


class Profile(IntEnum):
    """The profile: one is always active, two activates and deactivates the controller (RFC 8033,
    section 5.3)."""
    ALWAYS_ON = 1
    ON_AND_OFF = 2


class Choices(IntFlag):
    """RFC 8033's optional elements, as flags. `Opening.for_rate` sets only DELAY_STAMP, as Linux
    does. USUAL sets no flag."""
    USUAL = 0
    DELAY_STAMP = 1
    PICK_RANDOM = 2
    STEP_UNCAPPED = 4
    SIZE_SCALED = 8
    DECAY_HALF = 16


class Mode(IntEnum):
    """Behavior of a full event log of a history."""
    BOUNDED = 0
    ROLLING = 1


def _read(kind: str, text: str) -> int:
    data, found = text.encode(), c_uint64()
    code = getattr(LIBRARY, f"pie_read_{kind}")(data, len(data), byref(found))
    if code:
        raise Refused(code, repr(text))
    return found.value


def read_time(text: str) -> int:
    """Returns nanoseconds: 1500000 for "1.5ms". A unit is required."""
    return _read("time", text)


def read_rate(text: str) -> int:
    """Returns bits per second: 100000000 for "100mbit", 8000 for "1kbps" (bytes). A unit is
    required."""
    return _read("rate", text)


def read_size(text: str) -> int:
    """Returns bytes: 262144 for "256kb", 1500 for "1500"."""
    return _read("size", text)


def read_packets(text: str) -> int:
    """Returns packets: 1000 for "1000p" and for "1000"."""
    return _read("packets", text)


READ = {**dict.fromkeys(("target", "t_update", "max_burst", "moment", "until"), read_time), "rate": read_rate, "packets": read_packets,
        **dict.fromkeys(("mean_pkt", "limit_bytes", "dq_threshold"), read_size)}


def whole(name: str, value: int | str) -> int:
    """Returns a number; a text with a unit is accepted if the field `name` has one."""
    return READ[name](value) if isinstance(value, str) and name in READ else number(name, value)


@dataclass(frozen=True)
class Params:
    """The nine parameters, in ns, bytes, thousandths per second (alpha, beta) and 10^-12
    (mark_ecnth). docs/PARAMETERS.md helps to choose them."""
    target: int
    t_update: int
    max_burst: int
    alpha: int
    beta: int
    mean_pkt: int
    limit_bytes: int
    mark_ecnth: int
    dq_threshold: int

    @classmethod
    def default(cls) -> Params:
        """Returns the default parameters, which are RFC 8033's for each that it has."""
        raw = RawParams()
        LIBRARY.pie_default_params(byref(raw))
        return cls.of(raw)

    @classmethod
    def for_rate(cls, rate: int | str, **changes: int | str) -> Params:
        """Returns the defaults for a link of this rate, with some changed:
        `Params.for_rate("100mbit", target="20ms")`."""
        raw = RawParams()
        LIBRARY.pie_params_for(whole("rate", rate), byref(raw))
        return cls.of(raw).replace(**changes)

    @classmethod
    def of(cls, raw: RawParams) -> Params:
        """Returns the parameters of a struct."""
        return cls(*(getattr(raw, name) for name in NINE))

    def raw(self) -> RawParams:
        """Returns the struct of these parameters."""
        return RawParams(*(number(name, getattr(self, name)) for name in NINE))

    def replace(self, **changes: int | str) -> Params:
        """Returns a copy with some fields changed, which may be texts: `replace(target="20ms")`."""
        return replace(self, **{name: whole(name, value) for name, value in changes.items()})

    def check(self) -> str | None:
        """Returns the name of the first parameter that is out of its range, or None."""
        first = LIBRARY.pie_check_params(byref(self.raw()))
        return NINE[first - 1] if first else None


@dataclass(frozen=True)
class Opening:
    """The configuration of a controller. The last four fields do not affect the decisions of a `Controller`; they are written to the history, bound
    the memory of a replay, and limit a `Queue`."""
    params: Params
    #: moment of the opening, in ns
    moment: int
    profile: Profile
    choices: Choices
    mode: Mode
    #: capacity of the queue in packets
    packets: int
    #: capacity of the event log in events
    tail: int
    #: the most events of the history
    events: int

    @classmethod
    def for_rate(cls, rate: int | str = 0, **changes: int | str) -> Opening:
        """Returns the default opening for a link of this rate, with some fields or parameters
        changed: `Opening.for_rate("100mbit", target="20ms", mode=Mode.BOUNDED)`. `limit_bytes` is
        200 ms at the rate, at least 25000 and at most 2^30. If the rate is 0, it is unknown, and
        `limit_bytes` is 262144."""
        raw = RawOpening()
        LIBRARY.pie_default_opening(byref(raw), whole("rate", rate))
        params = Params.of(raw.params)
        profile, choices, mode = Profile(raw.profile), Choices(raw.choices), Mode(raw.mode)
        return cls(params, raw.moment, profile, choices, mode, raw.packets, raw.tail, raw.events).replace(**changes)

    def replace(self, **changes: int | str) -> Opening:
        """Returns a copy with some fields or parameters changed, which may be texts."""
        numbers = {name: whole(name, value) for name, value in changes.items()}
        params = self.params.replace(**{name: numbers.pop(name) for name in NINE if name in numbers})
        return replace(self, params=params, **numbers)

    def raw(self) -> RawOpening:
        """Returns the struct of this opening."""
        return RawOpening(self.params.raw(), *(number(it.name, getattr(self, it.name)) for it in fields(self)[1:]))
