"""PIE (RFC 8033) in Python: the proved controller of libpie.so, for single events or numpy arrays of events;
histories for `pie audit`; and the output of `pie explain` as pandas frames.

Moments and times are whole nanoseconds from a start that the caller chooses, at most 2^60 - 1; probabilities are
whole numbers of 10^-12; sizes are bytes. Each numeric argument may also be a text with a unit of tc(8): "15ms",
"100mbit", "256kb". An error raises `Refused` with the library's description, and changes nothing.
"""
from ._library import VERSION
from .controller import Controller, Ecn, Kind, State, Updated, Verdict
from .frames import Fault, Finding, audit, explain, explain_parts, frame, read_events, read_history, read_opening
from .history import EVENT, Recorder, text_of
from .opening import Choices, Mode, Opening, Params, Profile, read_packets, read_rate, read_size, read_time
from .queue import Exhausted, Packet, Queue, events
from .refusal import Refusal, Refused

__version__ = VERSION
__all__ = [
    "EVENT", "VERSION", "Choices", "Controller", "Ecn", "Exhausted", "Fault", "Finding", "Kind", "Mode", "Opening", "Packet", "Params", "Profile",
    "Queue", "Recorder", "Refusal", "Refused", "State", "Updated", "Verdict", "audit", "events", "explain", "explain_parts", "frame", "read_events",
    "read_history", "read_opening", "read_packets", "read_rate", "read_size", "read_time", "text_of",
]
