//! The refusals of calls.

use core::error::Error;
use core::fmt;

use crate::{Parameter, Params};

/// The error of a call, which then changed nothing. All errors except `TooSoon` are mistakes of the caller. After
/// an error of an arrival nothing was decided: queue the packet if it fits, otherwise drop it.
#[derive(Clone, Copy, Debug, PartialEq, Eq, Hash)]
pub enum Refusal {
    /// A moment above 2^60 - 1 ns.
    Moment,
    /// A size outside 1 to 65535 bytes. Segment a larger packet first.
    Size,
    /// An update before it is due.
    TooSoon {
        /// The moment from which the next update is not too soon.
        due: u64,
    },
    /// This parameter is out of its range, and those before it are not.
    Params(Parameter),
    /// A state that is not valid, because the caller changed it. Open anew.
    State,
    /// More than 2^30 bytes in the queue.
    Queue,
    /// A packet that arrived later than the state's moment.
    Arrived,
    /// A call of `depart` with `delay_stamp` set, which needs `depart_waited`.
    NotWaited,
    /// The `packets`, `tail` or `events` of an opening out of their ranges.
    Limits,
    /// A code that this crate doesn't know.
    Unknown(u64),
}

impl fmt::Display for Refusal {
    fn fmt(&self, f: &mut fmt::Formatter<'_>) -> fmt::Result {
        match self {
            Refusal::Moment => f.write_str("a moment above 2^60 - 1 ns"),
            Refusal::Size => f.write_str("a size outside 1 to 65535 bytes"),
            Refusal::TooSoon { due } => write!(f, "an update before it is due, at {due} ns"),
            Refusal::Params(parameter) => write!(f, "the parameter {parameter} is out of its range"),
            Refusal::State => f.write_str("a state that these calls did not leave"),
            Refusal::Queue => f.write_str("more than 2^30 bytes in the queue"),
            Refusal::Arrived => f.write_str("a packet that arrived later than the state's moment"),
            Refusal::NotWaited => f.write_str("a departure without its arrival where delays come from time stamps"),
            Refusal::Limits => f.write_str("a limit of an opening out of its range"),
            Refusal::Unknown(code) => write!(f, "refused by the code {code}"),
        }
    }
}

impl Error for Refusal {}

/// Returns the refusal with this code; for an update that is too soon, with the due moment.
pub(crate) fn refusal(code: u64, due: u64) -> Refusal {
    match code {
        101 => Refusal::Moment,
        102 => Refusal::Size,
        103 => Refusal::TooSoon { due },
        110 => Refusal::State,
        112 => Refusal::Queue,
        118 => Refusal::Arrived,
        119 => Refusal::NotWaited,
        120 => Refusal::Limits,
        _ => Refusal::Unknown(code),
    }
}

/// Returns the result of a call without further data.
pub(crate) fn done(code: u32) -> Result<(), Refusal> {
    if code == 0 { Ok(()) } else { Err(refusal(u64::from(code), 0)) }
}

/// Returns the result of a call with these parameters.
pub(crate) fn done_with(code: u32, params: &Params) -> Result<(), Refusal> {
    match (code, params.first_bad()) {
        (107, Some(parameter)) => Err(Refusal::Params(parameter)),
        _ => done(code),
    }
}
