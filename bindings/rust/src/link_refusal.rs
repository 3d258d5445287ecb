//! The refusals of calls at a port.

use core::error::Error;
use core::fmt;

use crate::refusal::refusal;
use crate::{Params, Refusal};

/// The refusal of a call at a [`Port`](crate::Port). A refused call changes nothing and adds no event to the history.
#[derive(Clone, Copy, Debug, PartialEq, Eq, Hash)]
pub enum LinkRefusal {
    /// Another port has the turn: try it again, or call the form that waits.
    Busy,
    /// An update before it is due.
    TooSoon,
    /// The number of events is at the limit of the opening.
    Exhausted,
    /// The event log of a bounded link ([`Mode::Bounded`](crate::Mode::Bounded)) is full: fold some events.
    Full,
    /// A fold of an empty log.
    NoEvent,
    /// Out of memory.
    NoMemory,
    /// A link for no callers.
    NoCallers,
    /// The port has only one caller number.
    OneNumber,
    /// The excerpt has less room than an excerpt of this link may need.
    TooSmall,
    /// An error that the calls of a [`State`](crate::State) return too.
    Refused(Refusal),
}

impl fmt::Display for LinkRefusal {
    fn fmt(&self, f: &mut fmt::Formatter<'_>) -> fmt::Result {
        f.write_str(match self {
            LinkRefusal::Busy => "another port has the turn",
            LinkRefusal::TooSoon => "an update before it is due",
            LinkRefusal::Exhausted => "as many events as the opening allows",
            LinkRefusal::Full => "the event log is full",
            LinkRefusal::NoEvent => "the log holds no event",
            LinkRefusal::NoMemory => "out of memory",
            LinkRefusal::NoCallers => "a link for no callers",
            LinkRefusal::OneNumber => "the port has one number alone",
            LinkRefusal::TooSmall => "the excerpt has too little room for the link",
            LinkRefusal::Refused(why) => return why.fmt(f),
        })
    }
}

impl Error for LinkRefusal {}

/// Returns the refusal with this code.
pub(crate) fn link_refusal(code: u32) -> LinkRefusal {
    match code {
        103 => LinkRefusal::TooSoon,
        104 => LinkRefusal::Exhausted,
        105 => LinkRefusal::Full,
        106 => LinkRefusal::NoEvent,
        121 => LinkRefusal::Busy,
        123 => LinkRefusal::NoMemory,
        124 => LinkRefusal::NoCallers,
        125 => LinkRefusal::OneNumber,
        129 => LinkRefusal::TooSmall,
        _ => LinkRefusal::Refused(refusal(u64::from(code), 0)),
    }
}

/// Returns the result of a call without further data.
pub(crate) fn link_done(code: u32) -> Result<(), LinkRefusal> {
    if code == 0 { Ok(()) } else { Err(link_refusal(code)) }
}

/// Returns the result of a call with these parameters.
pub(crate) fn link_done_with(code: u32, params: &Params) -> Result<(), LinkRefusal> {
    match (code, params.first_bad()) {
        (107, Some(parameter)) => Err(LinkRefusal::Refused(Refusal::Params(parameter))),
        _ => link_done(code),
    }
}
