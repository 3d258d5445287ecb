//! The configuration of a new controller and of its history.

use crate::library::{RawOpening, pie_default_opening};
use crate::{Choices, Params, Profile};

/// Behavior of a full event log.
#[derive(Clone, Copy, Debug, PartialEq, Eq, Hash)]
pub enum Mode {
    /// It refuses further events.
    Bounded = 0,
    /// It discards its oldest event.
    Rolling = 1,
}

/// The configuration of a new controller. The last four fields do not affect the decisions of a [`State`](crate::State). They are written to the
/// first record of the history, bound the memory of a replay, and limit a `Link`. The defaults of [`Opening::for_rate`] are in parentheses.
///
/// ```
/// use juniperbowls::{Choices, Opening, Profile, State};
///
/// # fn main() -> Result<(), juniperbowls::Refusal> {
/// let choices = Choices { decay_half: true, ..Choices::default() };
/// let pie = State::open(&Opening { profile: Profile::Two, choices, ..Opening::for_rate(100_000_000) })?;
/// assert_eq!((pie.params.limit_bytes, pie.active), (2_500_000, 0));
/// # Ok(())
/// # }
/// ```
#[derive(Clone, Copy, Debug, PartialEq, Eq, Hash)]
pub struct Opening {
    /// The parameters.
    pub params: Params,
    /// The moment of the opening, at most 2^60 - 1 ns (0).
    pub moment: u64,
    /// The controller's profile (One).
    pub profile: Profile,
    /// The optional elements (`delay_stamp` alone).
    pub choices: Choices,
    /// Behavior of a full event log (Rolling).
    pub mode: Mode,
    /// Capacity of the queue in packets, 1 to 2^20 (2^20).
    pub packets: u64,
    /// Capacity of the event log in events, 1 to 2^20 (1024).
    pub tail: u64,
    /// The most events of the history, 1 to 2^47 (2^47).
    pub events: u64,
}

impl Opening {
    /// Returns the default opening for a link of this rate, in bits per second, with the parameters of [`Params::for_rate`]. It is never refused.
    #[must_use]
    pub fn for_rate(rate: u64) -> Opening {
        let mut raw = RawOpening::UNSET;
        // SAFETY: as `library` says.
        unsafe { pie_default_opening(&mut raw, rate) };
        let RawOpening { params, moment, packets, tail, events, .. } = raw;
        let (profile, choices, mode) = (Profile::One, Choices::default(), Mode::Rolling);
        let opening = Opening { params, moment, profile, choices, mode, packets, tail, events };
        debug_assert_eq!(opening.raw(), raw);
        opening
    }

    /// Returns the opening in the form of the library.
    pub(crate) fn raw(&self) -> RawOpening {
        let Opening { params, moment, profile, choices, mode, packets, tail, events } = *self;
        RawOpening { params, moment, profile: profile as u64, choices: choices.flags(), mode: mode as u64, packets, tail, events }
    }
}
