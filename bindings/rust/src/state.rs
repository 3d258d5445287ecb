//! The controller's state, and the calls on it.

use crate::library::{
    RawUpdated, pie_arrive, pie_check_state, pie_depart, pie_depart_waited, pie_due, pie_empty, pie_open, pie_reset, pie_set_params,
    pie_update,
};
use crate::refusal::{done, done_with, refusal};
use crate::{Opening, Params, Refusal};

/// The controller's state. Read its fields, but write none: a changed state may be refused ([`State::check`]).
#[repr(C)]
#[derive(Clone, Copy, Debug, PartialEq, Eq, Hash)]
pub struct State {
    /// The parameters in force.
    pub params: Params,
    /// Effective moment: the greatest moment so far.
    pub moment: u64,
    /// The probability of drop or mark, 0 to 10^12 (section 4.2).
    pub prob: u64,
    /// The delay at the last update, at most 2^40 ns (section 4.2).
    pub old_delay: u64,
    /// The burst allowance, at most 10^12 ns (section 4.4).
    pub burst: u64,
    /// The moment of the last update, or of the opening.
    pub last: u64,
    /// The accumulated probability, below 8.5 * 10^12 (section 5.4).
    pub accu: u64,
    /// Average time in which `dq_threshold` bytes depart, below 2^60 ns; 0: no sample (section 5.2).
    pub average: u64,
    /// 1 while a departure rate cycle is open, otherwise 0.
    pub measuring: u64,
    /// Moment at which the cycle began; 0 if none is open.
    pub cycle_start: u64,
    /// Bytes that departed in the cycle, below `dq_threshold`; 0 if none is open.
    pub cycle_count: u64,
    /// The number of the [`Profile`].
    pub profile: u64,
    /// 1 while the controller is active, otherwise 0; always 1 in profile one (section 5.3).
    pub active: u64,
    /// The flags of the [`Choices`], at most 31.
    pub choices: u64,
    /// Waiting time of the packet that departed last, at most 2^40 ns; 0 if it left the queue empty, and without `delay_stamp`.
    pub waited: u64,
}

/// RFC 8033's optional elements. The default is `delay_stamp` alone, as Linux has it; [`Choices::NONE`] has none.
#[derive(Clone, Copy, Debug, PartialEq, Eq, Hash)]
pub struct Choices {
    /// The delay is the time that the packet that departed last had waited (section 4.3): departures then go through [`State::depart_waited`].
    /// Without it the delay comes from the departure rate (section 5.2).
    pub delay_stamp: bool,
    /// Packets are picked by the random word alone, not de-randomized (section 5.4).
    pub pick_random: bool,
    /// The step of the probability at an update is not capped (section 5.5).
    pub step_uncapped: bool,
    /// A packet below `mean_pkt` is picked less often, in proportion to its size.
    pub size_scaled: bool,
    /// The probability decays if this delay and the last one are below half the target (appendix B), not only if both are 0.
    pub decay_half: bool,
}

impl Default for Choices {
    fn default() -> Choices {
        Choices { delay_stamp: true, ..Choices::NONE }
    }
}

impl Choices {
    /// No optional element: delays by the departure rate, de-randomized picking, capped steps, all packets picked alike, decay at 0.
    pub const NONE: Choices = Choices { delay_stamp: false, pick_random: false, step_uncapped: false, size_scaled: false, decay_half: false };

    /// Returns the choices in the form of the library.
    pub(crate) fn flags(self) -> u64 {
        let flags = [self.delay_stamp, self.pick_random, self.step_uncapped, self.size_scaled, self.decay_half];
        flags.iter().rev().fold(0, |sum, &flag| 2 * sum + u64::from(flag))
    }
}

/// The ECN field of an IP header (RFC 3168, section 5).
#[derive(Clone, Copy, Debug, PartialEq, Eq, Hash)]
pub enum Ecn {
    /// Its endpoints don't understand a mark.
    NotEct = 0,
    /// ECT(1)
    Ect1 = 1,
    /// ECT(0)
    Ect0 = 2,
    /// It is marked: congestion experienced.
    Ce = 3,
}

#[cfg(feature = "link")]
impl Ecn {
    /// Returns the ECN field of the lowest two bits.
    pub(crate) fn of(bits: u8) -> Ecn {
        [Ecn::NotEct, Ecn::Ect1, Ecn::Ect0, Ecn::Ce][usize::from(bits & 3)]
    }
}

/// A profile: the controller is always active, or turns itself on and off (RFC 8033, section 5.3).
#[derive(Clone, Copy, Debug, PartialEq, Eq, Hash)]
pub enum Profile {
    /// It is always active.
    One = 1,
    /// It opens inactive, and turns itself on and off.
    Two = 2,
}

/// The verdict on an arriving packet.
#[derive(Clone, Copy, Debug, PartialEq, Eq, Hash)]
pub enum Verdict {
    /// Queue it as it is.
    Enqueue,
    /// Queue it, and set its ECN field to CE (section 5.1).
    Mark,
    /// Drop it: early drop picked it (sections 4.1 and 5.4).
    Early,
    /// Drop it: the queue would exceed `limit_bytes` (appendix A).
    Bytes,
    /// Drop it: the caller's ring is full.
    Packets,
}

impl Verdict {
    /// Returns the verdict of a return code.
    pub(crate) fn of(code: u32) -> Result<Verdict, Refusal> {
        match code {
            0 => Ok(Verdict::Enqueue),
            1 => Ok(Verdict::Mark),
            2 => Ok(Verdict::Early),
            3 => Ok(Verdict::Bytes),
            4 => Ok(Verdict::Packets),
            code => Err(refusal(u64::from(code), 0)),
        }
    }

    /// Returns true if the packet is queued, marked or unmarked.
    #[must_use]
    pub fn is_queued(self) -> bool {
        matches!(self, Verdict::Enqueue | Verdict::Mark)
    }
}

/// The result of an update.
#[derive(Clone, Copy, Debug, PartialEq, Eq, Hash)]
pub struct Updated {
    /// The moment from which the next update is not too soon.
    pub due: u64,
    /// The queueing delay that it used, in ns (section 5.2); 0 while the controller is inactive.
    pub delay: u64,
    /// The probability after it.
    pub prob: u64,
    /// The burst allowance after it, in ns.
    pub burst: u64,
}

impl State {
    /// All fields 0, which the library then writes over.
    const UNSET: State = State {
        params: Params::UNSET,
        moment: 0,
        prob: 0,
        old_delay: 0,
        burst: 0,
        last: 0,
        accu: 0,
        average: 0,
        measuring: 0,
        cycle_start: 0,
        cycle_count: 0,
        profile: 0,
        active: 0,
        choices: 0,
        waited: 0,
    };

    /// Opens a controller.
    ///
    /// # Errors
    /// In this order: `Params`, `Moment`, `Limits`.
    pub fn open(opening: &Opening) -> Result<State, Refusal> {
        let mut state = State::UNSET;
        let opening = opening.raw();
        // SAFETY: as `library` says.
        done_with(unsafe { pie_open(&mut state, &opening) }, &opening.params)?;
        Ok(state)
    }

    /// Decides on an arriving packet (sections 4.1, 5.1 and 5.4).
    ///
    /// `queued` is the number of bytes in the queue without this packet, `size` the packet's, and `room` the number of packets for
    /// which the caller's ring has room. `word` is a random word of 64 bits that no sender can guess.
    ///
    /// # Errors
    /// In this order: `Moment`, `Size`, `Queue`.
    pub fn arrive(
        &mut self,
        queued: u64,
        size: u32,
        room: u32,
        ecn: Ecn,
        word: u64,
        moment: u64,
    ) -> Result<Verdict, Refusal> {
        // SAFETY: as `library` says.
        Verdict::of(unsafe { pie_arrive(self, queued, size, room, ecn as u32, word, moment) })
    }

    /// Records the departure of a packet of this size, with `left` bytes in the queue after it (section 5.2), if delays come from the departure rate.
    /// With the default choices call [`State::depart_waited`].
    ///
    /// # Errors
    /// In this order: `Moment`, `Size`, `Queue`, `NotWaited`.
    pub fn depart(&mut self, size: u32, left: u64, moment: u64) -> Result<(), Refusal> {
        // SAFETY: as `library` says.
        done(unsafe { pie_depart(self, size, left, moment) })
    }

    /// Records that a packet of this size left the queue, with `left` bytes after it. `arrived` is the `moment` of this state right after the
    /// packet's `arrive`. With time stamps the next update uses the packet's wait as the delay (section 4.3); otherwise this is [`State::depart`].
    ///
    /// # Errors
    /// In this order: `Moment`, `Size`, `Queue`, `Arrived`.
    pub fn depart_waited(&mut self, size: u32, left: u64, arrived: u64, moment: u64) -> Result<(), Refusal> {
        // SAFETY: as `library` says.
        done(unsafe { pie_depart_waited(self, size, left, arrived, moment) })
    }

    /// Records that a departure found the queue empty: advances the moment and changes nothing else.
    ///
    /// # Errors
    /// `Moment`.
    pub fn empty(&mut self, moment: u64) -> Result<(), Refusal> {
        // SAFETY: as `library` says.
        done(unsafe { pie_empty(self, moment) })
    }

    /// Makes an update, with `queued` bytes in the queue (sections 4.2, 4.4 and 5.5). Call it at the moment [`State::due`], or soon after. Missed
    /// updates are not repeated.
    ///
    /// # Errors
    /// In this order: `State`, `Moment`, `Queue`, `TooSoon`.
    pub fn update(&mut self, queued: u64, moment: u64) -> Result<Updated, Refusal> {
        // SAFETY: as `library` says.
        let RawUpdated { code, due, delay, prob, burst } = unsafe { pie_update(self, queued, moment) };
        if code == 0 { Ok(Updated { due, delay, prob, burst }) } else { Err(refusal(code, due)) }
    }

    /// Returns the moment from which the next update is not too soon. Set a timer to it.
    #[must_use]
    pub fn due(&self) -> u64 {
        // SAFETY: as `library` says.
        unsafe { pie_due(self) }
    }

    /// Sets probability, old delay, accumulated probability and the rate estimate to 0, and the burst allowance to `max_burst`. Keeps
    /// parameters, greatest moment, last update, profile and activity.
    ///
    /// # Errors
    /// In this order: `State`, `Moment`.
    pub fn reset(&mut self, moment: u64) -> Result<(), Refusal> {
        // SAFETY: as `library` says.
        done(unsafe { pie_reset(self, moment) })
    }

    /// Sets new parameters and clears the rate estimate. The other registers are unchanged.
    ///
    /// # Errors
    /// In this order: `State`, `Params`, `Moment`.
    pub fn set_params(&mut self, params: &Params, moment: u64) -> Result<(), Refusal> {
        // SAFETY: as `library` says.
        done_with(unsafe { pie_set_params(self, params, moment) }, params)
    }

    /// Checks a state from another source: each field must be in its range, and the fields must agree with each
    /// other. `arrive`, `depart` and `empty` do not check the state.
    ///
    /// # Errors
    /// `State`.
    pub fn check(&self) -> Result<(), Refusal> {
        // SAFETY: as `library` says.
        done(unsafe { pie_check_state(self) })
    }
}
