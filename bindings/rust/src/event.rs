//! Events, and the records of a history that they are written as.

use core::fmt;

use crate::library::{
    RawEvent, pie_arrive_event, pie_depart_event, pie_empty_event, pie_reset_event, pie_set_params_event, pie_update_event, pie_write_event,
    pie_write_params,
};
use crate::refusal::{done, done_with, refusal};
use crate::{Ecn, Params, Refusal, State, Updated, Verdict};

/// Bytes of the longest record except `resume`.
const ROOM: usize = 256;

/// The return code of a departure that found no packet.
const NONE: u32 = 5;

/// A packet, as the caller knows it.
#[derive(Clone, Copy, Debug, PartialEq, Eq, Hash)]
pub struct Packet {
    /// The caller's name for it.
    pub tag: u64,
    /// Its size in bytes, 1 to 65535.
    pub size: u32,
    /// The ECN field: of an arrival as it arrived, of a departure as it departed; [`Ecn::Ce`] if the packet was marked.
    pub ecn: Ecn,
}

/// The arguments and the result of a call, in 64 bytes. `Display` writes its record of a history (docs/FORMATS.md).
/// For a refused call it writes the error, which is not a record: a history contains its number, as `Recorder`
/// writes it.
#[derive(Clone, Copy, Debug, PartialEq, Eq, Hash)]
#[repr(transparent)]
pub struct Event(RawEvent);

/// An event that sets parameters, with these parameters.
#[derive(Clone, Copy, Debug, PartialEq, Eq, Hash)]
pub struct ParamsEvent {
    event: Event,
    params: Params,
}

/// The bytes of a record, with room for the longest.
pub(crate) struct Text<const BYTES: usize = ROOM> {
    bytes: [u8; BYTES],
    count: usize,
}

impl<const BYTES: usize> Text<BYTES> {
    /// Returns the text that the library writes; none if it writes nothing.
    pub(crate) fn of(write: impl FnOnce(*mut u8, usize) -> usize) -> Option<Text<BYTES>> {
        let mut bytes = [0; BYTES];
        let count = write(bytes.as_mut_ptr(), BYTES);
        (1..=BYTES).contains(&count).then_some(Text { bytes, count })
    }

    /// Returns the record, with its line feed.
    pub(crate) fn bytes(&self) -> &[u8] {
        &self.bytes[..self.count]
    }
}

impl Text {
    /// Returns an event's record; `None` if there is none, and for new parameters.
    pub(crate) fn event(event: &RawEvent) -> Option<Text> {
        // SAFETY: as `library` says, and `out` has `room` bytes.
        Text::of(|out, room| unsafe { pie_write_event(event, out, room) })
    }

    /// Returns the record of new parameters; `None` for another event.
    pub(crate) fn params(event: &RawEvent, params: &Params) -> Option<Text> {
        // SAFETY: as `library` says, and `out` has `room` bytes.
        Text::of(|out, room| unsafe { pie_write_params(event, params, out, room) })
    }
}

impl Event {
    fn new(caller: u16, moment: u64) -> Event {
        Event(RawEvent { caller, moment, ..RawEvent::default() })
    }

    fn of(packet: Packet, caller: u16, moment: u64) -> Event {
        let Packet { tag, size, ecn } = packet;
        Event(RawEvent { caller, moment, tag, size, ecn: ecn as u8, ..RawEvent::default() })
    }

    /// Returns an event that a link returned.
    #[cfg(feature = "link")]
    pub(crate) fn of_raw(raw: RawEvent) -> Event {
        Event(raw)
    }

    /// Returns the return code of the call, if the call was refused.
    #[inline]
    pub(crate) fn refused(&self) -> Option<u32> {
        (self.0.answer > 100).then_some(self.0.answer)
    }

    #[inline]
    pub(crate) fn raw(&self) -> &RawEvent {
        &self.0
    }

    pub(crate) fn text(&self) -> Option<Text> {
        Text::event(&self.0)
    }

    /// Returns the result of a call without further data.
    fn done(&self) -> Result<(), Refusal> {
        done(self.refused().unwrap_or(0))
    }
}

impl ParamsEvent {
    /// Returns an event that a link returned.
    #[cfg(feature = "link")]
    pub(crate) fn of_raw(event: Event, params: Params) -> ParamsEvent {
        ParamsEvent { event, params }
    }

    pub(crate) fn refused(&self) -> Option<u32> {
        self.event.refused()
    }

    pub(crate) fn raw(&self) -> &RawEvent {
        self.event.raw()
    }

    pub(crate) fn params(&self) -> &Params {
        &self.params
    }

    pub(crate) fn text(&self) -> Option<Text> {
        Text::params(&self.event.0, &self.params)
    }
}

/// Writes a record without its line feed, or the reason why there is none.
fn show(text: Option<Text>, code: u32, f: &mut fmt::Formatter<'_>) -> fmt::Result {
    match text.as_ref().map(|it| core::str::from_utf8(it.bytes())) {
        Some(Ok(record)) => f.write_str(record.trim_end_matches('\n')),
        _ => write!(f, "refused: {}", refusal(u64::from(code), 0)),
    }
}

impl fmt::Display for Event {
    fn fmt(&self, f: &mut fmt::Formatter<'_>) -> fmt::Result {
        match self.0.answer {
            103 => f.write_str("refused: an update before it is due"),
            code => show(self.text(), code, f),
        }
    }
}

impl fmt::Display for ParamsEvent {
    fn fmt(&self, f: &mut fmt::Formatter<'_>) -> fmt::Result {
        match (self.event.0.answer, self.params.first_bad()) {
            (107, Some(parameter)) => write!(f, "refused: {}", Refusal::Params(parameter)),
            (code, _) => show(self.text(), code, f),
        }
    }
}

/// The calls that return an event beside their result. Each decides as the call of the same name without `_event` does.
impl State {
    /// Calls [`State::arrive`] for this packet.
    ///
    /// # Errors
    /// Those of [`State::arrive`].
    pub fn arrive_event(
        &mut self,
        queued: u64,
        room: u32,
        packet: Packet,
        word: u64,
        caller: u16,
        moment: u64,
    ) -> (Event, Result<Verdict, Refusal>) {
        let mut event = Event::of(packet, caller, moment);
        event.0.word = word;
        // SAFETY: as `library` says.
        let answer = Verdict::of(unsafe { pie_arrive_event(self, queued, room, &mut event.0) });
        (event, answer)
    }

    /// Calls [`State::depart_waited`] for this packet. If delays don't come from time stamps, `arrived` has no effect.
    ///
    /// # Errors
    /// Those of [`State::depart_waited`].
    pub fn depart_event(&mut self, left: u64, arrived: u64, packet: Packet, caller: u16, moment: u64) -> (Event, Result<(), Refusal>) {
        let mut event = Event::of(packet, caller, moment);
        // SAFETY: as `library` says.
        unsafe { pie_depart_event(self, left, arrived, &mut event.0) };
        (event, event.done())
    }

    /// Calls [`State::empty`]: a departure that found no packet.
    ///
    /// # Errors
    /// Those of [`State::empty`].
    pub fn empty_event(&mut self, caller: u16, moment: u64) -> (Event, Result<(), Refusal>) {
        let mut event = Event::new(caller, moment);
        // SAFETY: as `library` says.
        let code = unsafe { pie_empty_event(self, &mut event.0) };
        debug_assert!(code == NONE || code > 100);
        (event, event.done())
    }

    /// Calls [`State::update`].
    ///
    /// # Errors
    /// Those of [`State::update`].
    pub fn update_event(&mut self, queued: u64, caller: u16, moment: u64) -> (Event, Result<Updated, Refusal>) {
        let mut event = Event::new(caller, moment);
        // SAFETY: as `library` says.
        let code = unsafe { pie_update_event(self, queued, &mut event.0) };
        let RawEvent { delay, prob, burst, .. } = event.0;
        let answer = if code == 0 { Ok(Updated { due: self.due(), delay, prob, burst }) } else { Err(refusal(u64::from(code), self.due())) };
        (event, answer)
    }

    /// Calls [`State::reset`].
    ///
    /// # Errors
    /// Those of [`State::reset`].
    pub fn reset_event(&mut self, caller: u16, moment: u64) -> (Event, Result<(), Refusal>) {
        let mut event = Event::new(caller, moment);
        // SAFETY: as `library` says.
        unsafe { pie_reset_event(self, &mut event.0) };
        (event, event.done())
    }

    /// Calls [`State::set_params`].
    ///
    /// # Errors
    /// Those of [`State::set_params`].
    pub fn set_params_event(&mut self, params: &Params, caller: u16, moment: u64) -> (ParamsEvent, Result<(), Refusal>) {
        let mut event = Event::new(caller, moment);
        // SAFETY: as `library` says.
        let code = unsafe { pie_set_params_event(self, params, &mut event.0) };
        (ParamsEvent { event, params: *params }, done_with(code, params))
    }
}
