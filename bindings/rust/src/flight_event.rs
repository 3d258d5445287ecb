//! An event's words in a flight recorder's memory.

use crate::Params;
#[cfg(feature = "std")]
use crate::MAX_MOMENT;
#[cfg(feature = "std")]
use crate::event::Text;
use crate::library::{RawEvent, Words};

/// The words of an event: its moment; its tag, or the delay of an update; its random word, the moment at which a packet that
/// departed had arrived, or the probability; its size with the answer above, or the burst allowance; the caller in 16 bits, the
/// kind in 8 and the ECN field in 8. New parameters have their kind in 3 bits, and fill the bits that they do not use otherwise.
pub(crate) const EVENT: usize = 5;

/// The places of the kind and of the ECN field in the last word.
const KIND: u32 = 16;
const ECN: u32 = 24;

/// The kinds of events, as the library numbers them.
pub(crate) const ARRIVE: u8 = 1;
pub(crate) const DEPART: u8 = 2;
pub(crate) const UPDATE: u8 = 3;
pub(crate) const RESET: u8 = 4;
const PARAMS: u8 = 5;
/// A gap, with the number of missing events; no recorder keeps it.
#[cfg(feature = "std")]
const LOST: u8 = 6;

/// The answers of a marked packet, and of a departure that found no packet.
pub(crate) const MARK: u32 = 1;
pub(crate) const NONE: u32 = 5;
/// The ECN field of a marked packet.
#[cfg(feature = "std")]
const CE: u8 = 3;

/// The number of bits of each parameter, in order; the threshold is stored as its power of two.
const WIDTHS: [u32; 9] = [34, 34, 40, 20, 20, 16, 31, 40, 5];

/// Returns the last word of an event of this kind.
#[inline]
pub(crate) fn about(kind: u8, ecn: u8, caller: u16) -> u64 {
    u64::from(caller) | u64::from(kind) << KIND | u64::from(ecn) << ECN
}

/// Returns the size in the lower 32 bits, and the answer above.
#[inline]
fn sized(event: &RawEvent) -> u64 {
    u64::from(event.size) | u64::from(event.answer) << 32
}

/// Returns the words of an arrival.
#[inline]
pub(crate) fn arrival(event: &RawEvent) -> [u64; EVENT] {
    [event.moment, event.tag, event.word, sized(event), about(event.kind, event.ecn, event.caller)]
}

/// Returns the words of the departure of a packet that arrived at this moment.
#[inline]
pub(crate) fn departure(event: &RawEvent, since: u64) -> [u64; EVENT] {
    arrival(&RawEvent { word: since, ..*event })
}

/// Returns the words of a queued packet, which arrived at the moment `since`, with this event.
#[inline]
pub(crate) fn queued(event: &RawEvent, since: u64) -> [u64; 4] {
    let [_, tag, _, size, about] = arrival(event);
    [tag, since, size, about]
}

/// Returns the words of an update, a reset, or a departure that found no packet.
pub(crate) fn other(event: &RawEvent) -> [u64; EVENT] {
    let [one, two, three] = if event.kind == UPDATE { [event.delay, event.prob, event.burst] } else { [0, 0, sized(event)] };
    [event.moment, one, two, three, about(event.kind, 0, event.caller)]
}

/// Returns the words of new parameters, which are in their ranges.
pub(crate) fn change(event: &RawEvent, params: &Params) -> [u64; EVENT] {
    let (mut nine, mut bits) = ([0; 9], Bits::default());
    params.put(&mut nine);
    nine[8] = u64::from(nine[8].trailing_zeros());
    bits.put(u64::from(event.caller), 16);
    for (value, width) in nine.into_iter().zip(WIDTHS) {
        bits.put(value, width);
    }
    change_of(event.moment, bits.words)
}

/// Returns the words of new parameters at a moment: `bits` are the caller and then the parameters.
fn change_of(moment: u64, bits: [u64; 4]) -> [u64; EVENT] {
    let [first, one, two, three] = bits;
    [moment | first >> 61 << 60, one, two, three, about(PARAMS, 0, first as u16) | first >> 16 << 19]
}

/// Numbers, one after the other, from the lowest bit on.
#[derive(Default)]
struct Bits {
    words: [u64; 4],
    at: u32,
}

impl Bits {
    /// Returns the position of the next parameter, its word and its lowest bit, and moves to the position after it.
    fn step(&mut self, width: u32) -> (usize, u32) {
        let at = self.at;
        self.at += width;
        ((at / 64) as usize, at % 64)
    }

    fn put(&mut self, value: u64, width: u32) {
        let (word, shift) = self.step(width);
        self.words[word] |= value << shift;
        if shift + width > 64 {
            self.words[word + 1] |= value >> (64 - shift);
        }
    }

    #[cfg(feature = "std")]
    fn get(&mut self, width: u32) -> u64 {
        let (word, shift) = self.step(width);
        let above = if shift + width > 64 { self.words[word + 1] << (64 - shift) } else { 0 };
        (self.words[word] >> shift | above) & ((1 << width) - 1)
    }
}

/// Converts the words of an event of version 2 of the layout: the moment with the kind above; the caller in 16 bits, the
/// size in 16, the answer in 8 and the ECN field in 8; then as the words of this version. Parameters are the same bits.
#[cfg(feature = "std")]
pub(crate) fn from_2(words: [u64; EVENT]) -> [u64; EVENT] {
    let [first, one, two, three, four] = words;
    let (moment, kind) = (first & MAX_MOMENT, (first >> 60) as u8);
    if kind == PARAMS {
        return change_of(moment, [one, two, three, four]);
    }
    let size = (one >> 16 & 0xffff) | (one >> 32 & 0xff) << 32;
    [moment, two, three, if kind == UPDATE { four } else { size }, about(kind, (one >> 40) as u8, one as u16)]
}

/// Returns an event with these words, unless it is one of new parameters.
#[cfg(feature = "std")]
fn event_of(words: &[u64; EVENT]) -> RawEvent {
    let &[first, one, two, three, four] = words;
    let (moment, kind, caller) = (first & MAX_MOMENT, (four >> KIND & 7) as u8, four as u16);
    let event = RawEvent { moment, kind, caller, ..RawEvent::default() };
    if kind == UPDATE {
        return RawEvent { delay: one, prob: two, burst: three, ..event };
    }
    let (size, answer, ecn) = (three as u32, (three >> 32) as u32, (four >> ECN) as u8);
    let event = RawEvent { size, answer, ecn, ..event };
    match kind {
        ARRIVE => RawEvent { tag: one, word: two, ..event },
        DEPART if answer != NONE => RawEvent { tag: one, ..event },
        _ => event,
    }
}

/// Returns the record of the event with these words; `None` if there is none.
#[cfg(feature = "std")]
pub(crate) fn event_text(words: &[u64; EVENT]) -> Option<Text> {
    let event = event_of(words);
    match event.kind {
        PARAMS => {
            let (caller, params) = changed(words);
            Text::params(&RawEvent { caller, ..event_of(&[words[0], 0, 0, 0, about(PARAMS, 0, 0)]) }, &params)
        }
        LOST => None,
        _ => Text::event(&event),
    }
}

/// Returns the caller and the parameters of an event of new parameters.
#[cfg(feature = "std")]
fn changed(words: &[u64; EVENT]) -> (u16, Params) {
    let &[first, one, two, three, four] = words;
    let mut bits = Bits { words: [(four & 0xffff) | four >> 19 << 16 | first >> 60 << 61, one, two, three], at: 0 };
    let caller = bits.get(16) as u16;
    let mut nine = WIDTHS.map(|width| bits.get(width));
    nine[8] = 1 << nine[8];
    (caller, Params::take(&nine))
}

/// Returns the tag, size, ECN field and moment of arrival of the packet whose departure has these words; `None` for another event.
#[cfg(feature = "std")]
pub(crate) fn departed(words: &[u64; EVENT]) -> Option<(u64, u32, u8, u64)> {
    let event = event_of(words);
    (event.kind == DEPART).then_some((event.tag, event.size, event.ecn, words[2]))
}

/// Returns the tag, size, ECN field on departure and moment of arrival of a queued packet with these words; of version 2, they
/// are the tag, the moment, and the size with the ECN field above.
#[cfg(feature = "std")]
pub(crate) fn packet_of(words: &[u64]) -> Option<(u64, u32, u8, u64)> {
    match *words {
        [tag, since, size] => Some((tag, size as u32, (size >> 32) as u8, since)),
        [tag, since, size, about] => {
            let event = event_of(&[0, tag, 0, size, about]);
            Some((event.tag, event.size, if event.answer == MARK { CE } else { event.ecn }, since))
        }
        _ => None,
    }
}
