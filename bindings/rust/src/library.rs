//! Declarations of the library. `crates/pie_c/src` has the functions; `tests/libraries/header.py` compares the
//! declarations with them.

use core::mem::{align_of, offset_of, size_of};

use crate::{Params, State, Stats};

/// The return value of `pie_update`.
#[repr(C)]
pub(crate) struct RawUpdated {
    pub(crate) code: u64,
    pub(crate) due: u64,
    pub(crate) delay: u64,
    pub(crate) prob: u64,
    pub(crate) burst: u64,
}

/// The arguments and the result of a call.
#[repr(C)]
#[derive(Clone, Copy, Debug, Default, PartialEq, Eq, Hash)]
pub(crate) struct RawEvent {
    pub(crate) moment: u64,
    pub(crate) tag: u64,
    pub(crate) word: u64,
    pub(crate) delay: u64,
    pub(crate) prob: u64,
    pub(crate) burst: u64,
    pub(crate) size: u32,
    pub(crate) answer: u32,
    pub(crate) caller: u16,
    pub(crate) kind: u8,
    pub(crate) ecn: u8,
    pub(crate) reserved: u32,
}

/// The configuration of a new controller.
#[repr(C)]
#[derive(Clone, Copy, Debug, PartialEq, Eq)]
pub(crate) struct RawOpening {
    /// The parameters.
    pub(crate) params: Params,
    /// The moment of the opening, at most 2^60 - 1 ns (0).
    pub(crate) moment: u64,
    /// The number of the profile.
    pub(crate) profile: u64,
    /// The flags of the optional elements, at most 31 (1).
    pub(crate) choices: u64,
    /// The number of the mode.
    pub(crate) mode: u64,
    /// The packets that the queue holds, 1 to 2^20 (2^20).
    pub(crate) packets: u64,
    /// The events that the log holds, 1 to 2^20 (1024).
    pub(crate) tail: u64,
    /// The events in all, 1 to 2^47 (2^47).
    pub(crate) events: u64,
}

impl RawOpening {
    /// All fields 0, which the library then writes over.
    pub(crate) const UNSET: RawOpening =
        RawOpening { params: Params::UNSET, moment: 0, profile: 0, choices: 0, mode: 0, packets: 0, tail: 0, events: 0 };
}

// SAFETY, of each call of these: the declarations are the library's, the references live for the call, and none overlaps another.
unsafe extern "C" {
    pub(crate) fn pie_default_params(params: &mut Params);
    pub(crate) fn pie_check_params(params: &Params) -> u32;
    pub(crate) fn pie_params_for(rate: u64, params: &mut Params);
    pub(crate) fn pie_default_opening(opening: &mut RawOpening, rate: u64);
    pub(crate) fn pie_open(state: &mut State, opening: &RawOpening) -> u32;
    pub(crate) fn pie_arrive(
        state: &mut State,
        queued: u64,
        size: u32,
        room: u32,
        ecn: u32,
        word: u64,
        moment: u64,
    ) -> u32;
    pub(crate) fn pie_depart(state: &mut State, size: u32, left: u64, moment: u64) -> u32;
    pub(crate) fn pie_depart_waited(state: &mut State, size: u32, left: u64, arrived: u64, moment: u64) -> u32;
    pub(crate) fn pie_empty(state: &mut State, moment: u64) -> u32;
    pub(crate) fn pie_due(state: &State) -> u64;
    pub(crate) fn pie_update(state: &mut State, queued: u64, moment: u64) -> RawUpdated;
    pub(crate) fn pie_reset(state: &mut State, moment: u64) -> u32;
    pub(crate) fn pie_set_params(state: &mut State, params: &Params, moment: u64) -> u32;
    pub(crate) fn pie_arrive_event(state: &mut State, queued: u64, room: u32, event: &mut RawEvent) -> u32;
    pub(crate) fn pie_depart_event(state: &mut State, left: u64, arrived: u64, event: &mut RawEvent) -> u32;
    pub(crate) fn pie_empty_event(state: &mut State, event: &mut RawEvent) -> u32;
    pub(crate) fn pie_update_event(state: &mut State, queued: u64, event: &mut RawEvent) -> u32;
    pub(crate) fn pie_reset_event(state: &mut State, event: &mut RawEvent) -> u32;
    pub(crate) fn pie_set_params_event(state: &mut State, params: &Params, event: &mut RawEvent) -> u32;
    pub(crate) fn pie_write_event(event: &RawEvent, out: *mut u8, room: usize) -> usize;
    pub(crate) fn pie_write_params(event: &RawEvent, params: &Params, out: *mut u8, room: usize) -> usize;
    #[cfg(feature = "std")]
    pub(crate) fn pie_write_opening(opening: &RawOpening, out: *mut u8, room: usize) -> usize;
    #[cfg(feature = "std")]
    pub(crate) fn pie_write_refused(record: u64, code: u32, out: *mut u8, room: usize) -> usize;
    #[cfg(feature = "std")]
    pub(crate) fn pie_write_clock(moment: u64, unix_time: u64, out: *mut u8, room: usize) -> usize;
    #[cfg(feature = "std")]
    pub(crate) fn pie_write_lost(count: u64, out: *mut u8, room: usize) -> usize;
    pub(crate) fn pie_check_state(state: &State) -> u32;
    pub(crate) fn pie_write_resume(
        opening: &RawOpening,
        state: &State,
        stats: &Stats,
        count: u64,
        set_by: u64,
        packets: u64,
        bytes: u64,
        out: *mut u8,
        room: usize,
    ) -> usize;
    #[cfg(feature = "std")]
    pub(crate) fn pie_write_queued(tag: u64, size: u32, ecn: u32, since: u64, out: *mut u8, room: usize) -> usize;
}

/// A struct of 64-bit words.
pub(crate) trait Words: Sized {
    /// Writes its words to the beginning of `to`.
    fn put(&self, to: &mut [u64]);

    /// Reads its words from the beginning of `from`.
    #[cfg(feature = "std")]
    fn take(from: &[u64]) -> Self;
}

impl Words for u64 {
    fn put(&self, to: &mut [u64]) {
        to[0] = *self;
    }

    #[cfg(feature = "std")]
    fn take(from: &[u64]) -> u64 {
        from[0]
    }
}

/// Checks that each field of a struct begins at the word with this number. Returns the words.
macro_rules! words {
    ($kind:ident, $count:expr, $($field:ident = $number:expr),+) => {
        const _: () = {
            assert!(size_of::<$kind>() == 8 * $count && align_of::<$kind>() == 8);
            $(assert!(offset_of!($kind, $field) == 8 * $number);)+
        };

        impl Words for $kind {
            #[inline]
            fn put(&self, to: &mut [u64]) {
                $(self.$field.put(&mut to[$number..]);)+
            }

            #[cfg(feature = "std")]
            fn take(from: &[u64]) -> $kind {
                $kind { $($field: Words::take(&from[$number..])),+ }
            }
        }
    };
}

words!(
    Params, 9, target = 0, t_update = 1, max_burst = 2, alpha = 3, beta = 4, mean_pkt = 5, limit_bytes = 6, mark_ecnth = 7,
    dq_threshold = 8
);
words!(
    State, 23, params = 0, moment = 9, prob = 10, old_delay = 11, burst = 12, last = 13, accu = 14, average = 15, measuring = 16,
    cycle_start = 17, cycle_count = 18, profile = 19, active = 20, choices = 21, waited = 22
);
words!(RawOpening, 16, params = 0, moment = 9, profile = 10, choices = 11, mode = 12, packets = 13, tail = 14, events = 15);
words!(
    Stats, 16, arrivals = 0, enqueued = 1, marked = 2, early = 3, over_bytes = 4, over_packets = 5, left = 6, left_bytes = 7, empty = 8,
    updates = 9, resets = 10, changes = 11, largest_queue = 12, largest_delay = 13, waited = 14, waited_high = 15
);
words!(RawUpdated, 5, code = 0, due = 1, delay = 2, prob = 3, burst = 4);
const _: () = {
    assert!(size_of::<RawEvent>() == 64 && align_of::<RawEvent>() == 8);
    assert!(offset_of!(RawEvent, burst) == 40 && offset_of!(RawEvent, size) == 48 && offset_of!(RawEvent, answer) == 52);
    assert!(offset_of!(RawEvent, caller) == 56 && offset_of!(RawEvent, kind) == 58 && offset_of!(RawEvent, ecn) == 59);
    assert!(offset_of!(RawEvent, reserved) == 60);
};
