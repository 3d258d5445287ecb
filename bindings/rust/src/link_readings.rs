//! Registers and statistics of a link.

use core::mem::size_of;

use crate::{Params, Stats};

/// The registers of a link's controller and its queue after `count` events.
#[repr(C)]
#[derive(Clone, Copy, Debug, PartialEq, Eq, Hash)]
pub struct Registers {
    /// Number of events.
    pub count: u64,
    /// Effective moment: the greatest moment so far.
    pub moment: u64,
    /// Number of queued packets.
    pub packets: u64,
    /// Their bytes.
    pub bytes: u64,
    /// The probability of drop or mark.
    pub prob: u64,
    /// The delay at the last update.
    pub old_delay: u64,
    /// The accumulated probability.
    pub accu: u64,
    /// The burst allowance.
    pub burst: u64,
    /// The moment of the last update, or of the opening.
    pub last: u64,
    /// The moment from which the next update is not too soon.
    pub due: u64,
    /// Average time in which `dq_threshold` bytes depart; 0: no sample.
    pub average: u64,
    /// 1 while a departure rate cycle is open, otherwise 0.
    pub measuring: u64,
    /// 1 while the controller is active, otherwise 0.
    pub active: u64,
    /// The parameters in force.
    pub params: Params,
}

/// The statistics of a link's events.
#[repr(C)]
#[derive(Clone, Copy, Debug, Default, PartialEq, Eq, Hash)]
pub struct Totals {
    /// Number of events.
    pub count: u64,
    /// Their statistics.
    pub stats: Stats,
}

impl Registers {
    /// All fields 0, which the library then writes over.
    pub(crate) const UNSET: Registers = Registers {
        count: 0,
        moment: 0,
        packets: 0,
        bytes: 0,
        prob: 0,
        old_delay: 0,
        accu: 0,
        burst: 0,
        last: 0,
        due: 0,
        average: 0,
        measuring: 0,
        active: 0,
        params: Params::UNSET,
    };
}

const _: () = assert!(size_of::<Registers>() == 22 * 8 && size_of::<Totals>() == 17 * 8);
