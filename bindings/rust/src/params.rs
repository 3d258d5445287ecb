//! The parameters.

use core::fmt;

use crate::library::{pie_check_params, pie_default_params, pie_params_for};

/// Parameters, in the order in which they are checked. The defaults are in parentheses: those of RFC 8033 if it has
/// one.
#[repr(C)]
#[derive(Clone, Copy, Debug, PartialEq, Eq, Hash)]
pub struct Params {
    /// The reference delay, 2 to 10^10 ns (15 ms; section 4.2).
    pub target: u64,
    /// The time between updates, 1 to 10^10 ns (15 ms; section 4.2).
    pub t_update: u64,
    /// The burst allowance, 0 to 10^12 ns (150 ms; section 4.4).
    pub max_burst: u64,
    /// The gain on the delay's distance from the target, 0 to 10^6 thousandths per second (125; section 4.2).
    pub alpha: u64,
    /// The gain on the delay's change, 0 to 10^6 thousandths per second (1250; section 4.2).
    pub beta: u64,
    /// The mean packet size, 1 to 65535 bytes (1024; section 4.1).
    pub mean_pkt: u64,
    /// The queue's limit, 1 to 2^30 bytes (262144). It has to be well above rate × target: see [`Params::for_rate`].
    pub limit_bytes: u64,
    /// Mark below this probability, 0 to 10^12 (10^11; section 5.1).
    pub mark_ecnth: u64,
    /// The bytes of a cycle of the departure rate, a power of two, 1024 to 65536 (16384; section 5.2).
    pub dq_threshold: u64,
}

/// One of the parameters.
#[derive(Clone, Copy, Debug, PartialEq, Eq, Hash)]
pub enum Parameter {
    /// `target`
    Target,
    /// `t_update`
    TUpdate,
    /// `max_burst`
    MaxBurst,
    /// `alpha`
    Alpha,
    /// `beta`
    Beta,
    /// `mean_pkt`
    MeanPkt,
    /// `limit_bytes`
    LimitBytes,
    /// `mark_ecnth`
    MarkEcnth,
    /// `dq_threshold`
    DqThreshold,
}

impl Parameter {
    /// Returns the parameter with this number, counted from 1 in the order of the fields.
    fn from_number(number: u32) -> Option<Parameter> {
        match number {
            1 => Some(Parameter::Target),
            2 => Some(Parameter::TUpdate),
            3 => Some(Parameter::MaxBurst),
            4 => Some(Parameter::Alpha),
            5 => Some(Parameter::Beta),
            6 => Some(Parameter::MeanPkt),
            7 => Some(Parameter::LimitBytes),
            8 => Some(Parameter::MarkEcnth),
            9 => Some(Parameter::DqThreshold),
            _ => None,
        }
    }

    /// Its name, as the field's.
    #[must_use]
    pub fn name(self) -> &'static str {
        match self {
            Parameter::Target => "target",
            Parameter::TUpdate => "t_update",
            Parameter::MaxBurst => "max_burst",
            Parameter::Alpha => "alpha",
            Parameter::Beta => "beta",
            Parameter::MeanPkt => "mean_pkt",
            Parameter::LimitBytes => "limit_bytes",
            Parameter::MarkEcnth => "mark_ecnth",
            Parameter::DqThreshold => "dq_threshold",
        }
    }
}

impl fmt::Display for Parameter {
    fn fmt(&self, f: &mut fmt::Formatter<'_>) -> fmt::Result {
        f.write_str(self.name())
    }
}

impl Params {
    /// All fields 0, which the library then writes over.
    pub(crate) const UNSET: Params = Params {
        target: 0,
        t_update: 0,
        max_burst: 0,
        alpha: 0,
        beta: 0,
        mean_pkt: 0,
        limit_bytes: 0,
        mark_ecnth: 0,
        dq_threshold: 0,
    };

    /// Returns the default parameters for a link of this rate, in bits per second. `limit_bytes` is 200 ms at that rate, at least
    /// 25000 and at most 2^30: 400 ms at 500 kbit/s, 86 ms at 100 Gbit/s. If the rate is 0, it is unknown, and `limit_bytes` has its
    /// default.
    #[must_use]
    pub fn for_rate(rate: u64) -> Params {
        let mut params = Params::UNSET;
        // SAFETY: as `library` says.
        unsafe { pie_params_for(rate, &mut params) };
        params
    }

    /// Returns the first parameter out of its range; `None` if each is in its range.
    #[must_use]
    pub fn first_bad(&self) -> Option<Parameter> {
        // SAFETY: as `library` says.
        Parameter::from_number(unsafe { pie_check_params(self) })
    }
}

impl Default for Params {
    fn default() -> Self {
        let mut params = Params::UNSET;
        // SAFETY: as `library` says.
        unsafe { pie_default_params(&mut params) };
        params
    }
}
