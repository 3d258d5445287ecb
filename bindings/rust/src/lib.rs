//! PIE (RFC 8033), an active queue management algorithm, for a packet queue that the caller owns: safe Rust over the static
//! library `libpie_c.a`, whose calls are proved to follow the RFC's rules for all arguments.
//!
//! The caller has the packets, the clock and the random words. A [`State`] is a plain struct of numbers; no call allocates
//! memory, blocks or reads a clock. Moments and times are whole nanoseconds from a start that the caller chooses, by a clock
//! that never goes back, such as `std::time::Instant`. Probabilities are whole numbers of 10^-12. docs/LIBRARY.md describes
//! common mistakes.
//!
//! ```
//! use juniperbowls::{Ecn, Opening, State, Verdict};
//!
//! # fn main() -> Result<(), juniperbowls::Refusal> {
//! let mut pie = State::open(&Opening::for_rate(100_000_000))?;
//! // a packet of 1500 bytes arrives at 10 ns; 3000 bytes are queued, and the ring has room for 7 packets
//! let verdict = pie.arrive(3000, 1500, 7, Ecn::Ect0, 0x9e37_79b9_7f4a_7c15, 10)?;
//! assert_eq!(verdict, Verdict::Enqueue);
//! let arrived = pie.moment; // stored with the packet
//! // the packet departs at 25 ns, and 3000 bytes are still queued
//! pie.depart_waited(1500, 3000, arrived, 25)?;
//! // a timer is set to `due`
//! let updated = pie.update(3000, pie.due())?;
//! assert_eq!(updated.due, 30_000_000);
//! # Ok(())
//! # }
//! ```
//!
//! The library checks its arguments, so all requirements of a call are in its types: the crate is safe, and contains `unsafe`
//! only for the calls of the library.
//!
//! Each call has a form that also returns an [`Event`], whose text is a record of a history. With the feature `std` a `Recorder`
//! writes a history for `pie audit` and `pie explain`. A program that runs for months keeps the last events only, in a
//! [`Flight`] recorder.
//!
//! The crate needs Rust 1.82. Debian 13 has 1.85; Debian 12 has 1.63, so use rustup there.
//!
//! One thread at a time uses a [`State`]. With the feature `link`, which needs the library `libpie_link.a` too, several threads
//! share one controller through a `Link`, each with a `Port` of its own.
#![no_std]
#![deny(missing_docs)]
#![deny(unsafe_op_in_unsafe_fn)]

#[cfg(feature = "std")]
extern crate std;

mod event;
pub mod flight;
mod flight_event;
#[cfg(feature = "std")]
mod flight_text;
mod library;
#[cfg(feature = "link")]
mod link;
#[cfg(feature = "link")]
mod link_excerpt;
#[cfg(feature = "link")]
mod link_library;
#[cfg(feature = "link")]
mod link_readings;
#[cfg(feature = "link")]
mod link_refusal;
#[cfg(feature = "link")]
mod link_wait;
mod opening;
mod params;
#[cfg(feature = "std")]
mod recorder;
mod refusal;
mod state;
mod stats;

pub use event::{Event, Packet, ParamsEvent};
#[cfg(feature = "std")]
pub use flight::DumpFault;
pub use flight::{Flight, FlightRefusal};
#[cfg(feature = "link")]
pub use link::{Folded, Folds, Link, LinkUpdated, Port};
#[cfg(feature = "link")]
pub use link_excerpt::Excerpt;
#[cfg(feature = "link")]
pub use link_readings::{Registers, Totals};
#[cfg(feature = "link")]
pub use link_refusal::LinkRefusal;
pub use opening::{Mode, Opening};
pub use params::{Parameter, Params};
#[cfg(feature = "std")]
pub use recorder::Recorder;
pub use refusal::Refusal;
pub use state::{Choices, Ecn, Profile, State, Updated, Verdict};
pub use stats::Stats;

/// The version of this crate and of the library.
pub const VERSION: &str = env!("CARGO_PKG_VERSION");

/// The latest moment, 2^60 - 1 ns.
pub const MAX_MOMENT: u64 = (1 << 60) - 1;

/// The probability 1: 10^12.
pub const ONE: u64 = 1_000_000_000_000;

/// The greatest `limit_bytes`, and the most bytes in a queue: 2^30.
pub const MAX_BYTES: u64 = 1 << 30;

/// The greatest size of a packet, in bytes.
pub const MAX_SIZE: u32 = 65_535;
