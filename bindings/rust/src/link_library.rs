//! Declarations of the link's library. `crates/pie_link_c/src` has the functions; `tests/libraries/header.py`
//! compares the declarations with them.

use core::ffi::c_void;
use core::ptr::null_mut;

use crate::library::{RawEvent, RawOpening};
use crate::link_readings::{Registers, Totals};
use crate::Params;

/// A port in the form of the library: a pointer, which is null if the port is closed. It is moved, and never copied.
#[repr(C)]
#[derive(Debug)]
pub(crate) struct RawPort {
    at: *mut c_void,
}

impl RawPort {
    /// A closed port.
    pub(crate) const CLOSED: RawPort = RawPort { at: null_mut() };
}

/// An excerpt as the library holds it: as a port.
#[repr(C)]
#[derive(Debug)]
pub(crate) struct RawExcerpt {
    at: *mut c_void,
}

impl RawExcerpt {
    /// A closed excerpt.
    pub(crate) const CLOSED: RawExcerpt = RawExcerpt { at: null_mut() };
}

// SAFETY of each of these calls: the declarations are those of the library; the references are valid for the call;
// `events` has `count` events; no arguments overlap. A port or an excerpt is passed by an exclusive reference, and
// safe Rust orders memory when it moves to another thread.
unsafe extern "C" {
    pub(crate) fn pie_link_open_port(opening: &RawOpening, callers: u16, port: &mut RawPort) -> u32;
    pub(crate) fn pie_link_share_port(port: &mut RawPort, added: &mut RawPort) -> u32;
    pub(crate) fn pie_link_gather_ports(port: &mut RawPort, other: &mut RawPort) -> u32;
    pub(crate) fn pie_link_close_port(port: &mut RawPort) -> u32;
    pub(crate) fn pie_link_try_arrive(port: &mut RawPort, event: &mut RawEvent) -> u32;
    pub(crate) fn pie_link_try_depart(port: &mut RawPort, event: &mut RawEvent) -> u32;
    pub(crate) fn pie_link_try_update(port: &mut RawPort, event: &mut RawEvent) -> u32;
    pub(crate) fn pie_link_try_reset(port: &mut RawPort, event: &mut RawEvent) -> u32;
    pub(crate) fn pie_link_try_set_params(port: &mut RawPort, params: &Params, event: &mut RawEvent) -> u32;
    pub(crate) fn pie_link_try_arrive_all(port: &mut RawPort, events: *mut RawEvent, count: usize) -> u32;
    pub(crate) fn pie_link_try_depart_all(port: &mut RawPort, bytes: u64, events: *mut RawEvent, count: usize, made: &mut usize) -> u32;
    pub(crate) fn pie_link_try_fold(
        port: &mut RawPort,
        events: *mut RawEvent,
        count: usize,
        folded: &mut usize,
        last: &mut u64,
        params: &mut Params,
    ) -> u32;
    pub(crate) fn pie_link_try_registers(port: &mut RawPort, registers: &mut Registers) -> u32;
    pub(crate) fn pie_link_try_stats(port: &mut RawPort, totals: &mut Totals) -> u32;
    pub(crate) fn pie_link_open_excerpt(opening: &RawOpening, excerpt: &mut RawExcerpt) -> u32;
    pub(crate) fn pie_link_try_excerpt(port: &mut RawPort, excerpt: &mut RawExcerpt) -> u32;
    pub(crate) fn pie_link_write_excerpt(excerpt: &mut RawExcerpt, out: *mut u8, room: usize) -> usize;
    pub(crate) fn pie_link_close_excerpt(excerpt: &mut RawExcerpt) -> u32;
}
