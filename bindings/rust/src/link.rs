//! A link: one controller with its queue and its event log, which several threads call.

use core::fmt;
use core::sync::atomic::{AtomicU64, Ordering};
use std::io::{self, Write};
use std::vec::Vec;

use crate::library::RawEvent;
use crate::link_library::{
    RawPort, pie_link_close_port, pie_link_gather_ports, pie_link_open_port, pie_link_share_port, pie_link_try_arrive, pie_link_try_arrive_all,
    pie_link_try_depart, pie_link_try_depart_all, pie_link_try_fold, pie_link_try_registers, pie_link_try_reset, pie_link_try_set_params,
    pie_link_try_stats, pie_link_try_update,
};
use crate::link_readings::{Registers, Totals};
use crate::link_refusal::{link_done, link_done_with, link_refusal};
use crate::link_wait::until_served;
use crate::{Ecn, Event, LinkRefusal, Opening, Packet, Params, ParamsEvent, Recorder, Verdict};

/// The return code of a departure that found no packet.
const NONE: u32 = 5;

/// The kinds of an update, and of an event that sets parameters.
const UPDATE: u8 = 3;
const SETS: u8 = 5;

/// The most events of one fold.
const MOST: usize = 64;

/// Number of links opened so far; each link has a number.
static LINKS: AtomicU64 = AtomicU64::new(0);

/// A link: one controller with its queue and its event log, shared by several threads, each with a [`Port`] of its own. The link
/// stores the names of packets, `tag`, in the order of the queue; the caller stores the packets.
///
/// Proved of the library `libpie_link.a`, for all interleavings of any number of threads: while no port has the turn, all events
/// form one history. It contains the calls of each port exactly once and in the port's order, and every result is RFC 8033's at its
/// place. A bounded link ([`Mode::Bounded`](crate::Mode::Bounded)) loses no event. A rolling link, the default, discards its oldest
/// event when its log is full; [`Folds::first_number`] shows the gap. Not proved: this crate; the waiting calls, which are loops over
/// the others; and that a waiting call gets its turn. That calls of several ports may run concurrently is trusted, as
/// docs/PROMISES.md says.
///
/// ```
/// use juniperbowls::{Ecn, Link, Opening, Packet, Verdict};
///
/// # fn main() -> Result<(), Box<dyn std::error::Error>> {
/// let [mut sender, mut link] = Link::ports(&Opening::for_link(100_000_000))?;
/// let sends = std::thread::spawn(move || {
///     let packet = Packet { tag: 7, size: 1500, ecn: Ecn::Ect0 };
///     sender.arrive(packet, 0x9e37_79b9_7f4a_7c15, 10)
/// });
/// assert_eq!(sends.join().unwrap()?, Verdict::Enqueue);
/// let packet = link.depart(25)?.ok_or("no packet waits")?;
/// assert_eq!((packet.tag, link.depart(26)?), (7, None));
/// let records = link.fold()?.map(|event| event.to_string()).collect::<Vec<_>>();
/// assert_eq!(records[0], "arrive,0,10,7,1500,ect0,11400714819323198485,enqueue");
/// # Ok(())
/// # }
/// ```
#[derive(Debug)]
pub struct Link(());

/// A handle of a [`Link`] with one or more caller numbers; its events have the least of them. One thread at a time uses it, and it may
/// move to another. When it is dropped, its numbers are not used again and its events stay in the history; the last port of a link
/// frees it.
///
/// A call whose name has `try` never waits: it returns [`LinkRefusal::Busy`] if another port has the turn, and nothing has changed. The
/// other calls try again until they get their turn: after a pause, then after yielding the processor, then after a sleep of at most one
/// millisecond.
///
/// ```compile_fail
/// fn is_shared<T: Sync>() {}
/// is_shared::<juniperbowls::Port>();
/// ```
#[derive(Debug)]
pub struct Port {
    raw: RawPort,
    /// The number of its link.
    link: u64,
}

// SAFETY: the library's proof shows that the memory of a port may be passed to another thread; no call keeps anything of its thread.
unsafe impl Send for Port {}

impl Drop for Port {
    fn drop(&mut self) {
        // SAFETY: as `link_library` says. A port that was gathered is closed already, which is then answered.
        unsafe { pie_link_close_port(&mut self.raw) };
    }
}

/// The result of an update at a link.
#[derive(Clone, Copy, Debug, PartialEq, Eq, Hash)]
pub struct LinkUpdated {
    /// The queueing delay that it used, in ns (section 5.2); 0 while the controller is inactive.
    pub delay: u64,
    /// The probability after it.
    pub prob: u64,
    /// The burst allowance after it, in ns.
    pub burst: u64,
}

/// An event of the log, returned by a fold. Its text, by `Display`, is its record in a history.
#[derive(Clone, Copy, Debug, PartialEq, Eq, Hash)]
pub enum Folded {
    /// Any event but new parameters.
    Event(Event),
    /// New parameters.
    Params(ParamsEvent),
}

impl Folded {
    /// Writes its record into a history.
    ///
    /// # Errors
    /// Those of [`Recorder::record`].
    pub fn record<W: Write>(&self, history: &mut Recorder<W>) -> io::Result<()> {
        match self {
            Folded::Event(event) => history.record(event),
            Folded::Params(event) => history.record_params(event),
        }
    }
}

impl fmt::Display for Folded {
    fn fmt(&self, f: &mut fmt::Formatter<'_>) -> fmt::Result {
        match self {
            Folded::Event(event) => event.fmt(f),
            Folded::Params(event) => event.fmt(f),
        }
    }
}

/// The events that one fold returned, oldest first.
#[derive(Clone, Debug)]
pub struct Folds {
    events: [RawEvent; MOST],
    at: usize,
    count: usize,
    last: u64,
    params: Params,
}

/// The numbers of the events, counted from 1 for the first event of the history.
///
/// ```
/// use juniperbowls::{Link, Opening};
///
/// # fn main() -> Result<(), Box<dyn std::error::Error>> {
/// let opening = Opening { tail: 2, ..Opening::for_link(100_000_000) };
/// let mut port = Link::open(&opening, 1)?;
/// for moment in 0..5 {
///     port.reset(moment)?;
/// }
/// let written = 0; // the number of the last event that this thread has written
/// let folds = port.fold()?;
/// assert_eq!((folds.first_number(), folds.last_number()), (4, 5));
/// assert_eq!(folds.first_number() - 1 - written, 3); // events that no fold returned
/// # Ok(())
/// # }
/// ```
impl Folds {
    /// Returns the number of the first event that the fold returned. If it is not one more than the last number of the fold before, events are
    /// missing between the two: a rolling link dropped them, or another port folded them.
    #[must_use]
    pub fn first_number(&self) -> u64 {
        self.last - self.count as u64 + 1
    }

    /// Returns the number of the last event that the fold returned.
    #[must_use]
    pub fn last_number(&self) -> u64 {
        self.last
    }
}

impl Iterator for Folds {
    type Item = Folded;

    fn next(&mut self) -> Option<Folded> {
        let raw = *self.events[..self.count].get(self.at)?;
        self.at += 1;
        let event = Event::of_raw(raw);
        Some(if raw.kind == SETS { Folded::Params(ParamsEvent::of_raw(event, self.params)) } else { Folded::Event(event) })
    }
}

/// The events of a burst: arguments, and after the call results.
impl Event {
    /// Returns an arrival; `word` is random.
    #[must_use]
    pub fn arrival(packet: Packet, word: u64, moment: u64) -> Event {
        let Packet { tag, size, ecn } = packet;
        Event::of_raw(RawEvent { moment, tag, word, size, ecn: ecn as u8, ..RawEvent::default() })
    }

    /// Returns a departure.
    #[must_use]
    pub fn departure(moment: u64) -> Event {
        Event::of_raw(RawEvent { moment, ..RawEvent::default() })
    }

    /// Returns an update, for a burst of either kind.
    #[must_use]
    pub fn update(moment: u64) -> Event {
        Event::of_raw(RawEvent { moment, kind: UPDATE, ..RawEvent::default() })
    }

    /// Returns the verdict of an arrival.
    ///
    /// # Errors
    /// The error of the arrival.
    pub fn verdict(&self) -> Result<Verdict, LinkRefusal> {
        let code = self.raw().answer;
        Verdict::of(code).map_err(|_| link_refusal(code))
    }

    /// Returns the packet that departed, if one did.
    ///
    /// # Errors
    /// The refusal of the departure.
    pub fn departed(&self) -> Result<Option<Packet>, LinkRefusal> {
        packet_of(self.raw().answer, self.raw())
    }
}

/// Returns the packet that departed.
fn packet_of(code: u32, event: &RawEvent) -> Result<Option<Packet>, LinkRefusal> {
    match code {
        0 => Ok(Some(Packet { tag: event.tag, size: event.size, ecn: Ecn::of(event.ecn) })),
        NONE => Ok(None),
        code => Err(link_refusal(code)),
    }
}

impl Opening {
    /// Returns the opening of a link of this rate, in bits a second: that of [`Opening::for_rate`], but with fewer `packets`, since memory and the
    /// longest turn grow with them. The queue has room for four times the packets of mean size that `limit_bytes` holds, from 1024 to 2^20.
    #[must_use]
    pub fn for_link(rate: u64) -> Opening {
        let usual = Opening::for_rate(rate);
        let packets = 4 * usual.params.limit_bytes / usual.params.mean_pkt;
        Opening { packets: packets.min(usual.packets), ..usual }
    }
}

impl Link {
    /// Opens a link with an empty queue, and the port with all its numbers, 0 to `callers` - 1.
    ///
    /// # Errors
    /// In this order: the errors of [`State::open`](crate::State::open), `NoCallers`, `NoMemory`.
    pub fn open(opening: &Opening, callers: u16) -> Result<Port, LinkRefusal> {
        let mut port = Port { raw: RawPort::CLOSED, link: LINKS.fetch_add(1, Ordering::Relaxed) };
        let raw = opening.raw();
        // SAFETY: as `link_library` says.
        link_done_with(unsafe { pie_link_open_port(&raw, callers, &mut port.raw) }, &opening.params)?;
        Ok(port)
    }

    /// Opens a link and N ports of one caller number each, in the order of their numbers; N is 1 to 65535.
    ///
    /// # Errors
    /// Those of [`Link::open`].
    pub fn ports<const PORTS: usize>(opening: &Opening) -> Result<[Port; PORTS], LinkRefusal> {
        const { assert!(PORTS >= 1 && PORTS <= u16::MAX as usize, "a link has 1 to 65535 callers") }
        let mut first = Link::open(opening, PORTS as u16)?;
        let mut ports = (1..PORTS).map(|_| first.share()).collect::<Result<Vec<_>, _>>()?;
        ports.push(first);
        ports.reverse();
        ports.try_into().map_err(|_| LinkRefusal::NoCallers)
    }
}

impl Port {
    /// Returns the port in the form of the library.
    pub(crate) fn raw(&mut self) -> &mut RawPort {
        &mut self.raw
    }

    /// Returns a new port with the highest number of this one.
    ///
    /// # Errors
    /// In this order: `OneNumber`, `NoMemory`. The number then stays with this port.
    pub fn share(&mut self) -> Result<Port, LinkRefusal> {
        let mut added = Port { raw: RawPort::CLOSED, link: self.link };
        // SAFETY: as `link_library` says.
        link_done(unsafe { pie_link_share_port(&mut self.raw, &mut added.raw) })?;
        Ok(added)
    }

    /// Takes the numbers of another port of this link.
    ///
    /// # Errors
    /// The other port, if it is of another link, or if the ports' number ranges are not adjacent.
    pub fn gather(&mut self, mut other: Port) -> Result<(), Port> {
        // SAFETY: as `link_library` says. The library gets two ports of one link, as it requires.
        if self.link == other.link && unsafe { pie_link_gather_ports(&mut self.raw, &mut other.raw) } == 0 { Ok(()) } else { Err(other) }
    }

    /// Decides the arrival of a packet. `word` is random; all numbers are equally likely. The packet is queued by [`Verdict::Enqueue`]
    /// and [`Verdict::Mark`].
    ///
    /// # Errors
    /// In this order: `Busy`; `Refused` by `Moment` or `Size`; `Exhausted`, `Full`.
    pub fn try_arrive(&mut self, packet: Packet, word: u64, moment: u64) -> Result<Verdict, LinkRefusal> {
        let Packet { tag, size, ecn } = packet;
        let mut event = RawEvent { moment, tag, word, size, ecn: ecn as u8, ..RawEvent::default() };
        // SAFETY: as `link_library` says.
        let code = unsafe { pie_link_try_arrive(&mut self.raw, &mut event) };
        Verdict::of(code).map_err(|_| link_refusal(code))
    }

    /// Makes a departure: returns the next packet, with [`Ecn::Ce`] if it was marked, or `None` if the queue is empty.
    ///
    /// # Errors
    /// In this order: `Busy`; `Refused` by `Moment`; `Exhausted`, `Full`.
    pub fn try_depart(&mut self, moment: u64) -> Result<Option<Packet>, LinkRefusal> {
        let mut event = RawEvent { moment, ..RawEvent::default() };
        // SAFETY: as `link_library` says.
        let code = unsafe { pie_link_try_depart(&mut self.raw, &mut event) };
        packet_of(code, &event)
    }

    /// Updates probability and burst allowance.
    ///
    /// # Errors
    /// In this order: `Busy`; `Refused` by `Moment`; `TooSoon`, `Exhausted`, `Full`.
    pub fn try_update(&mut self, moment: u64) -> Result<LinkUpdated, LinkRefusal> {
        let mut event = RawEvent { moment, ..RawEvent::default() };
        // SAFETY: as `link_library` says.
        link_done(unsafe { pie_link_try_update(&mut self.raw, &mut event) })?;
        Ok(LinkUpdated { delay: event.delay, prob: event.prob, burst: event.burst })
    }

    /// Resets the probability, the delays and the rate estimate.
    ///
    /// # Errors
    /// Those of [`Port::try_depart`].
    pub fn try_reset(&mut self, moment: u64) -> Result<(), LinkRefusal> {
        let mut event = RawEvent { moment, ..RawEvent::default() };
        // SAFETY: as `link_library` says.
        link_done(unsafe { pie_link_try_reset(&mut self.raw, &mut event) })
    }

    /// Sets new parameters, in force from the next event on.
    ///
    /// # Errors
    /// In this order: `Refused` by `Params`; `Busy`; `Refused` by `Moment`; `Exhausted`, `Full`.
    pub fn try_set_params(&mut self, params: &Params, moment: u64) -> Result<(), LinkRefusal> {
        let mut event = RawEvent { moment, ..RawEvent::default() };
        // SAFETY: as `link_library` says.
        link_done_with(unsafe { pie_link_try_set_params(&mut self.raw, params, &mut event) }, params)
    }

    /// Decides the arrivals one after another in one turn, with no event of another port between them. Each event
    /// receives its own result or error. An error does not end the burst.
    ///
    /// # Errors
    /// `Busy`; the events are then unchanged.
    pub fn try_arrive_all(&mut self, events: &mut [Event]) -> Result<(), LinkRefusal> {
        // SAFETY: as `link_library` says; an event is a `RawEvent`, and no more.
        link_done(unsafe { pie_link_try_arrive_all(&mut self.raw, events.as_mut_ptr().cast(), events.len()) })
    }

    /// Removes packets from the queue one after another in one turn. Returns the number of events with a result.
    /// The burst ends after the last event; after a departure from an empty queue; after an update with an error
    /// other than too soon; and before a packet with more bytes than remain of `bytes` (`u64::MAX` for no limit).
    ///
    /// # Errors
    /// `Busy`; the events are then unchanged.
    pub fn try_depart_all(&mut self, bytes: u64, events: &mut [Event]) -> Result<usize, LinkRefusal> {
        let mut made = 0;
        // SAFETY: as `link_library` says; an event is a `RawEvent`, and no more.
        link_done(unsafe { pie_link_try_depart_all(&mut self.raw, bytes, events.as_mut_ptr().cast(), events.len(), &mut made) })?;
        Ok(made)
    }

    /// Removes the oldest events from the log and returns them: at least one, at most 64. All folds of a link
    /// together, in order, return its history; if the link is bounded ([`Mode::Bounded`](crate::Mode::Bounded)), no
    /// event is missing.
    ///
    /// # Errors
    /// In this order: `Busy`, `NoEvent`.
    pub fn try_fold(&mut self) -> Result<Folds, LinkRefusal> {
        let mut folds = Folds { events: [RawEvent::default(); MOST], at: 0, count: 0, last: 0, params: Params::UNSET };
        let Folds { events, count, last, params, .. } = &mut folds;
        // SAFETY: as `link_library` says.
        link_done(unsafe { pie_link_try_fold(&mut self.raw, events.as_mut_ptr(), MOST, count, last, params) })?;
        Ok(folds)
    }

    /// Returns the registers of the controller and its queue.
    ///
    /// # Errors
    /// `Busy`.
    pub fn try_registers(&mut self) -> Result<Registers, LinkRefusal> {
        let mut registers = Registers::UNSET;
        // SAFETY: as `link_library` says.
        link_done(unsafe { pie_link_try_registers(&mut self.raw, &mut registers) })?;
        Ok(registers)
    }

    /// Returns the statistics of all events.
    ///
    /// # Errors
    /// `Busy`.
    pub fn try_stats(&mut self) -> Result<Totals, LinkRefusal> {
        let mut totals = Totals::default();
        // SAFETY: as `link_library` says.
        link_done(unsafe { pie_link_try_stats(&mut self.raw, &mut totals) })?;
        Ok(totals)
    }
}

/// The calls that wait while another port has the turn. Each returns the result of the call of its name with `try`, but never `Busy`.
impl Port {
    /// Waits for the turn, then calls [`Port::try_arrive`].
    ///
    /// # Errors
    /// Those of that call, except `Busy`.
    pub fn arrive(&mut self, packet: Packet, word: u64, moment: u64) -> Result<Verdict, LinkRefusal> {
        until_served(|| self.try_arrive(packet, word, moment))
    }

    /// Waits for the turn, then calls [`Port::try_depart`].
    ///
    /// # Errors
    /// Those of that call, except `Busy`.
    pub fn depart(&mut self, moment: u64) -> Result<Option<Packet>, LinkRefusal> {
        until_served(|| self.try_depart(moment))
    }

    /// Waits for the turn, then calls [`Port::try_update`].
    ///
    /// # Errors
    /// Those of that call, except `Busy`.
    pub fn update(&mut self, moment: u64) -> Result<LinkUpdated, LinkRefusal> {
        until_served(|| self.try_update(moment))
    }

    /// Waits for the turn, then calls [`Port::try_reset`].
    ///
    /// # Errors
    /// Those of that call, except `Busy`.
    pub fn reset(&mut self, moment: u64) -> Result<(), LinkRefusal> {
        until_served(|| self.try_reset(moment))
    }

    /// Waits for the turn, then calls [`Port::try_set_params`].
    ///
    /// # Errors
    /// Those of that call, except `Busy`.
    pub fn set_params(&mut self, params: &Params, moment: u64) -> Result<(), LinkRefusal> {
        until_served(|| self.try_set_params(params, moment))
    }

    /// Waits for the turn, then calls [`Port::try_arrive_all`].
    pub fn arrive_all(&mut self, events: &mut [Event]) {
        // (it is refused as busy alone)
        let _ = until_served(|| self.try_arrive_all(events));
    }

    /// Waits for the turn, then calls [`Port::try_depart_all`].
    pub fn depart_all(&mut self, bytes: u64, events: &mut [Event]) -> usize {
        // (it is refused as busy alone)
        until_served(|| self.try_depart_all(bytes, events)).unwrap_or(0)
    }

    /// Waits for the turn, then calls [`Port::try_fold`].
    ///
    /// # Errors
    /// Those of that call, except `Busy`.
    pub fn fold(&mut self) -> Result<Folds, LinkRefusal> {
        until_served(|| self.try_fold())
    }

    /// Waits for the turn, then calls [`Port::try_registers`].
    ///
    /// # Errors
    /// None: those of that call, except `Busy`.
    pub fn registers(&mut self) -> Result<Registers, LinkRefusal> {
        until_served(|| self.try_registers())
    }

    /// Waits for the turn, then calls [`Port::try_stats`].
    ///
    /// # Errors
    /// None: those of that call, except `Busy`.
    pub fn stats(&mut self) -> Result<Totals, LinkRefusal> {
        until_served(|| self.try_stats())
    }
}
