//! A history that is written as events come.

use std::io::{self, Write};

use crate::event::Text;
use crate::library::{pie_write_clock, pie_write_lost, pie_write_opening, pie_write_refused};
use crate::{Event, Opening, ParamsEvent};

impl Text {
    /// Returns the record of the opening of a history.
    fn opening(opening: &Opening) -> Option<Text> {
        let opening = opening.raw();
        // SAFETY: as `library` says, and `out` has `room` bytes.
        Text::of(|out, room| unsafe { pie_write_opening(&opening, out, room) })
    }

    /// Returns the record of a refusal of the record with this number, with this code; `None` for a code that histories do not have.
    fn refused(record: u64, code: u32) -> Option<Text> {
        // SAFETY: as `library` says, and `out` has `room` bytes.
        Text::of(|out, room| unsafe { pie_write_refused(record, code, out, room) })
    }

    /// Returns the record of the wall-clock time at this moment; `None` if the moment is above 2^60 - 1.
    pub(crate) fn clock(moment: u64, unix_time: u64) -> Option<Text> {
        // SAFETY: as `library` says, and `out` has `room` bytes.
        Text::of(|out, room| unsafe { pie_write_clock(moment, unix_time, out, room) })
    }

    /// Reports this many missing events.
    pub(crate) fn lost(count: u64) -> Option<Text> {
        // SAFETY: as `library` says, and `out` has `room` bytes.
        Text::of(|out, room| unsafe { pie_write_lost(count, out, room) })
    }
}

/// Writes a history, which `pie audit` decides again and `pie explain` explains: the opening, and then each event in its order.
///
/// ```
/// use juniperbowls::{Ecn, Opening, Packet, Recorder, State};
///
/// # fn main() -> Result<(), Box<dyn std::error::Error>> {
/// let opening = Opening { packets: 1000, ..Opening::for_rate(100_000_000) };
/// let mut pie = State::open(&opening)?;
/// let mut history = Recorder::open(Vec::new(), &opening)?;
///
/// let packet = Packet { tag: 7, size: 1500, ecn: Ecn::Ect0 };
/// let (event, verdict) = pie.arrive_event(0, 1000, packet, 0x9e37_79b9_7f4a_7c15, 1, 10);
/// history.record(&event)?;
/// assert!(verdict?.is_queued());
/// assert_eq!(event.to_string(), "arrive,1,10,7,1500,ect0,11400714819323198485,enqueue");
///
/// let text = String::from_utf8(history.into_inner())?;
/// assert!(text.starts_with("open3,1,stamp,derandomized,capped,unscaled,rolling,0,1000,1024,140737488355328,15000000,"));
/// assert_eq!(text.lines().count(), 2);
/// # Ok(())
/// # }
/// ```
#[derive(Debug)]
pub struct Recorder<W: Write> {
    out: W,
    /// True if the history is of version three, which has clock records.
    has_clock: bool,
    records: u64,
    untold: u64,
}

impl<W: Write> Recorder<W> {
    /// Writes the opening that is passed to [`State::open`](crate::State::open).
    ///
    /// # Errors
    /// `InvalidInput` if `State::open` rejects it; otherwise an error of the writer.
    pub fn open(mut out: W, opening: &Opening) -> io::Result<Recorder<W>> {
        match Text::opening(opening) {
            None => Err(io::Error::new(io::ErrorKind::InvalidInput, "an opening that no history has")),
            Some(text) => {
                out.write_all(text.bytes())?;
                let has_clock = text.bytes().starts_with(b"open3,");
                Ok(Recorder { out, has_clock, records: 1, untold: 0 })
            }
        }
    }

    /// Writes the record of an event. An event that was refused is recorded by its number if histories contain its
    /// error; other refused events are counted.
    ///
    /// # Errors
    /// An error of the writer. The history may then end within a record.
    pub fn record(&mut self, event: &Event) -> io::Result<()> {
        self.put(event.refused(), || event.text())
    }

    /// Writes the record of new parameters.
    ///
    /// # Errors
    /// Those of [`Recorder::record`].
    pub fn record_params(&mut self, event: &ParamsEvent) -> io::Result<()> {
        self.put(event.refused(), || event.text())
    }

    /// Writes a clock record: the wall-clock time was `unix_time` (nanoseconds since 1970-01-01T00:00:00Z) at `moment`. It
    /// affects no decision. `pie explain --wall` computes the time of an event from the last clock record before it.
    ///
    /// ```
    /// # use juniperbowls::{Opening, Recorder};
    /// # use std::time::{SystemTime, UNIX_EPOCH};
    /// # fn main() -> Result<(), Box<dyn std::error::Error>> {
    /// let mut history = Recorder::open(Vec::new(), &Opening::for_rate(100_000_000))?;
    /// history.clock(0, u64::try_from(SystemTime::now().duration_since(UNIX_EPOCH)?.as_nanos())?)?;
    /// # Ok(())
    /// # }
    /// ```
    ///
    /// # Errors
    /// `InvalidInput` if the moment is above 2^60 - 1, or if the history is of a version before the third, which has no such
    /// record; nothing is then written. With `events` above 2^40 in its [`Opening`] a history is of version three. Otherwise
    /// those of [`Recorder::record`].
    pub fn clock(&mut self, moment: u64, unix_time: u64) -> io::Result<()> {
        match Text::clock(moment, unix_time) {
            Some(text) if self.has_clock => self.put(None, || Some(text)),
            _ => Err(io::Error::new(io::ErrorKind::InvalidInput, "a time of day that this history cannot have")),
        }
    }

    /// Writes that this many events are missing. An audit of the text then ends with a fault.
    ///
    /// # Errors
    /// Those of [`Recorder::record`].
    pub fn lost(&mut self, count: u64) -> io::Result<()> {
        self.put(None, || Text::lost(count))
    }

    fn put(&mut self, refused: Option<u32>, text: impl FnOnce() -> Option<Text>) -> io::Result<()> {
        let text = match refused {
            Some(code) => Text::refused(self.records + 1, code),
            None => text(),
        };
        match text {
            Some(text) => {
                self.records += 1;
                self.out.write_all(text.bytes())
            }
            None => {
                self.untold += 1;
                Ok(())
            }
        }
    }

    /// Returns the number of records, with the opening.
    #[must_use]
    pub fn records(&self) -> u64 {
        self.records
    }

    /// Returns the number of refused calls whose error histories do not contain.
    #[must_use]
    pub fn untold(&self) -> u64 {
        self.untold
    }

    /// Returns the writer, without flushing it.
    pub fn into_inner(self) -> W {
        self.out
    }
}
