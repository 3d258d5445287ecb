//! An excerpt of a link: the last events with their preamble, as a text.

use std::io::{self, Write};

use crate::link_library::{RawExcerpt, pie_link_close_excerpt, pie_link_open_excerpt, pie_link_try_excerpt, pie_link_write_excerpt};
use crate::link_refusal::{link_done, link_done_with};
use crate::link_wait::until_served;
use crate::{LinkRefusal, Opening, Port};

/// More bytes than a record of an excerpt has.
const RECORD: usize = 1280;

/// The last events of a [`Link`](crate::Link) with their preamble, in memory allocated before. Its text is an input
/// of `pie audit`, `pie explain` and `pie cut`.
#[derive(Debug)]
pub struct Excerpt {
    raw: RawExcerpt,
}

// SAFETY: the library's proof shows that the memory of an excerpt may be passed to another thread; no call keeps anything of its thread.
unsafe impl Send for Excerpt {}

impl Drop for Excerpt {
    fn drop(&mut self) {
        // SAFETY: as `link_library` says.
        unsafe { pie_link_close_excerpt(&mut self.raw) };
    }
}

impl Excerpt {
    /// Allocates memory for excerpts of every link with this opening: 24 bytes for each of its `packets`, and 128 for each of `packets` or `tail`,
    /// whichever is more. The excerpt then contains no event.
    ///
    /// # Errors
    /// Those of [`State::open`](crate::State::open), then `NoMemory`.
    pub fn with_room(opening: &Opening) -> Result<Excerpt, LinkRefusal> {
        let mut excerpt = Excerpt { raw: RawExcerpt::CLOSED };
        let raw = opening.raw();
        // SAFETY: as `link_library` says.
        link_done_with(unsafe { pie_link_open_excerpt(&raw, &mut excerpt.raw) }, &opening.params)?;
        Ok(excerpt)
    }

    /// Writes the records of its text that were not written since the last [`Port::try_excerpt`].
    ///
    /// # Errors
    /// Those of the writer; the record that it refused is not written again.
    pub fn write<W: Write>(&mut self, writer: &mut W) -> io::Result<()> {
        let mut record = [0; RECORD];
        loop {
            // SAFETY: as `link_library` says.
            match unsafe { pie_link_write_excerpt(&mut self.raw, record.as_mut_ptr(), RECORD) } {
                0 => return Ok(()),
                count => writer.write_all(&record[..count])?,
            }
        }
    }
}

impl Port {
    /// Copies all events that the link still has, at least those of the log, with their preamble to the excerpt.
    /// The call allocates no memory, and the history is unchanged.
    ///
    /// # Errors
    /// In this order: `Busy`, `TooSmall`. The excerpt is then unchanged.
    pub fn try_excerpt(&mut self, excerpt: &mut Excerpt) -> Result<(), LinkRefusal> {
        // SAFETY: as `link_library` says.
        link_done(unsafe { pie_link_try_excerpt(self.raw(), &mut excerpt.raw) })
    }

    /// Waits for the turn, then calls [`Port::try_excerpt`].
    ///
    /// # Errors
    /// Those of that call, except `Busy`.
    pub fn excerpt(&mut self, excerpt: &mut Excerpt) -> Result<(), LinkRefusal> {
        until_served(|| self.try_excerpt(excerpt))
    }
}
