//! Mirrors: a mirror is a second text that follows a document by its events.

use crate::document::Document;
use crate::error::Error;
use crate::ffi;

/// The first size of the buffer for a line, in bytes or units.
const LINE: usize = 256;

/// A change that was sent as an event.
#[derive(Clone, Copy, Debug, PartialEq, Eq, Hash)]
pub struct Event {
    /// Its number in the document, from 1.
    pub number: u64,
    /// The version before the change; the event leads to the next one.
    pub from: u64,
}

/// The state of a mirror.
#[derive(Clone, Copy, Debug, PartialEq, Eq, Hash)]
pub struct Mirrored {
    /// Its version: that of the text that it has.
    pub version: u64,
    /// The length of its text in units.
    pub len: usize,
    /// The number of its lines.
    pub len_lines: usize,
}

impl Mirrored {
    fn of(raw: &ffi::Followed) -> Mirrored {
        Mirrored { version: raw.version, len: raw.units as usize, len_lines: raw.lines as usize }
    }
}

impl Document<'_> {
    /// Starts a mirror with the present text; it replaces the document's old mirror. Returns its version.
    ///
    /// ```
    /// # fn main() -> Result<(), textmodel::Error> {
    /// # let session = textmodel::Session::new()?;
    /// # let mut document = session.document(0)?;
    /// document.insert(0, "ab")?;
    /// document.begin_mirror()?;
    /// document.insert(0, "x")?;
    /// if let Some(event) = document.send()? {
    ///     document.deliver(event.number)?;
    /// }
    /// assert_eq!(document.mirrored_line(1)?, "xab");
    /// # Ok(())
    /// # }
    /// ```
    ///
    /// # Errors
    /// [`Error::Memory`].
    pub fn begin_mirror(&mut self) -> Result<u64, Error> {
        let mut version = 0;
        // SAFETY: see `Session::raw`; `version` is a separate address.
        self.done(unsafe { ffi::tm_mirror(self.raw(), self.doc(), &mut version) })?;
        Ok(version)
    }

    /// Sends the last change as an event, which is kept; None in version 1, before any change.
    ///
    /// # Errors
    /// [`Error::Limit`] if 65,536 events were sent.
    pub fn send(&mut self) -> Result<Option<Event>, Error> {
        let (mut number, mut from) = (0, 0);
        // SAFETY: see `Session::raw`; both are valid addresses.
        let status = unsafe { ffi::tm_send(self.raw(), self.doc(), &mut number, &mut from) };
        Ok(self.was_there(status)?.then_some(Event { number, from }))
    }

    /// Delivers the event with this number to the mirror. Returns the mirror's new state, or None if it is past that
    /// event.
    ///
    /// # Errors
    /// [`Error::Gap`] if the mirror lacks earlier events; [`Error::Unknown`] if there is no such event, or no mirror.
    pub fn deliver(&mut self, number: u64) -> Result<Option<Mirrored>, Error> {
        let (mut told, mut have, mut need) = (ffi::Followed::default(), 0, 0);
        // SAFETY: see `Session::raw`; the three are valid addresses.
        let status = unsafe {
            let (raw, doc) = (self.raw(), self.doc());
            ffi::tm_raw_deliver(raw, doc, number, &mut told, &mut have, &mut need)
        };
        match status {
            ffi::GAP => Err(Error::Gap { have, need }),
            status => Ok(self.was_there(status)?.then(|| Mirrored::of(&told))),
        }
    }

    /// Returns the state of the mirror; None if there is none.
    pub fn mirrored(&self) -> Option<Mirrored> {
        let mut told = ffi::Followed::default();
        // SAFETY: see `Session::raw`; `told` is a separate address.
        let status = unsafe { ffi::tm_mirror_now(self.raw(), self.doc(), &mut told) };
        (status == ffi::OK).then(|| Mirrored::of(&told))
    }

    /// The content of a line of the mirror, from 1, without its line ending. A lone surrogate becomes U+FFFD.
    ///
    /// # Errors
    /// [`Error::Range`] if the mirror has no such line; [`Error::Unknown`] if there is no mirror.
    pub fn mirrored_line(&self, line: usize) -> Result<String, Error> {
        // SAFETY: see `Session::raw`; the closure gets a buffer, its size and an address for the count.
        self.string(LINE, |out, room, count| unsafe {
            ffi::tm_raw_mirrored_utf8(self.raw(), self.doc(), line as u64, out, room, count)
        })
    }

    /// The units of a line of the mirror, from 1, without its line ending.
    ///
    /// # Errors
    /// As [`mirrored_line`](Self::mirrored_line).
    pub fn mirrored_line_units(&self, line: usize) -> Result<Vec<u16>, Error> {
        // SAFETY: as in `mirrored_line`.
        self.list(LINE, |out, room, count| unsafe {
            ffi::tm_raw_mirrored(self.raw(), self.doc(), line as u64, out, room, count)
        })
    }
}
