//! A document: its size, offsets and positions, and helpers of the other modules.

use crate::error::{done, was_there, At, Error};
use crate::ffi;
use crate::session::Session;
use crate::text::{listed, string_of, Encoding, Ending, Position};
use std::fmt;
use std::ops::{Bound, RangeBounds};

/// The first size of the buffer for the stops of a line.
const STOPS: usize = 256;

/// A handle of one of the documents of a [`Session`].
///
/// There may be several handles of one document. A change through one is seen through the others.
pub struct Document<'s> {
    session: &'s Session,
    number: usize,
}

/// Questions about the text and the document.
impl<'s> Document<'s> {
    pub(crate) fn new(session: &'s Session, number: usize) -> Document<'s> {
        Document { session, number }
    }

    /// Its number, from 0 to 63.
    pub fn number(&self) -> usize {
        self.number
    }

    /// Returns the length of the text in UTF-16 units.
    pub fn len(&self) -> usize {
        // SAFETY: see `Session::raw`; `out` is a separate address.
        self.told(|out| unsafe { ffi::tm_len(self.raw(), self.doc(), out) }) as usize
    }

    /// Returns whether the text is empty.
    pub fn is_empty(&self) -> bool {
        self.len() == 0
    }

    /// Returns the number of lines, at least 1.
    pub fn len_lines(&self) -> usize {
        // SAFETY: as in `len`.
        self.told(|out| unsafe { ffi::tm_line_count(self.raw(), self.doc(), out) }) as usize
    }

    /// The line endings.
    pub fn ending(&self) -> Ending {
        let mut kind = 0;
        // SAFETY: as in `len`.
        let status = unsafe { ffi::tm_kind(self.raw(), self.doc(), &mut kind) };
        debug_assert_eq!(status, ffi::OK);
        Ending::of(kind)
    }

    /// Returns the version: 1 for a new document, and 1 more after each change, an undo too.
    pub fn version(&self) -> u64 {
        self.versions().0
    }

    /// Returns the alternative version. An edit sets it to the version; an undo or redo restores that of the text that
    /// it restores. So an editor can find out whether the text is the one that was saved.
    pub fn alternative_version(&self) -> u64 {
        self.versions().1
    }

    fn versions(&self) -> (u64, u64) {
        let (mut version, mut alternative) = (0, 0);
        // SAFETY: as in `len`; both are valid addresses.
        let status = unsafe { ffi::tm_versions(self.raw(), self.doc(), &mut version, &mut alternative) };
        debug_assert_eq!(status, ffi::OK);
        (version, alternative)
    }

    /// Converts an offset into a position; None if the offset is invalid. `encoding` is the unit of the column. In a
    /// mixed document the offset between a CR and its LF has a column too, the one after the end of the line's content.
    ///
    /// ```
    /// # use textmodel::{Encoding, Position, Session};
    /// # fn main() -> Result<(), textmodel::Error> {
    /// # let session = Session::new()?;
    /// # let mut document = session.document(0)?;
    /// document.insert(0, "a\n😀b")?;
    /// assert_eq!(document.position(4, Encoding::Utf8)?, Some(Position::new(2, 5)));
    /// assert_eq!(document.position(4, Encoding::Utf32)?, Some(Position::new(2, 2)));
    /// assert_eq!(document.position(3, Encoding::Utf16)?, None); // inside the pair of surrogates
    /// assert_eq!(document.offset(Position::new(2, 3), Encoding::Utf16)?, Some(4));
    /// # Ok(())
    /// # }
    /// ```
    ///
    /// # Errors
    /// [`Error::Memory`], but not with [`Encoding::Utf16`].
    pub fn position(&self, offset: usize, encoding: Encoding) -> Result<Option<Position>, Error> {
        let mut place = ffi::Place::default();
        // SAFETY: as in `len`; `place` is a separate address.
        let status = unsafe { ffi::tm_position(self.raw(), self.doc(), offset as u64, encoding as u32, &mut place) };
        let position = Position::new(place.line as usize, place.column as usize);
        Ok(self.was_there(status)?.then_some(position))
    }

    /// Converts a position into an offset; None if the line is missing, or the column is beyond its end or inside a
    /// character. `encoding` is the unit of the column.
    ///
    /// # Errors
    /// [`Error::Memory`], but not with [`Encoding::Utf16`].
    pub fn offset(&self, position: Position, encoding: Encoding) -> Result<Option<usize>, Error> {
        let (line, column) = (position.line as u64, position.column as u64);
        let mut offset = 0;
        // SAFETY: as in `len`.
        let status = unsafe { ffi::tm_offset(self.raw(), self.doc(), line, column, encoding as u32, &mut offset) };
        Ok(self.was_there(status)?.then_some(offset as usize))
    }

    /// Returns the columns of a line at which a cursor may stop: the starts of its grapheme clusters, from 1. The end of
    /// the line is left out. `encoding` is their unit.
    ///
    /// # Errors
    /// [`Error::Range`] if there is no such line.
    pub fn stops(&self, line: usize, encoding: Encoding) -> Result<Vec<usize>, Error> {
        // SAFETY: as in `len`; the closure gets a buffer, its size and an address for the count.
        let stops: Vec<u64> = self.list(STOPS, |out, room, count| unsafe {
            ffi::tm_raw_stops(self.raw(), self.doc(), line as u64, encoding as u32, out, room, count)
        })?;
        Ok(stops.into_iter().map(|it| it as usize).collect())
    }
}

/// Helpers of this crate's calls.
impl<'s> Document<'s> {
    /// A second handle, for as long as this one is borrowed.
    pub(crate) fn again(&self) -> Document<'_> {
        Document { session: self.session, number: self.number }
    }

    pub(crate) fn session(&self) -> &'s Session {
        self.session
    }

    pub(crate) fn raw(&self) -> *mut ffi::Session {
        self.session.raw()
    }

    /// The number, as the library takes it.
    pub(crate) fn doc(&self) -> u64 {
        self.number as u64
    }

    pub(crate) fn at(&self) -> At {
        At::of(self.number)
    }

    pub(crate) fn done(&self, status: u32) -> Result<(), Error> {
        done(status, self.at())
    }

    pub(crate) fn was_there(&self, status: u32) -> Result<bool, Error> {
        was_there(status, self.at())
    }

    /// The elements that a call writes, see `listed`.
    pub(crate) fn list<T: Clone + Default>(
        &self,
        room: usize,
        call: impl FnMut(*mut T, usize, *mut u64) -> u32,
    ) -> Result<Vec<T>, Error> {
        listed(room, self.at(), call)
    }

    /// The text that a call writes in UTF-8.
    pub(crate) fn string(
        &self,
        room: usize,
        call: impl FnMut(*mut u8, usize, *mut u64) -> u32,
    ) -> Result<String, Error> {
        self.list(room, call).map(string_of)
    }

    /// The number that a call sets; such a call is never refused for a valid document.
    fn told(&self, call: impl FnOnce(&mut u64) -> u32) -> u64 {
        let mut number = 0;
        let status = call(&mut number);
        debug_assert_eq!(status, ffi::OK);
        number
    }

    /// The start and the end of a range. The library checks whether they are valid offsets.
    pub(crate) fn span(&self, span: impl RangeBounds<usize>) -> (u64, u64) {
        let start = match span.start_bound() {
            Bound::Included(&start) => start,
            Bound::Excluded(&before) => before.saturating_add(1),
            Bound::Unbounded => 0,
        };
        let end = match span.end_bound() {
            Bound::Included(&last) => last.saturating_add(1),
            Bound::Excluded(&end) => end,
            Bound::Unbounded => self.len(),
        };
        (start as u64, end as u64)
    }

    /// The size of the buffer for a span: its length in units, if it is valid.
    pub(crate) fn guess(&self, start: u64, end: u64) -> usize {
        end.min(self.len() as u64).saturating_sub(start) as usize
    }
}

impl fmt::Debug for Document<'_> {
    fn fmt(&self, f: &mut fmt::Formatter<'_>) -> fmt::Result {
        let mut told = f.debug_struct("Document");
        told.field("number", &self.number).field("version", &self.version());
        told.field("len", &self.len()).finish_non_exhaustive()
    }
}

/// The text. A lone surrogate becomes U+FFFD.
impl fmt::Display for Document<'_> {
    fn fmt(&self, f: &mut fmt::Formatter<'_>) -> fmt::Result {
        for chunk in self.chunks(0) {
            f.write_str(&chunk.map_err(|_| fmt::Error)?)?;
        }
        Ok(())
    }
}
