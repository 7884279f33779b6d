//! Snapshots: the text of a version, to be read while the document changes.

use crate::document::Document;
use crate::error::{done, At, Error};
use crate::ffi;
use crate::session::Session;
use crate::text::string_of;
use std::iter::FusedIterator;

/// The size of the buffer for a part, in bytes of UTF-8. Each unit takes at most 3.
const PART: usize = 3 << 14;

/// The text that a document had, read once from its start. It is closed when it is dropped.
///
/// As an iterator it returns what was not read yet, in parts. No part is empty, or ends inside a character:
///
/// ```
/// # fn main() -> Result<(), textmodel::Error> {
/// let session = textmodel::Session::new()?;
/// let mut document = session.document(0)?;
/// document.insert(0, "before")?;
/// let snapshot = document.snapshot()?;
/// document.replace_all("before", "after")?;
/// let parts: Result<String, _> = snapshot.collect();
/// assert_eq!(parts?, "before");
/// # Ok(())
/// # }
/// ```
///
/// It lives no longer than its session:
///
/// ```compile_fail,E0505
/// # fn main() -> Result<(), textmodel::Error> {
/// let session = textmodel::Session::new()?;
/// let mut snapshot = session.document(0)?.snapshot()?;
/// drop(session);
/// snapshot.read(&mut [0; 8])?;
/// # Ok(())
/// # }
/// ```
#[derive(Debug)]
pub struct Snapshot<'s> {
    session: &'s Session,
    document: usize,
    opening: u64,
    id: u64,
    is_over: bool,
}

impl<'s> Document<'s> {
    /// Keeps the present text, to be read while the document changes.
    ///
    /// # Errors
    /// [`Error::Limit`] if 1,000 are open.
    pub fn snapshot(&self) -> Result<Snapshot<'s>, Error> {
        let mut id = 0;
        // SAFETY: see `Session::raw`; `id` is a separate address.
        self.done(unsafe { ffi::tm_snapshot(self.raw(), self.doc(), &mut id) })?;
        let (session, document) = (self.session(), self.number());
        Ok(Snapshot { session, document, opening: session.openings(document), id, is_over: false })
    }
}

impl Snapshot<'_> {
    /// Reads as many of the next units as fit into the buffer, one fewer if that would split a surrogate pair. Returns
    /// their number, 0 at the end.
    ///
    /// # Errors
    /// [`Error::Range`] if the buffer has less than 2 units; [`Error::Unknown`] if the document was opened anew.
    pub fn read(&mut self, out: &mut [u16]) -> Result<usize, Error> {
        let (doc, mut count) = (self.doc_of_now()?, 0);
        // SAFETY: see `Session::raw`; pointer and length are those of a slice, and `count` is a separate address.
        let status =
            unsafe { ffi::tm_raw_read(self.session.raw(), doc, self.id, out.as_mut_ptr(), out.len(), &mut count) };
        done(status, self.at()).map(|()| count as usize)
    }

    /// Returns the next part of the text, empty at the end.
    fn part(&mut self) -> Result<String, Error> {
        let (doc, mut count) = (self.doc_of_now()?, 0);
        let mut out = vec![0; PART];
        // SAFETY: as in `read`.
        let status =
            unsafe { ffi::tm_raw_read_utf8(self.session.raw(), doc, self.id, out.as_mut_ptr(), out.len(), &mut count) };
        done(status, self.at())?;
        out.truncate(count as usize);
        Ok(string_of(out))
    }

    fn at(&self) -> At {
        At::of(self.document)
    }

    fn is_of_now(&self) -> bool {
        self.session.openings(self.document) == self.opening
    }

    /// Returns the number of its document if that was not opened since, else None: its ids count from 1 again.
    fn doc_of_now(&self) -> Result<u64, Error> {
        if self.is_of_now() {
            Ok(self.document as u64)
        } else {
            Err(Error::Unknown(self.at()))
        }
    }
}

/// The parts not read yet. An error ends them.
impl Iterator for Snapshot<'_> {
    type Item = Result<String, Error>;

    fn next(&mut self) -> Option<Self::Item> {
        if self.is_over {
            return None;
        }
        let part = self.part();
        self.is_over = part.as_ref().map_or(true, String::is_empty);
        Some(part).filter(|it| it.is_err() || !self.is_over)
    }
}

impl FusedIterator for Snapshot<'_> {}

impl Drop for Snapshot<'_> {
    fn drop(&mut self) {
        if self.is_of_now() {
            // SAFETY: see `Session::raw`. Its status is ignored: nothing could be done.
            unsafe { ffi::tm_close(self.session.raw(), self.document as u64, self.id) };
        }
    }
}
