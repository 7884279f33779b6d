//! What the last change did.

use crate::document::Document;
use crate::error::Error;
use crate::ffi;
use std::ops::Range;

/// The first size of the buffer for the text of a change, in bytes or units.
const TEXT: usize = 256;

/// An edit of the last change: the text replaced the span.
#[derive(Clone, Debug, PartialEq, Eq)]
pub struct Change<T = String> {
    /// The span, in the text after the edits before this one.
    pub span: Range<usize>,
    /// The new text.
    pub text: T,
}

impl Document<'_> {
    /// Returns the edits of the last change, which is an edit, an undo, a redo or new line endings. Applied in order,
    /// they turn the text before it into the present one. In version 1 there are none. A lone surrogate becomes U+FFFD.
    ///
    /// ```
    /// # use textmodel::{Edit, Session};
    /// # fn main() -> Result<(), textmodel::Error> {
    /// # let session = Session::new()?;
    /// # let mut document = session.document(0)?;
    /// document.insert(0, "one two")?;
    /// session.joint(&[Edit::new(0, 0..3, "1"), Edit::new(0, 4..7, "2")])?;
    /// let mut copy = "one two".to_owned();
    /// for change in document.changes()? {
    ///     copy.replace_range(change.span, &change.text); // all is ASCII here: bytes and units are one
    /// }
    /// assert_eq!(copy, "1 2");
    /// # Ok(())
    /// # }
    /// ```
    ///
    /// # Errors
    /// [`Error::Memory`].
    pub fn changes(&self) -> Result<Vec<Change>, Error> {
        self.each_change(|| {
            // SAFETY: see `Session::raw`; the closure gets a buffer, its size and an address for the
            // count.
            self.string(TEXT, |out, room, count| unsafe { ffi::tm_raw_change_text_utf8(self.raw(), out, room, count) })
        })
    }

    /// As [`changes`](Self::changes), with the texts in units.
    ///
    /// # Errors
    /// [`Error::Memory`].
    pub fn changes_in_units(&self) -> Result<Vec<Change<Vec<u16>>>, Error> {
        self.each_change(|| {
            // SAFETY: as in `changes`.
            self.list(TEXT, |out, room, count| unsafe { ffi::tm_raw_change_text(self.raw(), out, room, count) })
        })
    }

    /// Reads the edits up to the last one, even if there is no memory for a text, so that the library starts with the
    /// first one again at the next call.
    fn each_change<T>(&self, text: impl Fn() -> Result<T, Error>) -> Result<Vec<Change<T>>, Error> {
        let (mut changes, mut failed) = (Vec::new(), None);
        while let Some(span) = self.next_change()? {
            match text() {
                Ok(text) => changes.push(Change { span, text }),
                Err(why) => failed = Some(why),
            }
        }
        failed.map_or(Ok(changes), Err)
    }

    fn next_change(&self) -> Result<Option<Range<usize>>, Error> {
        let mut told = ffi::Change::default();
        // SAFETY: see `Session::raw`; `told` is a separate address.
        let status = unsafe { ffi::tm_next_change(self.raw(), self.doc(), &mut told) };
        let span = told.start as usize..told.end as usize;
        Ok(self.was_there(status)?.then_some(span))
    }
}
