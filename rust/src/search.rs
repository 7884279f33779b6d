//! Search, unit for unit.

use crate::document::Document;
use crate::error::Error;
use crate::ffi;
use crate::text::Text;
use std::ops::Range;

/// The first size of the buffer for the spans of a search.
const SPANS: usize = 256;

/// A search for a text, by default in all of the document. A text converts into it.
///
/// Spans are found from the start of the document on, and none overlaps the one before. The options choose which of
/// them are returned.
#[derive(Clone, Copy, Debug, PartialEq, Eq)]
pub struct Search<'a> {
    text: Text<'a>,
    from: u64,
    back: bool,
    most: u64,
}

impl<'a> Search<'a> {
    /// Makes a search for a text in all of the document.
    pub fn new(text: impl Into<Text<'a>>) -> Search<'a> {
        Search { text: text.into(), from: 0, back: false, most: u64::MAX }
    }

    /// Returns the spans that start at or after the offset.
    #[must_use]
    pub fn forward_from(self, offset: usize) -> Search<'a> {
        Search { from: offset as u64, back: false, ..self }
    }

    /// Returns the spans that end at or before the offset, the last one first.
    #[must_use]
    pub fn back_from(self, offset: usize) -> Search<'a> {
        Search { from: offset as u64, back: true, ..self }
    }

    /// Returns at most this many.
    #[must_use]
    pub fn most(self, spans: usize) -> Search<'a> {
        Search { most: spans as u64, ..self }
    }
}

impl<'a, T: Into<Text<'a>>> From<T> for Search<'a> {
    fn from(text: T) -> Search<'a> {
        Search::new(text)
    }
}

impl Document<'_> {
    /// Returns the spans at which the text occurs.
    ///
    /// ```
    /// # use textmodel::{Search, Session};
    /// # fn main() -> Result<(), textmodel::Error> {
    /// # let session = Session::new()?;
    /// # let mut document = session.document(0)?;
    /// document.insert(0, "aaa aa")?;
    /// assert_eq!(document.find("aa")?, [0..2, 4..6]);
    /// assert_eq!(document.find(Search::new("aa").back_from(5).most(1))?, [0..2]);
    /// # Ok(())
    /// # }
    /// ```
    ///
    /// # Errors
    /// [`Error::Range`] if the text is empty.
    pub fn find<'a>(&self, search: impl Into<Search<'a>>) -> Result<Vec<Range<usize>>, Error> {
        let (raw, doc, mut bad) = (self.raw(), self.doc(), 0);
        let Search { text, from, back, most } = search.into();
        // SAFETY: see `Session::raw`; pointers and lengths are those of slices, and `bad` is a separate address.
        let found: Vec<ffi::Found> = self.list(SPANS, |out, room, count| unsafe {
            match text {
                Text::Utf8(it) => {
                    let (at, len) = (it.as_ptr(), it.len());
                    ffi::tm_raw_find_utf8(raw, doc, at, len, from, back, most, out, room, count, &mut bad)
                }
                Text::Utf16(it) => {
                    ffi::tm_raw_find(raw, doc, it.as_ptr(), it.len(), from, back, most, out, room, count)
                }
            }
        })?;
        Ok(found.iter().map(|it| it.start as usize..it.end as usize).collect())
    }

    /// Replaces each span at which the sought text occurs, as one change and an undo step of its own. Returns their
    /// number.
    ///
    /// ```
    /// # fn main() -> Result<(), textmodel::Error> {
    /// # let session = textmodel::Session::new()?;
    /// # let mut document = session.document(0)?;
    /// document.insert(0, "a + a")?;
    /// assert_eq!(document.replace_all("a", "sum")?, 2);
    /// assert_eq!(document.text()?, "sum + sum");
    /// # Ok(())
    /// # }
    /// ```
    ///
    /// # Errors
    /// [`Error::Range`] if the sought text is empty; [`Error::Limit`].
    pub fn replace_all<'a, 'b>(
        &mut self,
        sought: impl Into<Text<'a>>,
        with: impl Into<Text<'b>>,
    ) -> Result<usize, Error> {
        let (raw, doc, mut count, mut bad) = (self.raw(), self.doc(), 0, 0);
        let (sought, with) = (sought.into(), with.into());
        // SAFETY: as in `find`; `count` is a separate address.
        let status = unsafe {
            if let (Text::Utf8(a), Text::Utf8(b)) = (sought, with) {
                let (at, len) = (b.as_ptr(), b.len());
                ffi::tm_raw_replace_all_utf8(raw, doc, a.as_ptr(), a.len(), at, len, &mut count, &mut bad)
            } else {
                let (a, b) = (sought.to_units(), with.to_units());
                ffi::tm_raw_replace_all(raw, doc, a.as_ptr(), a.len(), b.as_ptr(), b.len(), &mut count)
            }
        };
        Ok(if self.was_there(status)? { count as usize } else { 0 })
    }
}
