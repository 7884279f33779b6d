//! Reading a text: spans, lines and parts of it.

use crate::document::Document;
use crate::error::Error;
use crate::ffi;
use crate::text::string_of;
use std::iter::FusedIterator;
use std::ops::{Range, RangeBounds};

/// The first size of the buffer for a line, in bytes or units.
const LINE: usize = 256;
/// The size of the buffer for a chunk, in bytes of UTF-8. Each unit takes at most 3.
const CHUNK: usize = 3 << 14;

impl Document<'_> {
    /// All of the text. A lone surrogate becomes U+FFFD.
    ///
    /// # Errors
    /// [`Error::Memory`].
    pub fn text(&self) -> Result<String, Error> {
        self.slice(..)
    }

    /// The text of a span. A lone surrogate becomes U+FFFD.
    ///
    /// ```
    /// # fn main() -> Result<(), textmodel::Error> {
    /// # let session = textmodel::Session::new()?;
    /// # let mut document = session.document(0)?;
    /// document.insert(0, "one two")?;
    /// assert_eq!(document.slice(4..)?, "two");
    /// assert!(document.slice(4..9).is_err());
    /// # Ok(())
    /// # }
    /// ```
    ///
    /// # Errors
    /// [`Error::Range`] if the span is invalid.
    pub fn slice(&self, span: impl RangeBounds<usize>) -> Result<String, Error> {
        let (start, end) = self.span(span);
        // SAFETY: see `Session::raw`; the closure gets a buffer, its size and an address for the count.
        self.string(self.guess(start, end), |out, room, count| unsafe {
            ffi::tm_raw_value_utf8(self.raw(), self.doc(), start, end, out, room, count)
        })
    }

    /// The units of a span.
    ///
    /// # Errors
    /// As [`slice`](Self::slice).
    pub fn slice_units(&self, span: impl RangeBounds<usize>) -> Result<Vec<u16>, Error> {
        let (start, end) = self.span(span);
        // SAFETY: as in `slice`.
        self.list(self.guess(start, end), |out, room, count| unsafe {
            ffi::tm_raw_value(self.raw(), self.doc(), start, end, out, room, count)
        })
    }

    /// The content of a line, from 1, without its line ending. A lone surrogate becomes U+FFFD.
    ///
    /// # Errors
    /// [`Error::Range`] where there is no such line.
    pub fn line(&self, line: usize) -> Result<String, Error> {
        // SAFETY: as in `slice`.
        self.string(LINE, |out, room, count| unsafe {
            ffi::tm_raw_line_utf8(self.raw(), self.doc(), line as u64, out, room, count)
        })
    }

    /// The units of a line, from 1, without its line ending.
    ///
    /// # Errors
    /// [`Error::Range`] where there is no such line.
    pub fn line_units(&self, line: usize) -> Result<Vec<u16>, Error> {
        // SAFETY: as in `slice`.
        self.list(LINE, |out, room, count| unsafe {
            ffi::tm_raw_line(self.raw(), self.doc(), line as u64, out, room, count)
        })
    }

    /// The lines, each as [`line`](Self::line) returns it, from either end.
    ///
    /// ```
    /// # fn main() -> Result<(), textmodel::Error> {
    /// # let session = textmodel::Session::new()?;
    /// # let mut document = session.document(0)?;
    /// document.insert(0, "a\r\nb\n")?;
    /// let lines: Result<Vec<String>, _> = document.lines().collect();
    /// assert_eq!(lines?, ["a", "b", ""]);
    /// # Ok(())
    /// # }
    /// ```
    pub fn lines(&self) -> Lines<'_> {
        let left = 1..self.len_lines() + 1;
        Lines { document: self.again(), left }
    }

    /// The text from an offset on, in parts of some 10,000 characters. No part is empty, or ends inside a character or
    /// inside a CR LF of a document with these endings. If the offset is invalid, the first item is the error.
    pub fn chunks(&self, from: usize) -> Chunks<'_> {
        let document = self.again();
        Chunks { document, offset: from as u64, is_over: false }
    }

    /// Reads as many units from an offset on as fit into the buffer, one fewer if that would split a surrogate pair or a
    /// CR LF line ending. Returns their number, 0 at the end of the text.
    ///
    /// # Errors
    /// [`Error::Range`] if the offset is invalid, or the buffer has less than 2 units.
    pub fn read_at(&self, offset: usize, out: &mut [u16]) -> Result<usize, Error> {
        let mut count = 0;
        // SAFETY: see `Session::raw`; pointer and length are those of a slice, and `count` is a separate address.
        let status = unsafe {
            let (place, room) = (out.as_mut_ptr(), out.len());
            ffi::tm_raw_read_into(self.raw(), self.doc(), offset as u64, place, room, &mut count)
        };
        self.done(status).map(|()| count as usize)
    }
}

/// The iterator of [`Document::lines`]. Each line is read when the iterator reaches it.
#[must_use = "an iterator asks for nothing until it is used"]
#[derive(Debug)]
pub struct Lines<'d> {
    document: Document<'d>,
    left: Range<usize>,
}

impl Iterator for Lines<'_> {
    type Item = Result<String, Error>;

    fn next(&mut self) -> Option<Self::Item> {
        self.left.next().map(|line| self.document.line(line))
    }

    fn size_hint(&self) -> (usize, Option<usize>) {
        self.left.size_hint()
    }

    fn nth(&mut self, skipped: usize) -> Option<Self::Item> {
        self.left.nth(skipped).map(|line| self.document.line(line))
    }
}

impl DoubleEndedIterator for Lines<'_> {
    fn next_back(&mut self) -> Option<Self::Item> {
        self.left.next_back().map(|line| self.document.line(line))
    }
}

impl ExactSizeIterator for Lines<'_> {}

impl FusedIterator for Lines<'_> {}

/// The iterator of [`Document::chunks`]. An error ends it.
#[must_use = "an iterator asks for nothing until it is used"]
#[derive(Debug)]
pub struct Chunks<'d> {
    document: Document<'d>,
    offset: u64,
    is_over: bool,
}

impl Chunks<'_> {
    /// The offset after the last part.
    pub fn offset(&self) -> usize {
        self.offset as usize
    }

    fn part(&mut self) -> Result<String, Error> {
        let (raw, doc) = (self.document.raw(), self.document.doc());
        let (mut out, mut count) = (vec![0; CHUNK], 0);
        // SAFETY: see `Session::raw`; pointer and length are those of `out`, and the two others are separate
        // addresses.
        let status = unsafe {
            let (place, room) = (out.as_mut_ptr(), out.len());
            ffi::tm_raw_read_into_utf8(raw, doc, &mut self.offset, place, room, &mut count)
        };
        self.document.done(status)?;
        out.truncate(count as usize);
        Ok(string_of(out))
    }
}

impl Iterator for Chunks<'_> {
    type Item = Result<String, Error>;

    fn next(&mut self) -> Option<Self::Item> {
        if self.is_over {
            return None;
        }
        let part = self.part();
        self.is_over = part.as_ref().map_or(true, String::is_empty);
        Some(part).filter(|it| it.is_err() || !self.is_over)
    }
}

impl FusedIterator for Chunks<'_> {}
