//! Edits: of one document, and of several at once.

use crate::document::Document;
use crate::error::{done, At, Error};
use crate::ffi;
use crate::session::Session;
use crate::text::{Encoding, Position, Text};
use std::ops::{Range, RangeBounds};

impl Document<'_> {
    /// Replaces the span by the text. Steps that could be redone are dropped.
    ///
    /// ```
    /// # fn main() -> Result<(), textmodel::Error> {
    /// # let session = textmodel::Session::new()?;
    /// # let mut document = session.document(0)?;
    /// document.edit(.., "f(x)")?;
    /// document.edit(2..3, "[y]")?;
    /// document.edit(0..1, &[0xD800])?; // a lone surrogate, which no `str` has
    /// assert_eq!(document.text()?, "\u{FFFD}([y])");
    /// # Ok(())
    /// # }
    /// ```
    ///
    /// # Errors
    /// [`Error::Range`] if the span is invalid; [`Error::Limit`].
    pub fn edit<'a>(&mut self, span: impl RangeBounds<usize>, text: impl Into<Text<'a>>) -> Result<(), Error> {
        let (raw, doc, (start, end), text, mut bad) = (self.raw(), self.doc(), self.span(span), text.into(), 0);
        // SAFETY: see `Session::raw`; pointers and lengths are those of slices, and `bad` is a separate address.
        self.done(unsafe {
            match text {
                Text::Utf8(it) => ffi::tm_raw_edit_utf8(raw, doc, start, end, it.as_ptr(), it.len(), &mut bad),
                Text::Utf16(it) => ffi::tm_raw_edit(raw, doc, start, end, it.as_ptr(), it.len()),
            }
        })
    }

    /// Inserts a text at an offset.
    ///
    /// # Errors
    /// As [`edit`](Self::edit).
    pub fn insert<'a>(&mut self, offset: usize, text: impl Into<Text<'a>>) -> Result<(), Error> {
        self.edit(offset..offset, text)
    }

    /// Deletes a span.
    ///
    /// # Errors
    /// As [`edit`](Self::edit).
    pub fn remove(&mut self, span: impl RangeBounds<usize>) -> Result<(), Error> {
        self.edit(span, "")
    }

    /// Replaces the text from one position up to another. `encoding` is the unit of their columns.
    ///
    /// ```
    /// # use textmodel::{Encoding, Position, Session};
    /// # fn main() -> Result<(), textmodel::Error> {
    /// # let session = Session::new()?;
    /// # let mut document = session.document(0)?;
    /// document.insert(0, "é = 1\n")?;
    /// let span = Position::new(1, 1)..Position::new(1, 3); // `é` has two bytes
    /// document.edit_at(span, Encoding::Utf8, "e")?;
    /// assert_eq!(document.line(1)?, "e = 1");
    /// # Ok(())
    /// # }
    /// ```
    ///
    /// # Errors
    /// [`Error::Range`] if a position is invalid, or the first is after the second; [`Error::Limit`].
    pub fn edit_at<'a>(
        &mut self,
        span: Range<Position>,
        encoding: Encoding,
        text: impl Into<Text<'a>>,
    ) -> Result<(), Error> {
        let (raw, doc, encoding, text, mut bad) = (self.raw(), self.doc(), encoding as u32, text.into(), 0);
        let (a, b) = (span.start.line as u64, span.start.column as u64);
        let (c, d) = (span.end.line as u64, span.end.column as u64);
        // SAFETY: as in `edit`.
        self.done(unsafe {
            match text {
                Text::Utf8(it) => {
                    ffi::tm_raw_edit_at_utf8(raw, doc, a, b, c, d, encoding, it.as_ptr(), it.len(), &mut bad)
                }
                Text::Utf16(it) => ffi::tm_raw_edit_at(raw, doc, a, b, c, d, encoding, it.as_ptr(), it.len()),
            }
        })
    }
}

/// One of the edits of a [joint edit](Session::joint).
#[derive(Clone, Debug, PartialEq, Eq)]
pub struct Edit<'a> {
    /// The number of the document.
    pub document: usize,
    /// The span to replace, in the text before the joint edit.
    pub span: Range<usize>,
    /// The new text.
    pub text: Text<'a>,
    /// Whether decorations at the span move to the end of the new text, whatever their stickiness.
    pub force: bool,
}

impl<'a> Edit<'a> {
    /// An edit that moves decorations by their stickiness.
    pub fn new(document: usize, span: Range<usize>, text: impl Into<Text<'a>>) -> Edit<'a> {
        Edit { document, span, text: text.into(), force: false }
    }

    /// The edit as an op, for a text of this many units or bytes.
    fn op(&self, units: usize) -> ffi::Op {
        ffi::Op {
            doc: self.document as u64,
            start: self.span.start as u64,
            end: self.span.end as u64,
            units: units as u64,
            force: self.force,
        }
    }
}

/// The texts of edits, one after another.
enum Joined {
    Utf8(String),
    Utf16(Vec<u16>),
}

/// The ops of the edits, and their texts: in UTF-8 if all of them are.
fn ops_of(edits: &[Edit<'_>]) -> (Vec<ffi::Op>, Joined) {
    let mut joined = String::new();
    let ops = edits.iter().map(|edit| match edit.text {
        Text::Utf8(text) => {
            joined.push_str(text);
            Some(edit.op(text.len()))
        }
        Text::Utf16(_) => None,
    });
    match ops.collect() {
        Some(ops) => (ops, Joined::Utf8(joined)),
        None => ops_in_units(edits),
    }
}

fn ops_in_units(edits: &[Edit<'_>]) -> (Vec<ffi::Op>, Joined) {
    let mut joined = Vec::new();
    let ops = edits.iter().map(|edit| {
        let units = edit.text.to_units();
        joined.extend_from_slice(&units);
        edit.op(units.len())
    });
    (ops.collect(), Joined::Utf16(joined))
}

impl Session {
    /// Carries out edits in one or several documents, all or none. The edits of one document are adjacent in the list,
    /// and all spans refer to the texts before the call. With several documents, each gets an undo step of its own;
    /// these steps are undone and redone together.
    ///
    /// ```
    /// # use textmodel::{Edit, Session};
    /// # fn main() -> Result<(), textmodel::Error> {
    /// # let session = Session::new()?;
    /// let (mut header, mut source) = (session.document(0)?, session.document(1)?);
    /// header.insert(0, "int f();")?;
    /// source.insert(0, "f(); f();")?;
    /// session.joint(&[Edit::new(0, 4..5, "g"), Edit::new(1, 0..1, "g"), Edit::new(1, 5..6, "g")])?;
    /// assert_eq!(source.text()?, "g(); g();");
    /// source.undo()?;
    /// assert_eq!(header.text()?, "int f();");
    /// # Ok(())
    /// # }
    /// ```
    ///
    /// # Errors
    /// [`Error::Range`] if there is no edit, or a span is invalid; [`Error::Unknown`] if a document number is above 63,
    /// or is repeated after another one; [`Error::Overlap`] if two spans of a document overlap. These three name the
    /// invalid edit, if there is a single one. [`Error::Limit`].
    pub fn joint(&self, edits: &[Edit<'_>]) -> Result<(), Error> {
        let (ops, joined) = ops_of(edits);
        let (raw, at, count, mut bad) = (self.raw(), ops.as_ptr(), ops.len(), 0);
        // SAFETY: see `Session::raw`; pointers and lengths are those of slices, and `bad` is a separate address.
        let status = unsafe {
            match &joined {
                Joined::Utf8(it) => ffi::tm_raw_joint_utf8(raw, at, count, it.as_ptr(), it.len(), &mut bad),
                Joined::Utf16(it) => ffi::tm_raw_joint(raw, at, count, it.as_ptr(), it.len()),
            }
        };
        match status {
            ffi::UNKNOWN | ffi::RANGE | ffi::OVERLAP => Err(Error::of(status, self.edit_at_fault(&ops, status))),
            status => done(status, At::default()),
        }
    }

    /// Finds the edit for which a joint edit was refused.
    fn edit_at_fault(&self, ops: &[ffi::Op], why: u32) -> At {
        let (left, mut index) = (ops.iter().map(|op| op.units).sum(), 0);
        // SAFETY: as in `joint`.
        let status = unsafe { ffi::tm_raw_joint_fault(self.raw(), ops.as_ptr(), ops.len(), left, why, &mut index) };
        let found = ops.get(index as usize).filter(|_| status == ffi::OK);
        At { document: found.map(|op| op.doc as usize), index: found.map(|_| index as usize) }
    }
}
