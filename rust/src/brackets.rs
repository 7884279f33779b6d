//! Brackets outside comments and strings.

use crate::document::Document;
use crate::error::Error;
use crate::ffi;
use crate::text::{Encoding, Position};
use std::iter::FusedIterator;
use std::ops::{Bound, RangeBounds};
use std::vec::IntoIter;

/// The first size of the buffer for a list of brackets.
const LIST: usize = 64;
/// The number of lines whose brackets an iterator reads at once.
const LINES: usize = 512;

/// The state of a bracket.
#[derive(Clone, Copy, Debug, PartialEq, Eq, Hash)]
pub enum BracketState {
    /// An opening bracket that is closed later.
    Opening,
    /// The closing bracket of a pair.
    Closing,
    /// An opening bracket that is never closed.
    Unclosed,
    /// A closing bracket without an opening one.
    Unexpected,
}

impl BracketState {
    fn of(number: u32) -> BracketState {
        match number {
            0 => BracketState::Opening,
            1 => BracketState::Closing,
            2 => BracketState::Unclosed,
            _ => BracketState::Unexpected,
        }
    }
}

/// A bracket. Its column and length have the encoding that the call was given.
#[derive(Clone, Copy, Debug, PartialEq, Eq, Hash)]
pub struct Bracket {
    /// Its position.
    pub position: Position,
    /// Its length.
    pub length: usize,
    /// The index of its pair among those of the document, from 0.
    pub kind: usize,
    /// The number of brackets open around it.
    pub level: usize,
    /// Whether it is one of a pair.
    pub state: BracketState,
}

impl Bracket {
    fn of(raw: &ffi::Bracket) -> Bracket {
        Bracket {
            position: Position::new(raw.line as usize, raw.column as usize),
            length: raw.length as usize,
            kind: raw.kind as usize,
            level: raw.level as usize,
            state: BracketState::of(raw.state),
        }
    }
}

/// The other bracket of a pair.
#[derive(Clone, Copy, Debug, PartialEq, Eq, Hash)]
pub struct Partner {
    /// Its position.
    pub position: Position,
    /// Its length.
    pub length: usize,
}

impl Document<'_> {
    /// The brackets of these lines, from 1, in the order of the text; of all lines with `..`. `encoding` is the unit of
    /// their columns and lengths.
    ///
    /// ```
    /// # use textmodel::{BracketState, Encoding, Error, Session};
    /// # fn main() -> Result<(), Error> {
    /// # let session = Session::new()?;
    /// # let mut document = session.document(0)?;
    /// document.insert(0, "f(x[0]\n")?;
    /// let found: Result<Vec<_>, Error> = document.brackets(1..=1, Encoding::Utf16).collect();
    /// let found = found?;
    /// assert_eq!(found.len(), 3);
    /// assert_eq!((found[0].state, found[1].level), (BracketState::Unclosed, 1));
    /// # Ok(())
    /// # }
    /// ```
    ///
    /// The iterator reads some hundred lines at a time. The first item is [`Error::Range`] if a line is missing, or the
    /// range is empty. An item is, too, if a bracket begins or ends inside a character, as half of a surrogate pair
    /// may.
    pub fn brackets(&self, lines: impl RangeBounds<usize>, encoding: Encoding) -> Brackets<'_> {
        let count = self.len_lines();
        let next = match lines.start_bound() {
            Bound::Included(&first) => first,
            Bound::Excluded(&before) => before.saturating_add(1),
            Bound::Unbounded => 1,
        };
        let last = match lines.end_bound() {
            Bound::Included(&last) => last,
            Bound::Excluded(&end) => end.saturating_sub(1),
            Bound::Unbounded => count,
        };
        let is_refused = next < 1 || next > last || last > count;
        Brackets { document: self.again(), encoding, next, last, told: Vec::new().into_iter(), is_refused }
    }

    fn brackets_of(&self, first: usize, last: usize, encoding: Encoding) -> Result<Vec<Bracket>, Error> {
        let (raw, doc, first, last) = (self.raw(), self.doc(), first as u64, last as u64);
        // SAFETY: see `Session::raw`; the closure gets a buffer, its size and an address for the count.
        let found = self.list(LIST, |out, room, count| unsafe {
            ffi::tm_raw_brackets(raw, doc, first, last, encoding as u32, out, room, count)
        })?;
        Ok(found.iter().map(Bracket::of).collect())
    }

    /// Returns the bracket that matches the one at this position; None if no bracket starts there, or it has no match.
    /// `encoding` is the unit of columns and lengths.
    ///
    /// # Errors
    /// [`Error::Range`] if the position is invalid, or the match begins or ends inside a character. [`Error::Memory`],
    /// but never with [`Encoding::Utf16`] if such a question was asked since the last change.
    pub fn partner(&self, position: Position, encoding: Encoding) -> Result<Option<Partner>, Error> {
        let (line, column) = (position.line as u64, position.column as u64);
        let mut found = ffi::Partner::default();
        // SAFETY: see `Session::raw`; `found` is a separate address.
        let status = unsafe { ffi::tm_match(self.raw(), self.doc(), line, column, encoding as u32, &mut found) };
        Ok(self.was_there(status)?.then(|| Partner {
            position: Position::new(found.line as usize, found.column as usize),
            length: found.length as usize,
        }))
    }

    /// Returns how many brackets are open after those that start before this position. `encoding` is the unit of its
    /// column.
    ///
    /// # Errors
    /// [`Error::Range`] if the position is invalid. [`Error::Memory`], but never with [`Encoding::Utf16`] if such a
    /// question was asked since the last change.
    pub fn level(&self, position: Position, encoding: Encoding) -> Result<usize, Error> {
        let (line, column) = (position.line as u64, position.column as u64);
        let mut level = 0;
        // SAFETY: see `Session::raw`; `level` is a separate address.
        let status = unsafe { ffi::tm_level(self.raw(), self.doc(), line, column, encoding as u32, &mut level) };
        self.done(status).map(|()| level as usize)
    }
}

/// The iterator of [`Document::brackets`]. An error ends it.
#[must_use = "an iterator asks for nothing until it is used"]
#[derive(Debug)]
pub struct Brackets<'d> {
    document: Document<'d>,
    encoding: Encoding,
    next: usize,
    last: usize,
    told: IntoIter<Bracket>,
    is_refused: bool,
}

impl Brackets<'_> {
    /// Reads the brackets of the next lines. If that is refused, none are left.
    fn ask(&mut self) -> Result<(), Error> {
        let (first, last) = (self.next, self.last.min(self.next.saturating_add(LINES - 1)));
        self.next = usize::MAX;
        let found = self.document.brackets_of(first, last, self.encoding)?;
        self.told = found.into_iter();
        self.next = last + 1;
        Ok(())
    }
}

impl Iterator for Brackets<'_> {
    type Item = Result<Bracket, Error>;

    fn next(&mut self) -> Option<Self::Item> {
        if std::mem::take(&mut self.is_refused) {
            self.next = usize::MAX;
            return Some(Err(Error::Range(self.document.at())));
        }
        loop {
            if let Some(bracket) = self.told.next() {
                return Some(Ok(bracket));
            }
            if self.next > self.last {
                return None;
            }
            if let Err(why) = self.ask() {
                return Some(Err(why));
            }
        }
    }
}

impl FusedIterator for Brackets<'_> {}
