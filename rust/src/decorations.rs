//! Decorations: ranges that move with the text.

use crate::document::Document;
use crate::error::{At, Error};
use crate::ffi;
use std::ops::{Range, RangeBounds};

/// The first size of the buffer for a list of decorations.
const LIST: usize = 64;

/// The ends of a decoration at which typed text makes it grow.
#[derive(Clone, Copy, Debug, Default, PartialEq, Eq, Hash)]
pub enum Stick {
    /// Both.
    #[default]
    Both = 0,
    /// Neither.
    Neither = 1,
    /// Its start only.
    Start = 2,
    /// Its end only.
    End = 3,
}

impl Stick {
    fn of(number: u64) -> Stick {
        match number {
            1 => Stick::Neither,
            2 => Stick::Start,
            3 => Stick::End,
            _ => Stick::Both,
        }
    }
}

/// A decoration to add.
#[derive(Clone, Debug, PartialEq, Eq)]
pub struct NewDecoration {
    /// Its span, which may be empty.
    pub span: Range<usize>,
    /// The ends at which it grows.
    pub stick: Stick,
    /// Whether it becomes empty if an edit replaces all of its text.
    pub collapse: bool,
}

impl NewDecoration {
    /// Makes a decoration that grows at both ends and does not collapse.
    pub fn new(span: Range<usize>) -> NewDecoration {
        NewDecoration { span, stick: Stick::Both, collapse: false }
    }

    /// Sets the ends at which it grows.
    #[must_use]
    pub fn stick(self, stick: Stick) -> NewDecoration {
        NewDecoration { stick, ..self }
    }

    fn raw(&self) -> ffi::NewDecoration {
        ffi::NewDecoration {
            start: self.span.start as u64,
            end: self.span.end as u64,
            stick: self.stick as u64,
            collapse: self.collapse,
        }
    }
}

/// A decoration.
#[derive(Clone, Debug, PartialEq, Eq)]
pub struct Decoration {
    /// Its id, from 1, which no other decoration of the document gets.
    pub id: u64,
    /// Its owner, a number of the caller's choice.
    pub owner: u64,
    /// Its span. After an edit around it, an end may be inside a character.
    pub span: Range<usize>,
    /// The ends at which it grows.
    pub stick: Stick,
    /// Whether it becomes empty if an edit replaces all of its text.
    pub collapse: bool,
}

impl Decoration {
    fn of(raw: &ffi::Decoration) -> Decoration {
        Decoration {
            id: raw.id,
            owner: raw.owner,
            span: raw.start as usize..raw.end as usize,
            stick: Stick::of(raw.stick),
            collapse: raw.collapse,
        }
    }
}

impl Document<'_> {
    /// Removes decorations of an owner by their ids, and adds new ones, all or none. Returns the ids of the new ones, in
    /// order. The version and the undo steps are unchanged.
    ///
    /// ```
    /// # use textmodel::{NewDecoration, Session, Stick};
    /// # fn main() -> Result<(), textmodel::Error> {
    /// # let session = Session::new()?;
    /// # let mut document = session.document(0)?;
    /// document.insert(0, "let x = 1")?;
    /// let added = document.decorate(7, &[], &[NewDecoration::new(4..5).stick(Stick::Neither)])?;
    /// document.insert(0, "  ")?;
    /// let decoration = document.decoration(added.start);
    /// assert_eq!(decoration.map(|it| it.span), Some(6..7));
    /// # Ok(())
    /// # }
    /// ```
    ///
    /// # Errors
    /// [`Error::Unknown`] if one to be removed is missing, has another owner, or is repeated; [`Error::Range`] if a span
    /// is invalid. These two have the index in `remove` or in `add`. [`Error::Limit`].
    pub fn decorate(&mut self, owner: u64, remove: &[u64], add: &[NewDecoration]) -> Result<Range<u64>, Error> {
        let (raw, doc, mut first) = (self.raw(), self.doc(), 0);
        let new: Vec<_> = add.iter().map(NewDecoration::raw).collect();
        // SAFETY: see `Session::raw`; pointers and lengths are those of slices, and `first` is a separate address.
        let status = unsafe {
            let (ids, gone, at) = (remove.as_ptr(), remove.len(), new.as_ptr());
            ffi::tm_raw_decorate(raw, doc, owner, ids, gone, at, new.len(), &mut first)
        };
        match status {
            ffi::UNKNOWN | ffi::RANGE => Err(Error::of(status, self.item_at_fault(owner, remove, &new, status))),
            status => self.done(status).map(|()| first..first + new.len() as u64),
        }
    }

    /// Finds the id, or the new decoration, for which a call was refused.
    fn item_at_fault(&self, owner: u64, remove: &[u64], new: &[ffi::NewDecoration], why: u32) -> At {
        let (raw, doc, mut index) = (self.raw(), self.doc(), 0);
        // SAFETY: as in `decorate`.
        let status = unsafe {
            let (ids, gone, at) = (remove.as_ptr(), remove.len(), new.as_ptr());
            ffi::tm_raw_decorate_fault(raw, doc, owner, ids, gone, at, new.len(), why, &mut index)
        };
        At { index: (status == ffi::OK).then_some(index as usize), ..self.at() }
    }

    /// Returns the decoration with this id; None if there is none.
    pub fn decoration(&self, id: u64) -> Option<Decoration> {
        let mut found = ffi::Decoration::default();
        // SAFETY: see `Session::raw`; `found` is a separate address.
        let status = unsafe { ffi::tm_deco(self.raw(), self.doc(), id, &mut found) };
        (status == ffi::OK).then(|| Decoration::of(&found))
    }

    /// Returns the decorations that overlap or touch the span: those of an owner, or all. They are sorted by start, then
    /// by end, then by id.
    ///
    /// # Errors
    /// [`Error::Range`] if the span is invalid.
    pub fn decorations(&self, span: impl RangeBounds<usize>, owner: Option<u64>) -> Result<Vec<Decoration>, Error> {
        let (raw, doc, (start, end)) = (self.raw(), self.doc(), self.span(span));
        let (of, any) = (owner.unwrap_or(0), owner.is_none());
        // SAFETY: see `Session::raw`; the closure gets a buffer, its size and an address for the count.
        let found = self.list(LIST, |out, room, count| unsafe {
            ffi::tm_raw_decos(raw, doc, start, end, of, any, out, room, count)
        })?;
        Ok(found.iter().map(Decoration::of).collect())
    }
}
