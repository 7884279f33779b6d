//! Why a call was refused.

use crate::ffi;
use std::fmt;

/// The invalid item of a refused call, if known.
#[derive(Clone, Copy, Debug, Default, PartialEq, Eq, Hash)]
pub struct At {
    /// The number of the document, as the caller gave it.
    pub document: Option<usize>,
    /// The index in the list of the joint edit's edits, of the ids to remove, or of the decorations to add, from 0. With
    /// only the items before it, the call would not have been refused with this error.
    pub index: Option<usize>,
}

impl At {
    pub(crate) fn of(document: usize) -> At {
        At { document: Some(document), index: None }
    }
}

/// Why a call was refused. A refused call has changed nothing.
#[derive(Clone, Copy, Debug, PartialEq, Eq, Hash)]
#[non_exhaustive]
pub enum Error {
    /// There is no document, decoration, snapshot, event or mirror with this number.
    Unknown(At),
    /// An offset, span, line, column or text is out of range or invalid.
    Range(At),
    /// Two edits of one document overlap.
    Overlap(At),
    /// A limit would be passed: 2^40 - 1 units in a text, 2^20 decorations or 1,000 open snapshots in a document,
    /// 65,536 events sent, or 2^63 - 1 for a version or an id.
    Limit(At),
    /// There was no memory for the call.
    Memory(At),
    /// The step is a joint one, and not the last one (to undo) or the next one (to redo) of each of its documents.
    Joint {
        /// A document whose last or next step is another one.
        document: usize,
    },
    /// The mirror lacks earlier events.
    Gap {
        /// The version of the mirror.
        have: u64,
        /// The version from which the event leads.
        need: u64,
    },
    /// The library returned a status unknown to this crate, as a library of another version may.
    Status(u32),
}

impl Error {
    /// The error of a status other than OK.
    pub(crate) fn of(status: u32, at: At) -> Error {
        match status {
            ffi::UNKNOWN => Error::Unknown(at),
            ffi::RANGE => Error::Range(at),
            ffi::OVERLAP => Error::Overlap(at),
            ffi::LIMIT => Error::Limit(at),
            ffi::MEMORY => Error::Memory(at),
            other => Error::Status(other),
        }
    }

    /// The invalid item, for the errors that have one.
    pub fn at(&self) -> At {
        match *self {
            Error::Unknown(at) | Error::Range(at) | Error::Overlap(at) | Error::Limit(at) | Error::Memory(at) => at,
            Error::Joint { document } => At::of(document),
            Error::Gap { .. } | Error::Status(_) => At::default(),
        }
    }

    fn message(&self) -> &'static str {
        match self {
            Error::Unknown(_) => "there is no document, decoration, snapshot, event or mirror of this number",
            Error::Range(_) => "an argument is out of range or invalid",
            Error::Overlap(_) => "two edits overlap",
            Error::Limit(_) => "a limit would be passed",
            Error::Memory(_) => "out of memory",
            Error::Joint { .. } => "a step of several documents is not the next one of each",
            Error::Gap { .. } => "the mirror lacks events before this one",
            Error::Status(_) => "the library answered a status that is not expected",
        }
    }
}

impl fmt::Display for Error {
    fn fmt(&self, f: &mut fmt::Formatter<'_>) -> fmt::Result {
        let at = self.at();
        if let Some(document) = at.document {
            write!(f, "document {document}: ")?;
        }
        if let Some(index) = at.index {
            write!(f, "item {index} of the list: ")?;
        }
        f.write_str(self.message())?;
        match self {
            Error::Gap { have, need } => write!(f, ": it has version {have}, and needs {need}"),
            Error::Status(status) => write!(f, ": {status}"),
            _ => Ok(()),
        }
    }
}

impl std::error::Error for Error {}

/// `Ok` if the status is OK.
pub(crate) fn done(status: u32, at: At) -> Result<(), Error> {
    match status {
        ffi::OK => Ok(()),
        refused => Err(Error::of(refused, at)),
    }
}

/// Whether there was something to do or to find.
pub(crate) fn was_there(status: u32, at: At) -> Result<bool, Error> {
    match status {
        ffi::NOTHING => Ok(false),
        status => done(status, at).map(|()| true),
    }
}
