//! The document behind an editor: text, lines, undo and redo, decorations, brackets outside comments and strings,
//! search, snapshots, mirrors, and joint edits of several documents. This is a safe layer over the library for C, whose
//! core is proved.
//!
//! ```
//! use textmodel::{Encoding, Hiding, OpenOptions, Position, Session};
//!
//! # fn main() -> Result<(), textmodel::Error> {
//! let session = Session::new()?;
//! let mut document = session.document(0)?; // one of 64, from 0
//! OpenOptions::new().hiding(&Hiding::rust()).open(&mut document, "fn f(x) { // (\n    g[x\n}\n")?;
//! document.insert(22, "]")?; // offsets count UTF-16 units from 0
//! let partner = document.partner(Position::new(1, 9), Encoding::Utf16)?; // lines and columns count from 1
//! assert_eq!(partner.map(|it| it.position), Some(Position::new(3, 1)));
//! assert_eq!(document.line(2)?, "    g[x]");
//! assert!(document.undo()?);
//! assert_eq!(document.line(2)?, "    g[x");
//! # Ok(())
//! # }
//! ```
//!
//! # Sessions, documents and threads
//!
//! A [`Session`] owns 64 documents and may be sent to another thread. It is not `Sync`: put it in a `Mutex` to use it
//! from several threads. A [`Document`] is a handle of one of them. It borrows the session shared, so that several
//! documents can be edited at once, and a [`Snapshot`] can be read while its document changes. Questions take `&self`
//! and changes `&mut self`: while an iterator of a handle lives, the handle can't change its document. A
//! [joint edit](Session::joint) is a call of the session. Handles are cheap: `session.document(3)?` makes one when
//! needed.
//!
//! # Units
//!
//! - A text is UTF-16; lone surrogates are allowed. Calls take a `&str` or UTF-16 units, see [`Text`]. Calls that
//!   return a `String` replace a lone surrogate by U+FFFD; each has a variant that returns units.
//! - An offset counts units from 0. A valid offset is from 0 to the length of the text, not inside a surrogate pair, and
//!   not between a CR and its LF if the document has CR LF endings. Spans are ranges of offsets; in a valid span both
//!   are valid, and the start is not above the end.
//! - Lines and columns count from 1. An [`Encoding`] is the unit of a column.
//! - A text has at most 2^40 - 1 units, a document at most 2^20 decorations and 1,000 open snapshots; versions and ids
//!   go up to 2^63 - 1. A call that would pass a limit is refused with [`Error::Limit`].
//!
//! A refused call has changed nothing. Any call that returns a `Result` may fail with [`Error::Memory`]; the pages of
//! the calls do not repeat that.
#![deny(missing_docs, unsafe_op_in_unsafe_fn)]
#![deny(clippy::unwrap_used, clippy::expect_used, clippy::undocumented_unsafe_blocks)]

#[cfg(not(target_pointer_width = "64"))]
compile_error!("textmodel counts in 64 bits, and so must usize");

mod brackets;
mod changes;
mod decorations;
mod document;
mod edits;
mod error;
mod ffi;
mod history;
mod mirrors;
mod opening;
mod reading;
mod search;
mod session;
mod snapshot;
mod text;

pub use brackets::{Bracket, BracketState, Brackets, Partner};
pub use changes::Change;
pub use decorations::{Decoration, NewDecoration, Stick};
pub use document::Document;
pub use edits::Edit;
pub use error::{At, Error};
pub use mirrors::{Event, Mirrored};
pub use opening::{Hiding, OpenOptions};
pub use reading::{Chunks, Lines};
pub use search::Search;
pub use session::{library_version, Session, DOCUMENTS};
pub use snapshot::Snapshot;
pub use text::{Encoding, Ending, Position, Text};

// The lines of the page are tried as a doctest.
#[cfg(doctest)]
#[doc = include_str!("../README.md")]
struct ReadmeLines;
