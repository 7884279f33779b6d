//! The session, which owns the documents.

use crate::document::Document;
use crate::error::{done, At, Error};
use crate::ffi;
use crate::text::{listed, string_of};
use std::array::from_fn;
use std::cell::{Cell, UnsafeCell};
use std::fmt;

/// How many documents a session has.
pub const DOCUMENTS: usize = 64;

/// The first size of the buffer for a reply, in bytes.
const REPLY: usize = 256;

/// 64 documents, numbered from 0 to 63, all empty at first.
///
/// It may be sent to another thread, and is freed when it is dropped:
///
/// ```
/// use textmodel::Session;
///
/// # fn main() -> Result<(), textmodel::Error> {
/// let session = Session::new()?;
/// session.document(0)?.insert(0, "hi")?;
/// let told = std::thread::spawn(move || session.document(0)?.text()).join();
/// assert_eq!(told.ok(), Some(Ok("hi".to_owned())));
/// # Ok(())
/// # }
/// ```
///
/// Two threads can't share a session without a lock:
///
/// ```compile_fail,E0277
/// fn shared<T: Sync>() {}
/// shared::<textmodel::Session>();
/// ```
pub struct Session {
    raw: UnsafeCell<ffi::Session>,
    /// How often each document was opened, since an open closes its snapshots.
    openings: [Cell<u64>; DOCUMENTS],
}

// SAFETY: any thread may call, one at a time. The library has no locks and no thread-local storage, and only this value
// leads to the memory that it holds. A `Session` is not `Sync`, since an `UnsafeCell` is not.
unsafe impl Send for Session {}

impl Session {
    /// Makes a session of 64 empty documents.
    ///
    /// # Errors
    /// [`Error::Memory`].
    pub fn new() -> Result<Session, Error> {
        let session = Session { raw: UnsafeCell::new(ffi::Session::EMPTY), openings: from_fn(|_| Cell::new(0)) };
        // SAFETY: the session is all zeros, as one begins, and no one else has it.
        let status = unsafe { ffi::tm_make(session.raw()) };
        done(status, At::default()).map(|()| session)
    }

    /// Returns a handle of the document with this number, from 0 to 63.
    ///
    /// # Errors
    /// [`Error::Unknown`] if the number is above 63.
    pub fn document(&self, number: usize) -> Result<Document<'_>, Error> {
        if number >= DOCUMENTS {
            return Err(Error::Unknown(At::of(number)));
        }
        Ok(Document::new(self, number))
    }

    /// Answers a script line, JSON without its LF. Returns the reply, which begins with `ok` or `!`, without its LF too.
    /// A line without a document number is for document 0. The reply itself says whether the line was refused.
    ///
    /// No handle and no snapshot may be alive, since a line may open documents anew.
    ///
    /// ```
    /// # fn main() -> Result<(), textmodel::Error> {
    /// let mut session = textmodel::Session::new()?;
    /// assert_eq!(session.answer(r#"{"cmd":"open","text":"f(x)","doc":3}"#)?, "ok 1 4 1");
    /// assert_eq!(session.document(3)?.text()?, "f(x)");
    /// assert_eq!(session.answer("no command")?, "! syntax");
    /// # Ok(())
    /// # }
    /// ```
    ///
    /// # Errors
    /// [`Error::Memory`], if there is none for the copy of the reply.
    pub fn answer(&mut self, line: impl AsRef<[u8]>) -> Result<String, Error> {
        let (line, mut len) = (line.as_ref(), 0);
        // SAFETY: `raw` says why the session is valid; pointer and length are those of a slice, and `len` is a
        // separate address.
        let status = unsafe { ffi::tm_raw_answer(self.raw(), line.as_ptr(), line.len(), &mut len) };
        done(status, At::default())?;
        let room = (len as usize).max(REPLY);
        // SAFETY: as above; `listed` gives a buffer and its size.
        let mut reply: Vec<u8> = listed(room, At::default(), |out, room, count| unsafe {
            ffi::tm_raw_reply(self.raw(), 0, out, room, count)
        })?;
        reply.truncate(reply.len() - usize::from(reply.ends_with(b"\n")));
        Ok(string_of(reply))
    }

    /// The session as the library gets it. Each call of this crate rests on this:
    ///
    /// - it was made, and is not yet freed, for as long as `self` is borrowed;
    /// - no other call goes on: this thread alone has a `&Session`, as it is not `Sync`, and the library calls nothing
    ///   back;
    /// - no reference leads into it, or into the memory that the library holds: all that comes out is copied.
    pub(crate) fn raw(&self) -> *mut ffi::Session {
        self.raw.get()
    }

    /// Returns how often the document was opened.
    pub(crate) fn openings(&self, document: usize) -> u64 {
        self.openings.get(document).map_or(0, Cell::get)
    }

    /// Notes that the document was opened.
    pub(crate) fn count_opening(&self, document: usize) {
        if let Some(count) = self.openings.get(document) {
            count.set(count.get() + 1);
        }
    }
}

impl Drop for Session {
    fn drop(&mut self) {
        // SAFETY: see `raw`; nothing borrows the session any more. An empty one is left as it is.
        unsafe { ffi::tm_free(self.raw()) };
    }
}

impl fmt::Debug for Session {
    fn fmt(&self, f: &mut fmt::Formatter<'_>) -> fmt::Result {
        f.debug_struct("Session").finish_non_exhaustive()
    }
}

/// Returns the version of the linked library: major, minor, patch.
pub fn library_version() -> (u32, u32, u32) {
    // SAFETY: it takes nothing, and answers a number.
    let version = unsafe { ffi::tm_version() };
    (version / 10_000, version / 100 % 100, version % 100)
}
