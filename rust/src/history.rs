//! The history of a document, and its line endings.

use crate::document::Document;
use crate::error::Error;
use crate::ffi;
use crate::text::Ending;

impl Document<'_> {
    /// Undoes the last step; false if there is none. A joint step is undone in all its documents.
    ///
    /// # Errors
    /// [`Error::Joint`] if the step is not the last one of each of its documents: undo their later steps first;
    /// [`Error::Limit`].
    pub fn undo(&mut self) -> Result<bool, Error> {
        let mut other = 0;
        // SAFETY: see `Session::raw`; `other` is a separate address.
        let status = unsafe { ffi::tm_raw_undo(self.raw(), self.doc(), &mut other) };
        self.stepped(status, other)
    }

    /// Redoes the step that was undone last; false if there is none. A joint step is redone in all its documents.
    ///
    /// # Errors
    /// [`Error::Joint`] if the step is not the next one of each of its documents: redo their earlier steps first;
    /// [`Error::Limit`].
    pub fn redo(&mut self) -> Result<bool, Error> {
        let mut other = 0;
        // SAFETY: as in `undo`.
        let status = unsafe { ffi::tm_raw_redo(self.raw(), self.doc(), &mut other) };
        self.stepped(status, other)
    }

    fn stepped(&self, status: u32, other: u64) -> Result<bool, Error> {
        match status {
            ffi::JOINT => Err(Error::Joint { document: other as usize }),
            status => self.was_there(status),
        }
    }

    /// Whether there is a step to undo.
    pub fn can_undo(&self) -> bool {
        // SAFETY: see `Session::raw`.
        unsafe { ffi::tm_can_undo(self.raw(), self.doc()) == ffi::OK }
    }

    /// Whether there is a step to redo.
    pub fn can_redo(&self) -> bool {
        // SAFETY: see `Session::raw`.
        unsafe { ffi::tm_can_redo(self.raw(), self.doc()) == ffi::OK }
    }

    /// Makes the next edit begin a new undo step. Edits are one step if no `end_step`, undo, redo,
    /// [`replace_all`](Document::replace_all), change of line endings or joint edit of several documents comes between
    /// them.
    pub fn end_step(&mut self) {
        // SAFETY: see `Session::raw`.
        let status = unsafe { ffi::tm_stop(self.raw(), self.doc()) };
        debug_assert_eq!(status, ffi::OK);
    }

    /// Converts all line endings to this kind, as an undo step of its own; false if the document has it already.
    /// [`Ending::Mixed`] leaves the text unchanged, and the endings of text inserted later too.
    ///
    /// # Errors
    /// [`Error::Limit`].
    pub fn set_ending(&mut self, ending: Ending) -> Result<bool, Error> {
        // SAFETY: see `Session::raw`.
        self.was_there(unsafe { ffi::tm_set_eol(self.raw(), self.doc(), ending as u32) })
    }
}
