//! Texts as calls take and return them, and the units of offsets and columns.

use crate::error::{done, At, Error};
use crate::ffi;
use std::borrow::Cow;

/// A text that a call takes: a `str`, or UTF-16 if a lone surrogate matters. Calls take what converts into it.
#[derive(Clone, Copy, Debug, PartialEq, Eq)]
pub enum Text<'a> {
    /// UTF-8.
    Utf8(&'a str),
    /// UTF-16; lone surrogates are allowed.
    Utf16(&'a [u16]),
}

impl<'a> Text<'a> {
    /// Its UTF-16 units.
    pub fn to_units(&self) -> Cow<'a, [u16]> {
        match *self {
            Text::Utf8(text) => text.encode_utf16().collect(),
            Text::Utf16(units) => Cow::Borrowed(units),
        }
    }
}

impl<'a> From<&'a str> for Text<'a> {
    fn from(text: &'a str) -> Self {
        Text::Utf8(text)
    }
}

impl<'a> From<&'a String> for Text<'a> {
    fn from(text: &'a String) -> Self {
        Text::Utf8(text)
    }
}

impl<'a> From<&'a [u16]> for Text<'a> {
    fn from(units: &'a [u16]) -> Self {
        Text::Utf16(units)
    }
}

impl<'a, const N: usize> From<&'a [u16; N]> for Text<'a> {
    fn from(units: &'a [u16; N]) -> Self {
        Text::Utf16(units)
    }
}

impl<'a> From<&'a Vec<u16>> for Text<'a> {
    fn from(units: &'a Vec<u16>) -> Self {
        Text::Utf16(units)
    }
}

/// The unit of a column, or of the length of a bracket. A lone surrogate counts as U+FFFD.
#[derive(Clone, Copy, Debug, PartialEq, Eq, Hash)]
pub enum Encoding {
    /// Bytes of UTF-8.
    Utf8 = 8,
    /// UTF-16 units. Calls with it need no memory for the conversion.
    Utf16 = 16,
    /// Code points.
    Utf32 = 32,
}

/// The line endings of a document.
#[derive(Clone, Copy, Debug, Default, PartialEq, Eq, Hash)]
pub enum Ending {
    /// Each is as it came: LF, CR LF or CR.
    #[default]
    Mixed = 0,
    /// Each is LF, in text inserted later too.
    Lf = 1,
    /// Each is CR LF, in text inserted later too.
    CrLf = 2,
}

impl Ending {
    pub(crate) fn of(kind: u32) -> Ending {
        match kind {
            1 => Ending::Lf,
            2 => Ending::CrLf,
            _ => Ending::Mixed,
        }
    }
}

/// A line and a column, both from 1. The unit of the column is the [`Encoding`] passed beside it.
#[derive(Clone, Copy, Debug, PartialEq, Eq, PartialOrd, Ord, Hash)]
pub struct Position {
    /// The line, from 1.
    pub line: usize,
    /// The column, from 1 to the length of the line plus 1.
    pub column: usize,
}

impl Position {
    /// Makes a position of a line and a column, both from 1.
    pub const fn new(line: usize, column: usize) -> Position {
        Position { line, column }
    }
}

/// A buffer for this many elements.
fn room_for<T: Clone + Default>(out: &mut Vec<T>, room: usize, at: At) -> Result<(), Error> {
    let more = room.saturating_sub(out.len());
    out.try_reserve_exact(more).map_err(|_| Error::Memory(at))?;
    out.resize(room, T::default());
    Ok(())
}

/// Returns the elements that a call writes into a buffer of this size at first. If that is too short, the call is
/// repeated.
///
/// `call` gets the address of the buffer, its size, and the address for the number of elements.
pub(crate) fn listed<T: Clone + Default>(
    room: usize,
    at: At,
    mut call: impl FnMut(*mut T, usize, *mut u64) -> u32,
) -> Result<Vec<T>, Error> {
    let (mut out, mut count) = (Vec::new(), 0);
    room_for(&mut out, room, at)?;
    let mut status = call(out.as_mut_ptr(), out.len(), &mut count);
    if status == ffi::SHORT {
        room_for(&mut out, count as usize, at)?;
        status = call(out.as_mut_ptr(), out.len(), &mut count);
    }
    out.truncate(count as usize);
    done(status, at).map(|()| out)
}

/// Returns what the library wrote as UTF-8. It is checked, so that no `str` holds anything else.
pub(crate) fn string_of(bytes: Vec<u8>) -> String {
    String::from_utf8(bytes).unwrap_or_else(|e| String::from_utf8_lossy(e.as_bytes()).into_owned())
}
