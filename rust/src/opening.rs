//! Opening: a new text, its line endings, its brackets, and its comments and strings.

use crate::document::Document;
use crate::error::Error;
use crate::ffi;
use crate::text::{Ending, Text};

/// The texts that begin and end comments and strings, in which brackets are ignored. There are none at first.
///
/// ```
/// let hiding = textmodel::Hiding::new().line("--").block("{-", "-}").quote('"');
/// ```
///
/// Each text has 1 to 32 units and no line break. There are at most 8 quotes, all different. Otherwise the open is
/// refused. A string ends with its line at the latest. A backslash in a string escapes the next unit.
#[derive(Clone, Debug, Default, PartialEq, Eq)]
pub struct Hiding {
    line: Vec<u16>,
    opening: Vec<u16>,
    closing: Vec<u16>,
    quotes: Vec<u16>,
}

impl Hiding {
    /// No comments and no strings.
    pub fn new() -> Hiding {
        Hiding::default()
    }

    /// Sets the text that begins a comment up to the end of its line. Empty means that there are no such comments.
    #[must_use]
    pub fn line<'a>(mut self, text: impl Into<Text<'a>>) -> Hiding {
        self.line = text.into().to_units().into_owned();
        self
    }

    /// Sets the texts that begin and end a block comment. Two empty ones mean that there are no such comments.
    #[must_use]
    pub fn block<'a>(mut self, opening: impl Into<Text<'a>>, closing: impl Into<Text<'a>>) -> Hiding {
        self.opening = opening.into().to_units().into_owned();
        self.closing = closing.into().to_units().into_owned();
        self
    }

    /// Adds a quote, which begins and ends strings. A character above U+FFFF has two units, and adds two quotes.
    #[must_use]
    pub fn quote(mut self, quote: char) -> Hiding {
        self.quotes.extend_from_slice(quote.encode_utf16(&mut [0; 2]));
        self
    }

    fn with_quotes(self, quotes: &str) -> Hiding {
        quotes.chars().fold(self, Hiding::quote)
    }

    /// That of C: `//`, `/*` and `*/`, `"` and `'`.
    #[must_use]
    pub fn c() -> Hiding {
        Hiding::new().line("//").block("/*", "*/").with_quotes("\"'")
    }

    /// That of Rust: as that of C, but without `'`, which begins lifetimes too.
    #[must_use]
    pub fn rust() -> Hiding {
        Hiding::new().line("//").block("/*", "*/").with_quotes("\"")
    }

    /// That of JavaScript: as that of C, and the grave accent.
    #[must_use]
    pub fn javascript() -> Hiding {
        Hiding::new().line("//").block("/*", "*/").with_quotes("\"'`")
    }

    /// That of Python: `#`, `"` and `'`.
    #[must_use]
    pub fn python() -> Hiding {
        Hiding::new().line("#").with_quotes("\"'")
    }

    /// That of the shell: `#`, `"` and `'`.
    #[must_use]
    pub fn shell() -> Hiding {
        Hiding::python()
    }

    fn lengths(&self) -> [u64; 3] {
        [self.line.len(), self.opening.len(), self.closing.len()].map(|it| it as u64)
    }

    /// Its texts, one after another.
    fn texts(&self) -> Vec<u16> {
        [&self.line[..], &self.opening, &self.closing, &self.quotes].concat()
    }
}

/// Options to open a document. By default line endings stay as they come, the brackets are `()`, `[]` and `{}`, and
/// there are no comments or strings.
///
/// ```
/// use textmodel::{Ending, Hiding, OpenOptions, Session};
///
/// # fn main() -> Result<(), textmodel::Error> {
/// let session = Session::new()?;
/// let mut options = OpenOptions::new();
/// options.ending(Ending::Lf).pair("begin", "end").hiding(&Hiding::new().line("--"));
/// let mut document = session.document(0)?;
/// options.open(&mut document, "begin\r\n  f -- end\r\nend\r\n")?;
/// assert_eq!(document.text()?, "begin\n  f -- end\nend\n");
/// # Ok(())
/// # }
/// ```
#[derive(Clone, Debug, Default)]
pub struct OpenOptions {
    ending: Ending,
    pairs: Vec<ffi::Pair>,
    brackets: Vec<u16>,
    hiding: Hiding,
}

impl OpenOptions {
    /// The default options.
    pub fn new() -> OpenOptions {
        OpenOptions::default()
    }

    /// Sets the line endings. Those of the text, and of text inserted later, are converted, except with
    /// [`Ending::Mixed`].
    pub fn ending(&mut self, ending: Ending) -> &mut OpenOptions {
        self.ending = ending;
        self
    }

    /// Adds a pair of brackets, at most 64; the first one replaces `()`, `[]` and `{}`. Its texts have 1 to 32 units and
    /// no line break, and all texts differ.
    pub fn pair<'a>(&mut self, opening: impl Into<Text<'a>>, closing: impl Into<Text<'a>>) -> &mut OpenOptions {
        let (opening, closing) = (opening.into().to_units(), closing.into().to_units());
        self.pairs.push(ffi::Pair { opening: opening.len() as u64, closing: closing.len() as u64 });
        self.brackets.extend_from_slice(&opening);
        self.brackets.extend_from_slice(&closing);
        self
    }

    /// Sets the comments and strings, in which brackets are ignored.
    pub fn hiding(&mut self, hiding: &Hiding) -> &mut OpenOptions {
        self.hiding = hiding.clone();
        self
    }

    /// Replaces the document by a new one with this text, at version 1. The decorations, snapshots, history, mirror and
    /// events of the old one are lost. A read of its [`Snapshot`](crate::Snapshot)s then fails with [`Error::Unknown`].
    ///
    /// # Errors
    /// [`Error::Range`] if the brackets or the hiding are invalid; [`Error::Limit`].
    pub fn open<'a>(&self, document: &mut Document<'_>, text: impl Into<Text<'a>>) -> Result<(), Error> {
        document.done(self.status_of(document, text.into()))?;
        document.session().count_opening(document.number());
        Ok(())
    }

    fn status_of(&self, document: &Document<'_>, text: Text<'_>) -> u32 {
        let (raw, doc, kind, mut bad) = (document.raw(), document.doc(), self.ending as u32, 0);
        let (pairs, pair_count) = (self.pairs.as_ptr(), self.pairs.len());
        let (brackets, brackets_len) = (self.brackets.as_ptr(), self.brackets.len());
        let [line, opening, closing] = self.hiding.lengths();
        let texts = self.hiding.texts();
        let (marks, marks_len) = (texts.as_ptr(), texts.len());
        // SAFETY: see `Session::raw`; pointers and lengths are those of slices, and `bad` is a separate address.
        #[rustfmt::skip]
        let status = unsafe {
            match text {
                Text::Utf8(it) => ffi::tm_raw_open_utf8(
                    raw, doc, kind, it.as_ptr(), it.len(), pairs, pair_count, brackets, brackets_len,
                    line, opening, closing, marks, marks_len, &mut bad,
                ),
                Text::Utf16(it) => ffi::tm_raw_open(
                    raw, doc, kind, it.as_ptr(), it.len(), pairs, pair_count, brackets, brackets_len,
                    line, opening, closing, marks, marks_len,
                ),
            }
        };
        status
    }
}

impl Document<'_> {
    /// Replaces the document by a new one with this text, as [`OpenOptions::open`] does with default options.
    ///
    /// # Errors
    /// [`Error::Limit`].
    pub fn open<'a>(&mut self, text: impl Into<Text<'a>>) -> Result<(), Error> {
        OpenOptions::new().open(self, text)
    }
}
