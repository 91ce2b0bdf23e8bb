//! Pages that own their buffers.
use crate::lent::{self, Walk};
use crate::record::{Edited, Header, Line, Token};
use crate::refusal::{Buffer, Refusal};
use crate::{LINE_WORDS, MAX_BYTES, TOKEN_WORDS};
use alloc::string::String;
use alloc::vec;
use alloc::vec::Vec;
use core::fmt;
use core::iter::FusedIterator;
use core::ops::Range;

/// A script with its line and token records, which every edit keeps current.
///
/// Pages share no state: each may be edited in a thread of its own. An edit is not atomic where the program ends in its
/// middle; a text that has to outlast that is stored elsewhere and read again.
///
/// ```
/// let mut page = lexpage::Page::new();
/// page.edit(0..0, b"if wet\n  stop\n")?;
/// assert_eq!(page.header().lines, 2);
/// assert_eq!(page.token_text(0)?, b"if");
/// # Ok::<(), lexpage::Refusal>(())
/// ```
#[derive(Clone)]
pub struct Page {
    header: Header,
    text: Vec<u8>,
    spare: Vec<u8>,
    lines: Vec<u32>,
    tokens: Vec<u32>,
    /// How long the edited text is that a refused edit has left in the spare.
    refused: Option<usize>,
}

impl Page {
    /// The fresh page, which has no bytes.
    pub fn new() -> Page {
        Page::with_capacity(0)
    }

    /// The fresh page, with room for a text of so many bytes and for the records of a usual script of that size. A page
    /// grows by itself: this only spares it the growing.
    pub fn with_capacity(bytes: usize) -> Page {
        let bytes = bytes.min(MAX_BYTES);
        let mut lines = vec![0; LINE_WORDS * (bytes / 32 + 1)];
        let header = lent::fresh(&mut lines).expect("21 line words are enough");
        let (text, spare, tokens) = (vec![0; bytes], vec![0; bytes], vec![0; TOKEN_WORDS * (bytes / 3)]);
        Page {
            header,
            text,
            spare,
            lines,
            tokens,
            refused: None,
        }
    }

    /// The page of a text. Refuses 1, 2, 3 or 4.
    ///
    /// ```
    /// use lexpage::{Page, Refusal};
    /// assert_eq!(Page::read(b"a\xFF").unwrap_err(), Refusal::Malformed { prefix: 1 });
    /// ```
    pub fn read(text: &[u8]) -> Result<Page, Refusal> {
        let mut page = Page::with_capacity(text.len());
        page.header = loop {
            match lent::read(text, &mut page.lines, &mut page.tokens) {
                Err(Refusal::ShortBuffer { buffer, least }) => page.grow(buffer, least),
                answer => break answer?,
            }
        };
        page.text[..text.len()].copy_from_slice(text);
        Ok(page)
    }

    /// Replaces the bytes `range` of the text by `bytes`, and reads again the lines that this may change.
    ///
    /// Refuses 6, 1, 2, 3 or 4; the page is then as it was, and [`Page::refused_text`] may have what it would have been.
    pub fn edit(&mut self, range: Range<usize>, bytes: &[u8]) -> Result<Edited, Refusal> {
        let kept = self.text().len().saturating_sub(range.len());
        // Each turn but the last gives one buffer the length that it lacked, and no buffer lacks length twice, since the
        // page and the edit stay the same: at most five turns.
        let answer = loop {
            let (text, spare, lines, tokens) = (&mut self.text, &mut self.spare, &mut self.lines, &mut self.tokens);
            match lent::edit(self.header, text, spare, lines, tokens, range.clone(), bytes) {
                Err(Refusal::ShortBuffer { buffer, least }) => self.grow(buffer, least),
                answer => break answer,
            }
        };
        self.refused = match &answer {
            Ok(edited) => {
                self.header = edited.header;
                None
            }
            Err(Refusal::Malformed { .. } | Refusal::Failure(_) | Refusal::TooDeep { .. }) => Some(kept + bytes.len()),
            Err(_) => None,
        };
        answer
    }

    /// The text that the last edit would have made, if it was refused for what that text holds (2, 3 or 4).
    ///
    /// ```
    /// let mut page = lexpage::Page::read(b"open\n")?;
    /// assert!(page.edit(4..4, b" & dry").is_err());
    /// let message = lexpage::report(page.refused_text().unwrap())?.unwrap();
    /// assert!(message.starts_with("error[E0002]: expected '&&'\n --> <input>:1:6\n"));
    /// # Ok::<(), lexpage::Refusal>(())
    /// ```
    pub fn refused_text(&self) -> Option<&[u8]> {
        self.refused.map(|length| &self.spare[..length])
    }

    /// Gives a buffer at least this length, and some more for edits to come. Its content stays.
    fn grow(&mut self, buffer: Buffer, least: usize) {
        let length = least + least / 2;
        match buffer {
            Buffer::Text => self.text.resize(length, 0),
            Buffer::Spare => self.spare.resize(length, 0),
            Buffer::Lines => self.lines.resize(length, 0),
            Buffer::Tokens => self.tokens.resize(length, 0),
            Buffer::Out | Buffer::Names => unreachable!("a page has no buffer {buffer}"),
        }
    }

    /// The header: how many bytes, lines and tokens the page has.
    pub fn header(&self) -> Header {
        self.header
    }

    /// The text. It is well-formed UTF-8.
    pub fn text(&self) -> &[u8] {
        &self.text[..self.header.bytes as usize]
    }

    /// The words of the line records, the one for the end included.
    pub fn line_words(&self) -> &[u32] {
        &self.lines[..self.header.line_words()]
    }

    /// The words of the token records.
    pub fn token_words(&self) -> &[u32] {
        &self.tokens[..self.header.token_words()]
    }

    /// The line records, one for each line.
    pub fn lines(&self) -> impl DoubleEndedIterator<Item = Line> + ExactSizeIterator + Clone + '_ {
        lent::line_records(self.header, &self.lines).take(self.header.lines as usize)
    }

    /// The record that stands for the end: it starts at n, with the first closing Dedent and the state before those.
    pub fn end(&self) -> Line {
        lent::line_records(self.header, &self.lines)
            .next_back()
            .expect("a page has a record for its end")
    }

    /// The tokens of the text. To go on from the token with some number (`nth`, `skip`) takes no longer than from the first.
    pub fn tokens(&self) -> Tokens<'_> {
        Tokens {
            walk: lent::walk(self.header, &self.tokens),
        }
    }

    /// The text of the token with number `i`, from 0: its bytes, or `<INDENT>`, `<DEDENT>`, `\n` (backslash, n).
    /// Refuses 6.
    pub fn token_text(&self, i: usize) -> Result<&[u8], Refusal> {
        lent::token_text(self.header, &self.text, &self.lines, &self.tokens, i)
    }

    /// Reads the text afresh and compares: whether the page's records are those of its text. They always are unless
    /// something other than this library wrote to the page's memory.
    pub fn check(&self) -> bool {
        lent::check(self.header, &self.text, &self.lines, &self.tokens) == Ok(true)
    }
}

impl Default for Page {
    fn default() -> Page {
        Page::new()
    }
}

/// Two pages are equal if their texts and records are.
impl PartialEq for Page {
    fn eq(&self, other: &Page) -> bool {
        self.header == other.header
            && self.text() == other.text()
            && self.line_words() == other.line_words()
            && self.token_words() == other.token_words()
    }
}

impl Eq for Page {}

impl fmt::Debug for Page {
    fn fmt(&self, f: &mut fmt::Formatter<'_>) -> fmt::Result {
        let text = String::from_utf8_lossy(self.text());
        f.debug_struct("Page")
            .field("header", &self.header)
            .field("text", &text)
            .finish_non_exhaustive()
    }
}

/// The tokens of a page, made by [`Page::tokens`].
#[derive(Debug, Clone)]
pub struct Tokens<'a> {
    walk: Walk<'a>,
}

/// A token whose kind has a name, as every token of a page has.
fn named(token: Result<Token, Refusal>) -> Token {
    token.expect("a page's kinds are 0 to 92")
}

impl Iterator for Tokens<'_> {
    type Item = Token;

    fn next(&mut self) -> Option<Token> {
        self.walk.next().map(named)
    }

    fn nth(&mut self, n: usize) -> Option<Token> {
        self.walk.nth(n).map(named)
    }

    fn size_hint(&self) -> (usize, Option<usize>) {
        self.walk.size_hint()
    }
}

impl ExactSizeIterator for Tokens<'_> {}

impl FusedIterator for Tokens<'_> {}

/// The message of a text's failure, with its line and a caret below it, or none if the text reads. Refuses 1, 2, 4.
///
/// ```
/// let message = lexpage::report(b"open & dry")?.unwrap();
/// assert_eq!(message, "error[E0002]: expected '&&'\n --> <input>:1:6\n  |\n 1 | open & dry\n  |      ^");
/// assert_eq!(lexpage::report(b"open && dry")?, None);
/// # Ok::<(), lexpage::Refusal>(())
/// ```
pub fn report(text: &[u8]) -> Result<Option<String>, Refusal> {
    let mut out = vec![0; 256];
    let length = loop {
        match lent::report(text, &mut out) {
            Err(Refusal::ShortBuffer { least, .. }) => out.resize(least, 0),
            answer => break answer?,
        }
    };
    out.truncate(length);
    let message = String::from_utf8(out).expect("a message is UTF-8, since its text is");
    Ok((length > 0).then_some(message))
}
