//! The calls on buffers that the caller lends. Nothing here allocates.
//!
//! A page is a [`Header`], which the caller keeps, and four buffers: `text`, `spare`, `lines` and `tokens`. A text of n
//! bytes has at most n lines and 2n tokens, so that 21(n + 1) line words and 10n token words are always enough; refusal 5
//! ([`Refusal::ShortBuffer`]) names the least length where a buffer is shorter. A refusal leaves text, lines and tokens
//! untouched.
//!
//! ```
//! use lexpage::{lent, Refusal};
//!
//! let (mut text, mut spare) = ([0; 64], [0; 64]);
//! let (mut lines, mut tokens) = ([0; 21 * 9], [0; 5 * 32]);
//! let mut header = lent::fresh(&mut lines)?;
//! let edited = lent::edit(header, &mut text, &mut spare, &mut lines, &mut tokens, 0..0, b"a\n  b\n")?;
//! header = edited.header;
//! assert_eq!((header.bytes, header.lines, header.tokens), (6, 2, 6));
//! assert!(lent::check(header, &text, &lines, &tokens)?);
//! assert_eq!(lent::walk(header, &tokens).count(), 6);
//! # Ok::<(), Refusal>(())
//! ```
//!
//! Calls share no state, so that they may run at the same time on different buffers. While a call runs, nothing may change
//! what it is lent: Rust's references see to that in one program, but not for memory that another program or a device can
//! write (a mapped file). A text that changes while it is read may end the program.
//!
//! An accepted edit is not atomic: it writes tokens, lines and text in place. A page in lasting memory whose edit was broken
//! off in the middle is to be read again from its text ([`read`]). That text may then be a mixture of the old and the new
//! one, and [`check`] does not tell: it says whether header and records are those of the text that is there.
use crate::ffi::{self, Reply};
use crate::number::Number;
use crate::record::{Edited, Header, Line, Token};
use crate::refusal::Refusal;
use crate::{LINE_WORDS, TOKEN_WORDS};
use core::iter::FusedIterator;
use core::ops::Range;

/// The names of Indent, Dedent and Newline, one after the other.
const NAMES: &[u8; 18] = b"<INDENT><DEDENT>\\n";

/// The number of the text among the buffers.
const TEXT: u64 = 1;

/// The values of an acceptance as `from` takes them, or the refusal.
fn accepted<T>(reply: Reply, from: impl FnOnce(&[u64]) -> T) -> Result<T, Refusal> {
    match reply.words() {
        [0, values @ ..] => Ok(from(values)),
        refusal => Err(Refusal::from_words(refusal)),
    }
}

/// The first words of a buffer: so many, or all where there are fewer.
fn first(words: &[u32], count: usize) -> &[u32] {
    &words[..count.min(words.len())]
}

/// Makes the fresh page, which has no bytes. It needs 21 line words (otherwise 5).
pub fn fresh(lines: &mut [u32]) -> Result<Header, Refusal> {
    accepted(ffi::fresh(lines), Header::from_words)
}

/// Reads a text by itself and writes its records; words past them are untouched.
///
/// Refuses 1, 2, 3 or 4, 5 (lines), 5 (tokens).
pub fn read(text: &[u8], lines: &mut [u32], tokens: &mut [u32]) -> Result<Header, Refusal> {
    accepted(ffi::read(text, lines, tokens), Header::from_words)
}

/// Replaces the bytes `range` of a page's text by `bytes`, and mends its records. The header is then the returned one.
///
/// Refuses 7, 6, 1, 5 (text), 5 (spare), 2, 3 or 4, 5 (lines), 5 (tokens). From 2 on a refusal leaves the edited text
/// at the front of the spare.
pub fn edit(
    header: Header,
    text: &mut [u8],
    spare: &mut [u8],
    lines: &mut [u32],
    tokens: &mut [u32],
    range: Range<usize>,
    bytes: &[u8],
) -> Result<Edited, Refusal> {
    let reply = ffi::edit(header, text, spare, lines, tokens, (range.start, range.end), bytes);
    accepted(reply, |values| Edited {
        header: Header::from_words(values),
        reread: values[3] as usize,
    })
}

/// Whether header and records are those of a fresh reading of the text. Refuses 7.
pub fn check(header: Header, text: &[u8], lines: &[u32], tokens: &[u32]) -> Result<bool, Refusal> {
    accepted(ffi::check(header, text, lines, tokens), |values| values[0] == 1)
}

/// The text of the token with number `i`: its bytes, or `<INDENT>`, `<DEDENT>`, `\n` (backslash, n).
///
/// Refuses 7 (header), 6, 7 (token).
pub fn token_text<'t>(
    header: Header,
    text: &'t [u8],
    lines: &[u32],
    tokens: &[u32],
    i: usize,
) -> Result<&'t [u8], Refusal> {
    accepted(ffi::token_text(header, text, lines, tokens, i, NAMES), |values| {
        let buffer = if values[0] == TEXT { text } else { NAMES };
        &buffer[values[1] as usize..][..values[2] as usize]
    })
}

/// A walk over the records of a page's tokens: as many as the header says, or as there are words for where fewer are lent.
/// What stands past them in the buffer is not looked at. A record whose kind is above 92, which no reading writes, is
/// refused with 7.
pub fn walk(header: Header, tokens: &[u32]) -> Walk<'_> {
    Walk {
        tokens: first(tokens, header.token_words()),
        next: 0,
    }
}

/// A walk over token records, made by [`walk`].
#[derive(Debug, Clone)]
pub struct Walk<'a> {
    tokens: &'a [u32],
    next: usize,
}

impl Iterator for Walk<'_> {
    type Item = Result<Token, Refusal>;

    fn next(&mut self) -> Option<Self::Item> {
        match *ffi::walk_step(self.tokens, self.next).words() {
            [0, 1, next, ref record @ ..] => {
                self.next = next as usize;
                Some(Token::from_words(record))
            }
            _ => None,
        }
    }

    fn nth(&mut self, n: usize) -> Option<Self::Item> {
        self.next = self.next.saturating_add(n);
        self.next()
    }

    fn size_hint(&self) -> (usize, Option<usize>) {
        let left = (self.tokens.len() / TOKEN_WORDS).saturating_sub(self.next);
        (left, Some(left))
    }
}

impl ExactSizeIterator for Walk<'_> {}

impl FusedIterator for Walk<'_> {}

/// The records of a page's lines and the one for the end: m + 1 by the header, or as many as there are words for where fewer
/// are lent. What stands past them in the buffer is not looked at.
pub fn line_records(
    header: Header,
    lines: &[u32],
) -> impl DoubleEndedIterator<Item = Line> + ExactSizeIterator + Clone + '_ {
    first(lines, header.line_words())
        .chunks_exact(LINE_WORDS)
        .map(|words| Line::from_words(words.try_into().expect("a chunk of a record's size")))
}

/// Writes the message of a text's failure to the front of `out` and returns its length: 0 if the text reads.
///
/// Refuses 1, 2, 4, 5 (out).
pub fn report(text: &[u8], out: &mut [u8]) -> Result<usize, Refusal> {
    accepted(ffi::report(text, out), |values| values[0] as usize)
}

/// The panel column of an offset: the scalars before it in its line, plus 1. Refuses 1, 2, 6.
///
/// ```
/// let text = "鮭 x".as_bytes();
/// assert_eq!(lexpage::panel_column(text, 4)?, 3);
/// assert!(lexpage::panel_column(text, 1).is_err()); // inside a scalar
/// # Ok::<(), lexpage::Refusal>(())
/// ```
pub fn panel_column(text: &[u8], offset: usize) -> Result<usize, Refusal> {
    accepted(ffi::panel_column(text, offset), |values| values[0] as usize)
}

/// The value of a byte literal, or none. Refuses 1, 2.
///
/// ```
/// assert_eq!(lexpage::byte_value(br"b'\n'")?, Some(10));
/// assert_eq!(lexpage::byte_value(b"600")?, None);
/// # Ok::<(), lexpage::Refusal>(())
/// ```
pub fn byte_value(text: &[u8]) -> Result<Option<u8>, Refusal> {
    accepted(ffi::byte_value(text), |values| {
        (values[0] == 1).then(|| values[1] as u8)
    })
}

/// The number at the front of a text, or none where the text does not begin with a digit. Refuses 1, 2.
///
/// What follows the number does not matter, but the whole text is looked at for UTF-8: of a page, lend the token's text.
///
/// ```
/// use lexpage::{number_parts, Number, Suffix};
/// let number = number_parts(b"2.5fx")?.unwrap();
/// assert_eq!(number, Number { end: 5, base: 10, digits: 3, suffix: Some(Suffix::Fx) });
/// assert_eq!(number_parts(b"0x1f64")?.unwrap().suffix, None); // hex digits to its end
/// assert_eq!(number_parts(b"-1")?, None);
/// # Ok::<(), lexpage::Refusal>(())
/// ```
pub fn number_parts(text: &[u8]) -> Result<Option<Number>, Refusal> {
    accepted(ffi::number_parts(text), |values| {
        (values[0] == 1).then(|| Number::from_words(&values[1..]))
    })
}
