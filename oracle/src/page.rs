//! Document 01's page, its edits and the calls around it.
//!
//! What an edit answers past refusals 7, 6, 1, 5 (text, spare) and 2 is document 01's only on a
//! faithful page; on another page that fits it is free, and nothing may be concluded from it.

use crate::original;
use crate::original::types::TokenKind;
use crate::reading::{
    checked_text, fresh_reading, room, Buffer, Records, Refusal, Reply, LAST_KIND, LINE_WORDS,
    MAX_BYTES, TOKEN_WORDS,
};

/// "a lent 18-byte names slice, `<INDENT>` `<DEDENT>` `\n` (backslash, n)"
pub const NAMES: &str = "<INDENT><DEDENT>\\n";

/// "Program `scan` reads a text of at most 512 bytes"
pub const SCAN_BYTES: usize = 512;

/// The lengths of the four buffers lent to a page.
#[derive(Debug, Clone, Copy, PartialEq, Eq)]
pub struct Lengths {
    pub text: usize,
    pub spare: usize,
    pub lines: usize,
    pub tokens: usize,
}

/// "A header of three u32 ... Buffers: text, lines and tokens (u32 words), and a spare."
#[derive(Debug, Clone, PartialEq, Eq)]
pub struct Page {
    pub n: u32,
    pub m: u32,
    pub k: u32,
    pub text: Vec<u8>,
    pub spare: Vec<u8>,
    pub lines: Vec<u32>,
    pub tokens: Vec<u32>,
}

/// "An edit replaces bytes a..b by the bytes w", past the checks of its range.
struct Splice<'a> {
    a: usize,
    b: usize,
    w: &'a [u8],
}

impl Page {
    /// Buffers of these lengths, each byte AA and each word AAAAAAAA (hex); the header is 0, 0, 0.
    pub fn with_lengths(lengths: Lengths) -> Page {
        Page {
            n: 0,
            m: 0,
            k: 0,
            text: vec![0xAA; lengths.text],
            spare: vec![0xAA; lengths.spare],
            lines: vec![0xAAAA_AAAA; lengths.lines],
            tokens: vec![0xAAAA_AAAA; lengths.tokens],
        }
    }

    /// "The fresh page has header 0, 0, 0 and 21 zero line words; it needs 21."
    pub fn fresh(&mut self) -> Reply {
        if let Err(refusal) = room(Buffer::Lines, self.lines.len(), LINE_WORDS as u64) {
            return refusal.numbers();
        }
        (self.n, self.m, self.k) = (0, 0, 0);
        self.lines[..LINE_WORDS].fill(0);
        vec![0, 0, 0, 0]
    }

    /// "returned are the header and the re-read count"
    pub fn edit(&mut self, a: u64, b: u64, w: &[u8]) -> Reply {
        match self.try_edit(a, b, w) {
            Ok(count) => {
                let header = [self.n, self.m, self.k].map(u64::from);
                [&[0], &header[..], &[count]].concat()
            }
            Err(refusal) => refusal.numbers(),
        }
    }

    /// "Order for an edit: 7, 6, 1, 5 (text), 5 (spare), 2, then 3 or 4 ..., 5 (lines), 5 ..."
    fn try_edit(&mut self, a: u64, b: u64, w: &[u8]) -> Result<u64, Refusal> {
        self.fits()?;
        let splice = self.proper(a, b, w)?;
        let length = self.edited_length(&splice)?;
        self.fill_spare(&splice, length);
        let new = fresh_reading(&self.spare[..length])?;
        room(Buffer::Lines, self.lines.len(), new.lines.len() as u64)?;
        room(Buffer::Tokens, self.tokens.len(), new.tokens.len() as u64)?;
        let count = self.reread_count(&splice, &new);
        self.accept(&new);
        Ok(count)
    }

    /// "7: header needs more text, line words or token words than lent"
    pub fn fits(&self) -> Result<(), Refusal> {
        let [n, m, k] = [self.n, self.m, self.k].map(u64::from);
        let text = n <= self.text.len() as u64;
        let lines = LINE_WORDS as u64 * (m + 1) <= self.lines.len() as u64;
        let tokens = TOKEN_WORDS as u64 * k <= self.tokens.len() as u64;
        if text && lines && tokens {
            return Ok(());
        }
        Err(Refusal::Page)
    }

    /// "6: edit a..b with a > b or b > n"
    fn proper<'a>(&self, a: u64, b: u64, w: &'a [u8]) -> Result<Splice<'a>, Refusal> {
        if a > b || b > u64::from(self.n) {
            return Err(Refusal::Range);
        }
        let (a, b) = (a as usize, b as usize);
        Ok(Splice { a, b, w })
    }

    /// "1, the length (...)", then "5 (text), 5 (spare)"
    fn edited_length(&self, splice: &Splice) -> Result<usize, Refusal> {
        let kept = u64::from(self.n) - (splice.b - splice.a) as u64;
        let length = kept.saturating_add(splice.w.len() as u64);
        if length > MAX_BYTES as u64 {
            return Err(Refusal::TooLong(length));
        }
        room(Buffer::Text, self.text.len(), length)?;
        room(Buffer::Spare, self.spare.len(), length)?;
        Ok(length as usize)
    }

    /// "the spare holds the edited text in its first bytes"
    fn fill_spare(&mut self, splice: &Splice, length: usize) {
        let old = &self.text[..self.n as usize];
        let edited = [&old[..splice.a], splice.w, &old[splice.b..]].concat();
        self.spare[..length].copy_from_slice(&edited);
    }

    /// "The count is the number of lines read, perhaps 0: ... from that beginning to that stop."
    fn reread_count(&self, splice: &Splice, new: &Records) -> u64 {
        let old_text = &self.text[..self.n as usize];
        let begin = line_feeds(&old_text[..splice.a]);
        let old = fresh_reading(old_text).ok();
        let stop = stop_line(splice, old.as_ref(), new);
        (stop - begin) as u64
    }

    /// "text and spare begin with the n' edited bytes, records ..., all later ... untouched"
    fn accept(&mut self, new: &Records) {
        let length = new.n as usize;
        self.text[..length].copy_from_slice(&self.spare[..length]);
        self.lines[..new.lines.len()].copy_from_slice(&new.lines);
        self.tokens[..new.tokens.len()].copy_from_slice(&new.tokens);
        (self.n, self.m, self.k) = (new.n, new.m, new.k);
    }

    /// "Check: 7 for the header; otherwise yes exactly if header and records are faithful."
    pub fn check(&self) -> Reply {
        match self.fits() {
            Ok(()) => vec![0, u64::from(self.is_faithful())],
            Err(refusal) => refusal.numbers(),
        }
    }

    /// "A page is faithful if its records are those of a fresh reading."
    fn is_faithful(&self) -> bool {
        fresh_reading(&self.text[..self.n as usize]).is_ok_and(|reading| {
            (self.n, self.m, self.k) == (reading.n, reading.m, reading.k)
                && self.lines.starts_with(&reading.lines)
                && self.tokens.starts_with(&reading.tokens)
        })
    }

    /// "The text of a token is handed back as a part of the page's text or of ... names"
    pub fn token_text(&self, i: u64, names: usize) -> Reply {
        match self.try_token_text(i, names) {
            Ok((buffer, start, length)) => vec![0, buffer as u64, start, length],
            Err(refusal) => refusal.numbers(),
        }
    }

    /// "the kind alone decides which. Order: 7 (header), 6, 7 (token), 5 (names)."
    fn try_token_text(&self, i: u64, names: usize) -> Result<(Buffer, u64, u64), Refusal> {
        self.fits()?;
        if i >= u64::from(self.k) {
            return Err(Refusal::Range);
        }
        let words = &self.tokens[TOKEN_WORDS * i as usize..];
        let (kind, start, length) = (words[0], u64::from(words[1]), u64::from(words[2]));
        if kind > LAST_KIND || start + length > u64::from(self.n) {
            return Err(Refusal::Page);
        }
        room(Buffer::Names, names, NAMES.len() as u64)?;
        Ok(match kind {
            k if k == TokenKind::Indent as u32 => (Buffer::Names, 0, 8),
            k if k == TokenKind::Dedent as u32 => (Buffer::Names, 8, 8),
            k if k == TokenKind::Newline as u32 => (Buffer::Names, 16, 2),
            _ => (Buffer::Text, start, length),
        })
    }
}

/// "as many LFs as the first a bytes hold"
fn line_feeds(bytes: &[u8]) -> usize {
    bytes.iter().filter(|byte| **byte == b'\n').count()
}

/// "stops at the first line start beyond a + |w| ... whose state equals the old state"
fn stop_line(splice: &Splice, old: Option<&Records>, new: &Records) -> usize {
    let end = new.m as usize;
    let beyond = (splice.a + splice.w.len()) as u64;
    let Some(old) = old else { return end };
    let same_state = |line: &usize| {
        let start = new.start(*line);
        start > beyond && old.state_at(splice.b as u64 + (start - beyond)) == Some(new.state(*line))
    };
    (0..end).find(same_state).unwrap_or(end)
}

/// "A reading of a text by itself writes records to lines and tokens ... and returns the header"
pub fn read_into(text: &[u8], lines: &mut [u32], tokens: &mut [u32]) -> Reply {
    let room_for = |reading: &Records| {
        room(Buffer::Lines, lines.len(), reading.lines.len() as u64)?;
        room(Buffer::Tokens, tokens.len(), reading.tokens.len() as u64)
    };
    match fresh_reading(text).and_then(|reading| room_for(&reading).map(|()| reading)) {
        Ok(reading) => {
            lines[..reading.lines.len()].copy_from_slice(&reading.lines);
            tokens[..reading.tokens.len()].copy_from_slice(&reading.tokens);
            header_reply(&reading)
        }
        Err(refusal) => refusal.numbers(),
    }
}

/// "A reading of a text by itself ... returns the header": 0, n, m, k.
pub fn header_reply(reading: &Records) -> Reply {
    [0, reading.n, reading.m, reading.k].map(u64::from).to_vec()
}

/// "each step gives a record and a next number one higher, or done, the number kept"
pub fn walk_step(tokens: &[u32], next: u64) -> Reply {
    let record = usize::try_from(next)
        .ok()
        .and_then(|number| number.checked_mul(TOKEN_WORDS))
        .and_then(|at| tokens.get(at..)?.get(..TOKEN_WORDS));
    match record {
        Some(words) => {
            let words = words.iter().map(|word| u64::from(*word));
            [0, 1, next + 1].into_iter().chain(words).collect()
        }
        None => vec![0, 0, next],
    }
}

/// "the failure's `message` as in `fmt_mark_error`", empty "if the text reads well"
pub fn message(text: &[u8]) -> Result<Vec<u8>, Refusal> {
    match fresh_reading(text) {
        Ok(_) => Ok(Vec::new()),
        Err(Refusal::Failure(failure)) => Ok(failure.message),
        Err(refusal) => Err(refusal),
    }
}

/// "Report writes the failure's `message` ... at the front of out and returns its length"
pub fn report(text: &[u8], out: &mut [u8]) -> Reply {
    let written = message(text).and_then(|message| {
        room(Buffer::Out, out.len(), message.len() as u64)?;
        Ok(message)
    });
    match written {
        Ok(message) => {
            out[..message.len()].copy_from_slice(&message);
            vec![0, message.len() as u64]
        }
        Err(refusal) => refusal.numbers(),
    }
}

/// "Panel column of an offset: scalars before it in its line, plus 1. Checks 1, 2, 6."
pub fn panel_column(text: &[u8], offset: u64) -> Reply {
    let text = match checked_text(text) {
        Ok(text) => text,
        Err(refusal) => return refusal.numbers(),
    };
    let before = usize::try_from(offset)
        .ok()
        .and_then(|offset| text.get(..offset));
    match before {
        Some(before) => {
            let line = before.rsplit('\n').next().unwrap_or_default();
            vec![0, line.chars().count() as u64 + 1]
        }
        None => Refusal::Range.numbers(),
    }
}

/// "Byte-literal value, after 1 and 2": 0, 1, value; or 0, 0 for none.
pub fn byte_value(text: &[u8]) -> Reply {
    match checked_text(text).map(original::byte_value) {
        Ok(Some(value)) => vec![0, 1, u64::from(value)],
        Ok(None) => vec![0, 0],
        Err(refusal) => refusal.numbers(),
    }
}

/// "Program `scan` reads a text of at most 512 bytes ...; a longer one prints `(refused 1)`."
pub fn scan_output(text: &[u8]) -> Vec<u8> {
    let reading = if text.len() > SCAN_BYTES {
        Err(Refusal::TooLong(text.len() as u64))
    } else {
        fresh_reading(text)
    };
    match reading {
        Ok(reading) => scan_rows(&reading).into_bytes(),
        Err(Refusal::Failure(failure)) => [&failure.message[..], b"\n"].concat(),
        Err(refusal) => format!("(refused {})\n", refusal.numbers()[0]).into_bytes(),
    }
}

/// "(page (bytes 5) (lines 1) (tokens 3))", then "(kind; position, line, column; length)"
fn scan_rows(reading: &Records) -> String {
    let Records { n, m, k, .. } = reading;
    let mut rows = format!("(page (bytes {n}) (lines {m}) (tokens {k}))\n");
    for token in reading.tokens.chunks_exact(TOKEN_WORDS) {
        let [kind, position, length, line, column] = token else {
            continue;
        };
        rows += &format!("(tok {kind} (at {position} {line} {column}) (len {length}))\n");
    }
    rows
}

/// A page that holds a fresh reading of its text.
fn page_of(text: &[u8], reading: Records) -> Page {
    Page {
        n: reading.n,
        m: reading.m,
        k: reading.k,
        text: text.to_vec(),
        spare: Vec::new(),
        lines: reading.lines,
        tokens: reading.tokens,
    }
}

/// The number that the text of a token is granted or refused with, and the text.
fn text_row(page: &Page, i: u64, names: &str) -> Vec<u8> {
    let reply = page.token_text(i, names.len());
    let part = match reply[..] {
        [0, buffer, start, length] => {
            let bytes = match buffer {
                1 => &page.text[..],
                _ => names.as_bytes(),
            };
            &bytes[start as usize..][..length as usize]
        }
        _ => &[],
    };
    [format!("{} ", reply[0]).as_bytes(), part, b"\n"].concat()
}

/// The rows of a walk over a page's tokens: five words, and the text.
fn walk_rows(page: &Page) -> Vec<u8> {
    let (mut rows, mut next) = (Vec::new(), 0);
    while let [0, 1, after, words @ ..] = &walk_step(&page.tokens, next)[..] {
        for word in words {
            rows.extend(format!("{word} ").bytes());
        }
        rows.extend(text_row(page, next, NAMES));
        next = *after;
    }
    rows
}

/// What the program `walk_tokens` prints: the rows; a token past the last, short names, a header that does not fit; a token of no
/// bytes and the one after it.
pub fn walk_output(text: &[u8]) -> Vec<u8> {
    let Ok(reading) = fresh_reading(text) else {
        return b"does not read\n".to_vec();
    };
    let page = page_of(text, reading);
    let unfit = Page {
        k: u32::MAX,
        ..page.clone()
    };
    let empty = Page {
        n: 0,
        m: 0,
        k: 1,
        text: Vec::new(),
        spare: Vec::new(),
        lines: vec![0; LINE_WORDS],
        tokens: vec![TokenKind::Ident as u32, 0, 0, 1, 1],
    };
    [
        walk_rows(&page),
        text_row(&page, u64::from(page.k), NAMES),
        text_row(&page, 0, &NAMES[..16]),
        text_row(&unfit, 0, NAMES),
        text_row(&empty, 0, NAMES),
        text_row(&empty, 1, NAMES),
    ]
    .concat()
}
