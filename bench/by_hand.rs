//! A reader written by hand in Rust for speed, under the contract of `read`: UTF-8, the lines counted, then the same records written, with
//! no allocation. It says how near the proved reader is to what one writes without proofs. Of a text that fails it only says that it does.
//!
//! One walk finds lines and tokens together; it runs once to count and once to write. Words, numbers, leading spaces and strings are
//! measured eight bytes at a time, comments thirty-two; a keyword is told by one product and one comparison. No code is `unsafe`.

use crate::original::types::TokenKind::{self, *};

/// The longest text, in bytes.
const LIMIT: usize = 1 << 20;

/// The header of a text that reads, its records written; none where it fails or a buffer is short.
pub fn read(text: &[u8], lines: &mut [u32], tokens: &mut [u32]) -> Option<[u32; 3]> {
    if text.len() > LIMIT {
        return None;
    }
    if !text.is_ascii() {
        std::str::from_utf8(text).ok()?;
    }
    let (m, k) = Walk::<false>::over(text, &mut [], &mut [])?;
    let lines = lines.as_chunks_mut().0.get_mut(..m + 1)?;
    let tokens = tokens.as_chunks_mut().0.get_mut(..k)?;
    Walk::<true>::over(text, lines, tokens)?;
    Some([text.len() as u32, m as u32, k as u32])
}

/// What a byte begins.
#[derive(Clone, Copy, PartialEq)]
enum Class {
    Blank,
    Feed,
    Hash,
    Letter,
    Digit,
    Quote,
    /// A sign of one byte, whatever follows.
    Single,
    /// A sign that may have more bytes.
    Longer,
    Other,
}

const CLASS: [Class; 256] = {
    let mut table = [Class::Other; 256];
    let mut b = 0;
    while b < 256 {
        table[b] = match b as u8 {
            b' ' | b'\t' | b'\r' => Class::Blank,
            b'\n' => Class::Feed,
            b'#' => Class::Hash,
            b'a'..=b'z' | b'A'..=b'Z' => Class::Letter,
            b'0'..=b'9' => Class::Digit,
            b'"' => Class::Quote,
            b'{' | b'}' | b'(' | b')' | b'[' | b']' | b';' | b',' | b'_' => Class::Single,
            b':' | b'.' | b'!' | b'=' | b'<' | b'>' | b'&' | b'|' => Class::Longer,
            b'+' | b'*' | b'%' | b'/' | b'-' => Class::Longer,
            _ => Class::Other,
        };
        b += 1;
    }
    table
};

/// The spellings of at most eight bytes.
#[rustfmt::skip]
const KEYWORDS: [(&[u8], TokenKind); 45] = [
    (b"fn", KwFn), (b"requires", KwRequires), (b"ensures", KwEnsures), (b"record", KwRecord), (b"schema", KwSchema), (b"enum", KwEnum),
    (b"const", KwConst), (b"trait", KwTrait), (b"impl", KwImpl), (b"let", KwLet), (b"for", KwFor), (b"in", KwIn), (b"guard", KwGuard),
    (b"if", KwIf), (b"else", KwElse), (b"is", KwIs), (b"when", KwWhen), (b"while", KwWhile), (b"loop", KwLoop), (b"break", KwBreak),
    (b"continue", KwContinue), (b"where", KwWhere), (b"with", KwWith), (b"return", KwReturn), (b"match", KwMatch), (b"true", KwTrue),
    (b"false", KwFalse), (b"System", KwSystem), (b"Entity", KwEntity), (b"Law", KwLaw), (b"When", KwWhen), (b"Pulse", KwPulse),
    (b"Profile", KwProfile), (b"Import", KwImport), (b"ref", KwRef), (b"quad", TyQuad), (b"bool", TyBool), (b"i32", TyI32),
    (b"u32", TyU32), (b"fx", TyFx), (b"f64", TyF64), (b"N", QuadN), (b"F", QuadF), (b"T", QuadT), (b"S", QuadS),
];

/// The one longer spelling.
const INVARIANT: &[u8] = b"invariant";

/// A number below 128 that is another one for each of the keywords.
const fn slot(word: u64) -> usize {
    (word.wrapping_mul(0x2bdb7ce493ac7b59) >> 57) as usize
}

/// At each keyword's number its bytes, the first one lowest, and its kind.
const BY_SLOT: [(u64, TokenKind); 128] = {
    let mut table = [(0, Ident); 128];
    let mut row = 0;
    while row < KEYWORDS.len() {
        let (spelling, kind) = KEYWORDS[row];
        let mut word = 0;
        let mut i = spelling.len();
        while i > 0 {
            i -= 1;
            word = word << 8 | spelling[i] as u64;
        }
        assert!(table[slot(word)].0 == 0);
        table[slot(word)] = (word, kind);
        row += 1;
    }
    table
};

/// The kind of a word of at most eight bytes, above which all is 0.
#[inline(always)]
fn short_word_kind(word: u64) -> TokenKind {
    let (spelling, kind) = BY_SLOT[slot(word)];
    if spelling == word {
        kind
    } else {
        Ident
    }
}

/// The kind of each sign of one byte.
const SINGLE: [TokenKind; 256] = {
    let mut table = [Ident; 256];
    let rows = [
        (b'{', LBrace),
        (b'}', RBrace),
        (b'(', LParen),
        (b')', RParen),
        (b'[', LBracket),
        (b']', RBracket),
        (b';', Semi),
        (b',', Comma),
        (b'_', Underscore),
    ];
    let mut row = 0;
    while row < rows.len() {
        table[rows[row].0 as usize] = rows[row].1;
        row += 1;
    }
    table
};

/// The sign that these three bytes begin with, and its length.
#[inline(always)]
fn sign(first: u8, second: u8, third: u8) -> Option<(TokenKind, usize)> {
    Some(match (first, second) {
        (b':', b':') => (PathSep, 2),
        (b':', b'=') => (Assign, 2),
        (b':', _) => (Colon, 1),
        (b'.', b'.') if third == b'=' => (DotDotEq, 3),
        (b'.', b'.') => (DotDot, 2),
        (b'.', _) => (Dot, 1),
        (b'&', b'&') if third == b'=' => (AndAndAssign, 3),
        (b'&', b'&') => (AndAnd, 2),
        (b'&', _) => return None,
        (b'|', b'|') if third == b'=' => (OrOrAssign, 3),
        (b'|', b'|') => (OrOr, 2),
        (b'|', b'>') => (PipeForward, 2),
        (b'|', _) => (Pipe, 1),
        (b'=', b'=') => (EqEq, 2),
        (b'=', b'>') => (FatArrow, 2),
        (b'=', _) => (Assign, 1),
        (b'-', b'>') => (Implies, 2),
        (b'-', b'=') => (MinusAssign, 2),
        (b'-', _) => (Minus, 1),
        (b'!', b'=') => (Ne, 2),
        (b'!', _) => (Bang, 1),
        (b'<', b'=') => (Le, 2),
        (b'<', _) => (LAngle, 1),
        (b'>', b'=') => (Ge, 2),
        (b'>', _) => (RAngle, 1),
        (b'+', b'=') => (PlusAssign, 2),
        (b'+', _) => (Plus, 1),
        (b'*', b'=') => (StarAssign, 2),
        (b'*', _) => (Star, 1),
        (b'%', b'=') => (PercentAssign, 2),
        (b'%', _) => (Percent, 1),
        (_, b'=') => (SlashAssign, 2),
        _ => (Slash, 1),
    })
}

/// The same byte eight times.
const fn all(byte: u8) -> u64 {
    u64::from_ne_bytes([byte; 8])
}

/// The highest bit of each byte.
const HIGH: u64 = all(0x80);

/// The eight bytes from `at` on, the first one lowest, with 0 past the text's end.
#[inline(always)]
fn eight(text: &[u8], at: usize) -> u64 {
    match text.get(at..at + 8) {
        Some(bytes) => u64::from_le_bytes(bytes.try_into().unwrap()),
        None => last_bytes(text, at),
    }
}

/// The same, where fewer than eight are left.
#[cold]
fn last_bytes(text: &[u8], at: usize) -> u64 {
    let rest = text.get(at..).unwrap_or(&[]);
    rest.iter()
        .rev()
        .fold(0, |word, &byte| word << 8 | byte as u64)
}

/// The high bits of the bytes from `low` to `high`, where no byte is above 7F.
#[inline(always)]
fn between(bytes: u64, low: u8, high: u8) -> u64 {
    (bytes + all(0x80 - low)) & !(bytes + all(0x7f - high))
}

/// The high bits of the bytes that are digits or `_`.
#[inline(always)]
fn decimals(bytes: u64) -> u64 {
    let low = bytes & !HIGH;
    (between(low, b'0', b'9') | between(low, b'_', b'_')) & !bytes & HIGH
}

/// The high bits of the bytes that stand in words.
#[inline(always)]
fn in_words(bytes: u64) -> u64 {
    let low = bytes & !HIGH;
    let letters = between(low | all(0x20), b'a', b'z');
    (letters | between(low, b'0', b'9') | between(low, b'_', b'_')) & !bytes & HIGH
}

/// The high bit of the lowest byte that is this one, and perhaps of some above it; 0 where there is none.
#[inline(always)]
fn equal(bytes: u64, byte: u8) -> u64 {
    let other = bytes ^ all(byte);
    other.wrapping_sub(all(1)) & !other & HIGH
}

/// How many bytes stand below the lowest bit that is set.
#[inline(always)]
fn below(bits: u64) -> usize {
    bits.trailing_zeros() as usize / 8
}

/// The first place from `at` on where `found` sets a bit, or the text's end.
#[inline(always)]
fn find(text: &[u8], mut at: usize, found: impl Fn(u64) -> u64) -> usize {
    while at < text.len() {
        let bits = found(eight(text, at));
        if bits != 0 {
            return text.len().min(at + below(bits));
        }
        at += 8;
    }
    text.len()
}

/// Where the line ends in which `at` stands. Thirty-two bytes are compared at once, for which the compiler takes vectors.
#[inline(always)]
fn line_end(text: &[u8], mut at: usize) -> usize {
    while let Some(bytes) = text.get(at..at + 32) {
        if bytes
            .iter()
            .fold(false, |found, byte| found | (*byte == b'\n'))
        {
            break;
        }
        at += 32;
    }
    find(text, at, |bytes| equal(bytes, b'\n'))
}

/// Where the suffix ends that may stand at `at`.
#[inline(always)]
fn suffix_end(text: &[u8], at: usize) -> usize {
    let rest = eight(text, at);
    if rest as u16 == u16::from_le_bytes(*b"fx") {
        return at + 2;
    }
    let three = rest as u32 & 0xff_ffff;
    let suffixes = [b"i32\0", b"u32\0", b"f64\0"].map(|bytes| u32::from_le_bytes(*bytes));
    at + 3 * suffixes.contains(&three) as usize
}

/// Where the digits and `_` from `at` on end.
#[inline(always)]
fn decimals_end(text: &[u8], at: usize) -> usize {
    find(text, at, |bytes| decimals(bytes) ^ HIGH)
}

/// Where the number at `at` ends. Whole and fraction are mostly told from the same eight bytes.
#[inline(always)]
fn number_end(text: &[u8], at: usize) -> usize {
    let others = decimals(eight(text, at)) ^ HIGH;
    let mut end = match others {
        0 => decimals_end(text, at + 8),
        _ => at + below(others),
    };
    let mut after = eight(text, end);
    if after as u8 == b'.' && ((after >> 8) as u8).is_ascii_digit() {
        end = match others & others.wrapping_sub(1) {
            0 => decimals_end(text, end + 1),
            more => at + below(more),
        };
        after = eight(text, end);
    }
    if CLASS[after as usize & 0xff] != Class::Letter {
        return end;
    }
    if after as u8 | 0x20 == b'x' && end == at + 1 && text[at] == b'0' {
        end = find(text, at + 2, |bytes| hexadecimals(bytes) ^ HIGH);
    }
    suffix_end(text, end)
}

/// The high bits of the bytes that are hex digits or `_`.
#[inline(always)]
fn hexadecimals(bytes: u64) -> u64 {
    let low = bytes & !HIGH;
    decimals(bytes) | (between(low | all(0x20), b'a', b'f') & !bytes & HIGH)
}

/// The length of the byte literal that this begins with.
#[inline(never)]
fn literal_size(rest: &[u8]) -> Option<usize> {
    let size = match rest.get(2)? {
        b'\\' => match rest.get(3)? {
            b'0' | b't' | b'n' | b'r' | b'\'' | b'\\' | b'"' => 4,
            b'x' if matches!(rest.get(4)?, b'0'..=b'7') && rest.get(5)?.is_ascii_hexdigit() => 6,
            _ => return None,
        },
        b'\'' => return None,
        b' '..=b'~' => 3,
        _ => return None,
    };
    (*rest.get(size)? == b'\'').then_some(size + 1)
}

/// Where the bytes from `at` on that pass a test end.
fn run(text: &[u8], at: usize, test: impl Fn(u8) -> bool) -> usize {
    at + text[at..].iter().take_while(|byte| test(**byte)).count()
}

/// The indent's width and the first byte that is no blank, in a line with so many spaces before a tab or a CR at `at`.
#[cold]
fn margin(text: &[u8], spaces: usize, at: usize) -> (usize, usize) {
    let indented = run(text, at, |byte| byte == b' ' || byte == b'\t');
    let tabs = text[at..indented].iter().filter(|byte| **byte == b'\t');
    let width = spaces + indented - at + 3 * tabs.count();
    let first = run(text, indented, |byte| CLASS[byte as usize] == Class::Blank);
    (width, first)
}

/// One walk over a text, which counts, or writes too.
struct Walk<'a, const WRITE: bool> {
    text: &'a [u8],
    lines: &'a mut [[u32; 21]],
    tokens: &'a mut [[u32; 5]],
    /// The line that is read, from 0 on: its start and number; the next token's number.
    start: usize,
    m: usize,
    k: usize,
    depth: u32,
    /// The number of the token that follows the last `->`.
    behind_arrow: usize,
    levels: usize,
    widths: [u32; 16],
    /// The width of the innermost level, 0 at base.
    innermost: u32,
}

impl<'a, const WRITE: bool> Walk<'a, WRITE> {
    /// How many lines and tokens a text has.
    #[inline(never)]
    fn over(
        text: &'a [u8],
        lines: &'a mut [[u32; 21]],
        tokens: &'a mut [[u32; 5]],
    ) -> Option<(usize, usize)> {
        let mut walk = Self {
            text,
            lines,
            tokens,
            start: 0,
            m: 0,
            k: 0,
            depth: 0,
            behind_arrow: usize::MAX,
            levels: 0,
            widths: [0; 16],
            innermost: 0,
        };
        let mut arrow = false;
        while walk.start < text.len() {
            walk.put_line(arrow);
            let first = walk.indent(arrow)?;
            let end = walk.cuts(first)?;
            arrow = walk.behind_arrow == walk.k;
            walk.token(Newline, end, 0);
            walk.start = (end + 1).min(text.len());
            walk.m += 1;
        }
        walk.put_line(arrow);
        for _ in 0..walk.levels {
            walk.token(Dedent, text.len(), 0);
        }
        Some((walk.m, walk.k))
    }

    #[inline(always)]
    fn put_line(&mut self, arrow: bool) {
        if WRITE {
            let record = &mut self.lines[self.m];
            record[0] = self.start as u32;
            record[1] = self.k as u32;
            record[2] = self.depth;
            record[3] = arrow as u32;
            record[4] = self.levels as u32;
            record[5..].copy_from_slice(&self.widths);
        }
    }

    #[inline(always)]
    fn token(&mut self, kind: TokenKind, at: usize, size: usize) {
        if WRITE {
            let column = (at - self.start) as u32 + 1;
            self.tokens[self.k] = [
                kind as u32,
                at as u32,
                size as u32,
                self.m as u32 + 1,
                column,
            ];
        }
        self.k += 1;
    }

    /// The line's Indent or Dedents; the first byte that is no blank.
    #[inline(always)]
    fn indent(&mut self, arrow: bool) -> Option<usize> {
        let text = self.text;
        let mut first = self.start;
        if text[first] == b' ' {
            first = find(text, first + 1, |bytes| {
                let other = bytes ^ all(b' ');
                ((other & !HIGH) + !HIGH | other) & HIGH
            });
        }
        let mut width = first - self.start;
        if let Some(b'\t' | b'\r') = text.get(first) {
            (width, first) = margin(text, width, first);
        }
        if width as u32 != self.innermost && self.depth == 0 && !arrow {
            let is_blank = match text.get(first) {
                None | Some(b'\n' | b'#') => true,
                Some(b'/') => text.get(first + 1) == Some(&b'/'),
                _ => false,
            };
            if !is_blank {
                self.compare(width as u32)?;
            }
        }
        Some(first)
    }

    /// The Indent or the Dedents of a line whose width is not the innermost one. Widths past the open levels are 0.
    #[inline(always)]
    fn compare(&mut self, width: u32) -> Option<()> {
        if self.innermost < width {
            *self.widths.get_mut(self.levels)? = width;
            self.levels += 1;
            self.innermost = width;
            self.token(Indent, self.start, 0);
        }
        while self.innermost > width {
            self.levels -= 1;
            self.widths[self.levels] = 0;
            self.innermost = self
                .levels
                .checked_sub(1)
                .map_or(0, |last| self.widths[last]);
            self.token(Dedent, self.start, 0);
        }
        (self.innermost == width).then_some(())
    }

    /// The tokens from `at` on; where the line ends.
    #[inline(always)]
    fn cuts(&mut self, mut at: usize) -> Option<usize> {
        let text = self.text;
        while let Some(&byte) = text.get(at) {
            // Most blanks are spaces; a test of their own spares them the table.
            if byte == b' ' {
                at += 1;
                continue;
            }
            let (kind, end) = match CLASS[byte as usize] {
                Class::Blank => {
                    at += 1;
                    continue;
                }
                Class::Feed => return Some(at),
                Class::Hash => return Some(line_end(text, at)),
                Class::Letter => self.word(at)?,
                Class::Digit => (Num, number_end(text, at)),
                Class::Quote if text.get(at + 1) == Some(&b'"') => (String, at + 2),
                Class::Quote => {
                    let end = find(text, at + 1, |bytes| {
                        equal(bytes, b'"') | equal(bytes, b'\n')
                    });
                    (*text.get(end)? == b'"').then_some((String, end + 1))?
                }
                Class::Single => {
                    self.depth += (byte == b'(') as u32;
                    self.depth -= (byte == b')' && self.depth > 0) as u32;
                    (SINGLE[byte as usize], at + 1)
                }
                Class::Longer => {
                    let [_, second, third, ..] = eight(text, at).to_le_bytes();
                    if byte == b'/' && second == b'/' {
                        return Some(line_end(text, at));
                    }
                    let (kind, size) = sign(byte, second, third)?;
                    if kind == Implies {
                        self.behind_arrow = self.k + 1;
                    }
                    (kind, at + size)
                }
                Class::Other => return None,
            };
            self.token(kind, at, end - at);
            at = end;
        }
        Some(at)
    }

    /// The word or byte literal at `at`: its kind and where it ends.
    #[inline(always)]
    fn word(&self, at: usize) -> Option<(TokenKind, usize)> {
        let text = self.text;
        let bytes = eight(text, at);
        if bytes as u16 == u16::from_le_bytes(*b"b'") {
            return Some((ByteLit, at + literal_size(&text[at..])?));
        }
        let others = in_words(bytes) ^ HIGH;
        if others == 0 {
            let end = find(text, at + 8, |bytes| in_words(bytes) ^ HIGH);
            let kind = match end - at {
                8 => short_word_kind(bytes),
                9 if text[at..end] == *INVARIANT => KwInvariant,
                _ => Ident,
            };
            return Some((kind, end));
        }
        let size = below(others);
        let word = bytes & ((1 << (8 * size)) - 1);
        let kind = if WRITE { short_word_kind(word) } else { Ident };
        Some((kind, at + size))
    }
}
