//! Document 01's reading of a text by itself, on top of the original's tokens.

use crate::original::types::TokenKind;
use crate::original::{self, lexer, Failure, TokenRecord};

/// "text, or edited text, over 1,048,576 bytes"
pub const MAX_BYTES: usize = 1_048_576;

/// "16 widths"; "a 17th level would open"
pub const MAX_LEVELS: usize = 16;

/// "depth, arrow 0 or 1, open levels g, 16 widths"
pub const STATE_WORDS: usize = 3 + MAX_LEVELS;

/// "Line, 21 words: start, number of its first token, ... then the state before it"
pub const LINE_WORDS: usize = 2 + STATE_WORDS;

/// "Token, 5 words"
pub const TOKEN_WORDS: usize = 5;

/// "Kinds are numbered 0 (KwFn) to 92 (Newline)"
pub const LAST_KIND: u32 = TokenKind::Newline as u32;

/// A reply in numbers: 0 and the values of an acceptance, or a refusal's number and values.
pub type Reply = Vec<u64>;

/// "buffer (1 text, 2 spare, 3 lines, 4 tokens, 5 out, 6 names)"
#[derive(Debug, Clone, Copy, PartialEq, Eq)]
pub enum Buffer {
    Text = 1,
    Spare = 2,
    Lines = 3,
    Tokens = 4,
    Out = 5,
    Names = 6,
}

/// The refusals of document 01's table.
#[derive(Debug, Clone, PartialEq, Eq)]
pub enum Refusal {
    TooLong(u64),
    IllFormed(u64),
    Failure(Box<Failure>),
    TooDeep(u64),
    Room(Buffer, u64),
    Range,
    Page,
}

impl Refusal {
    /// "What comes first in a reply": the number, then its values.
    pub fn numbers(&self) -> Reply {
        match self {
            Refusal::TooLong(length) => vec![1, *length],
            Refusal::IllFormed(prefix) => vec![2, *prefix],
            Refusal::Failure(failure) => {
                let words = failure.words();
                [3].into_iter().chain(words.map(u64::from)).collect()
            }
            Refusal::TooDeep(line) => vec![4, *line],
            Refusal::Room(buffer, least) => vec![5, *buffer as u64, *least],
            Refusal::Range => vec![6],
            Refusal::Page => vec![7],
        }
    }
}

/// "5, buffer, least length: that buffer is shorter"
pub fn room(buffer: Buffer, length: usize, least: u64) -> Result<(), Refusal> {
    if (length as u64) < least {
        return Err(Refusal::Room(buffer, least));
    }
    Ok(())
}

/// "A header of three u32: n bytes, m lines, k tokens", with the line and token words.
#[derive(Debug, Clone, PartialEq, Eq)]
pub struct Records {
    pub n: u32,
    pub m: u32,
    pub k: u32,
    pub lines: Vec<u32>,
    pub tokens: Vec<u32>,
}

impl Records {
    /// "Line, 21 words"; number m is the one that "stands for the end".
    pub fn line(&self, number: usize) -> &[u32] {
        &self.lines[number * LINE_WORDS..(number + 1) * LINE_WORDS]
    }

    /// "start": where a line begins.
    pub fn start(&self, number: usize) -> u64 {
        u64::from(self.line(number)[0])
    }

    /// "the state before it: depth, arrow 0 or 1, open levels g, 16 widths"
    pub fn state(&self, number: usize) -> &[u32] {
        &self.line(number)[2..]
    }

    /// The state that the line, or the end, beginning at this byte has.
    pub fn state_at(&self, start: u64) -> Option<&[u32]> {
        let (mut low, mut high) = (0, self.m as usize + 1);
        while low < high {
            let middle = (low + high) / 2;
            match self.start(middle) {
                found if found == start => return Some(self.state(middle)),
                found if found < start => low = middle + 1,
                _ => high = middle,
            }
        }
        None
    }
}

/// "then the state before it: depth, arrow 0 or 1, open levels g, 16 widths"
#[derive(Debug, Clone, Default)]
struct State {
    depth: u32,
    arrow: bool,
    widths: Vec<u32>,
}

impl State {
    /// "Line, 21 words: start, number of its first token", then the state
    fn record(&self, start: usize, first_token: usize) -> [u32; LINE_WORDS] {
        let mut words = [0; LINE_WORDS];
        words[0] = start as u32;
        words[1] = first_token as u32;
        words[2] = self.depth;
        words[3] = u32::from(self.arrow);
        words[4] = self.widths.len() as u32;
        words[5..5 + self.widths.len()].copy_from_slice(&self.widths);
        words
    }

    /// "Wider: one Indent, width pushed"; "one Dedent per width popped"; "Depth: +1 per `(`, ..."
    fn read_line(&mut self, tokens: &[TokenRecord], width: u32) {
        self.arrow = false;
        for [kind, ..] in tokens {
            match *kind {
                k if k == TokenKind::Indent as u32 => self.widths.push(width),
                k if k == TokenKind::Dedent as u32 => drop(self.widths.pop()),
                k if k == TokenKind::Newline as u32 => {}
                k => self.read_cut(k),
            }
        }
    }

    /// "-1 per `)` but not below 0"; "carried exactly if the line's last cut token is `->`"
    fn read_cut(&mut self, kind: u32) {
        if kind == TokenKind::LParen as u32 {
            self.depth += 1;
        }
        if kind == TokenKind::RParen as u32 {
            self.depth = self.depth.saturating_sub(1);
        }
        self.arrow = kind == TokenKind::Implies as u32;
    }
}

/// "Line, 21 words ... One more line record stands for the end: start n, first closing Dedent."
fn records(text: &str, tokens: &[TokenRecord]) -> Records {
    let mut lines = Vec::new();
    let mut state = State::default();
    let (mut start, mut first, mut number) = (0, 0, 0);
    for raw in text.split_inclusive('\n') {
        number += 1;
        lines.extend(state.record(start, first));
        let of_line = |token: &&TokenRecord| token[3] == number;
        let count = tokens[first..].iter().take_while(of_line).count();
        state.read_line(&tokens[first..first + count], lexer::indent_width(raw));
        start += raw.len();
        first += count;
    }
    lines.extend(state.record(start, first));
    Records {
        n: text.len() as u32,
        m: number,
        k: tokens.len() as u32,
        lines,
        tokens: tokens.concat(),
    }
}

/// "4, the line: a 17th level would open": the line of the first Indent past the limit.
fn too_deep(tokens: &[TokenRecord]) -> Option<u64> {
    let mut levels = 0usize;
    for [kind, _, _, line, _] in tokens {
        if *kind == TokenKind::Indent as u32 {
            levels += 1;
        }
        if *kind == TokenKind::Dedent as u32 {
            levels -= 1;
        }
        if levels > MAX_LEVELS {
            return Some(u64::from(*line));
        }
    }
    None
}

/// "then 3 or 4 as the reading meets them": the tokens up to the failing line's own Indent.
///
/// A failing line is not blank, so the letter `a` after its leading blanks stands for it: the
/// original then compares the same width and cuts nothing that fails. Where it fails even so, the
/// failure is E0101, no level opens on that line, and the lines before it are all that is read.
fn tokens_before_failure(text: &str, line: u32) -> Vec<TokenRecord> {
    let before = text.split_inclusive('\n').take(line as usize - 1);
    let start: usize = before.map(str::len).sum();
    let rest = text[start..].trim_start_matches([' ', '\t']);
    let blanks = text.len() - rest.len();
    let stand_in = format!("{}a", &text[..blanks]);
    original::tokens(&stand_in)
        .or_else(|_| original::tokens(&text[..start]))
        .expect("the lines before the first failure")
}

/// "1, the length"; then "2, length of the longest well-formed prefix"
pub fn checked_text(bytes: &[u8]) -> Result<&str, Refusal> {
    if bytes.len() > MAX_BYTES {
        return Err(Refusal::TooLong(bytes.len() as u64));
    }
    std::str::from_utf8(bytes).map_err(|error| Refusal::IllFormed(error.valid_up_to() as u64))
}

/// "A reading of a text by itself ...: 1, 2, then 3 or 4", with room for its records.
pub fn fresh_reading(bytes: &[u8]) -> Result<Records, Refusal> {
    let text = checked_text(bytes)?;
    let (read, failure) = match original::tokens(text) {
        Ok(tokens) => (tokens, None),
        Err(failure) => (tokens_before_failure(text, failure.line), Some(failure)),
    };
    if let Some(line) = too_deep(&read) {
        return Err(Refusal::TooDeep(line));
    }
    match failure {
        Some(failure) => Err(Refusal::Failure(Box::new(failure))),
        None => Ok(records(text, &read)),
    }
}
