//! Headers, line records and token records.
use crate::kind::TokenKind;
use crate::refusal::Refusal;
use crate::{LINE_WORDS, MAX_LEVELS, TOKEN_WORDS};
use core::ops::Range;

/// A page's header.
#[derive(Debug, Clone, Copy, PartialEq, Eq, Default, Hash)]
pub struct Header {
    /// n: the bytes of the text.
    pub bytes: u32,
    /// m: its lines.
    pub lines: u32,
    /// k: its tokens.
    pub tokens: u32,
}

impl Header {
    /// The words that the line records take, the one for the end included: 21(m + 1).
    pub fn line_words(self) -> usize {
        LINE_WORDS * (self.lines as usize + 1)
    }

    /// The words that the token records take: 5k.
    pub fn token_words(self) -> usize {
        TOKEN_WORDS * self.tokens as usize
    }

    pub(crate) fn from_words(words: &[u64]) -> Header {
        Header {
            bytes: words[0] as u32,
            lines: words[1] as u32,
            tokens: words[2] as u32,
        }
    }
}

/// An accepted edit.
#[derive(Debug, Clone, Copy, PartialEq, Eq, Hash)]
pub struct Edited {
    /// The header after the edit.
    pub header: Header,
    /// How many lines were read again; perhaps 0.
    pub reread: usize,
}

/// A token record.
#[derive(Debug, Clone, Copy, PartialEq, Eq, Hash)]
pub struct Token {
    /// What it is.
    pub kind: TokenKind,
    /// The byte where it starts.
    pub position: usize,
    /// Its length in bytes: 0 for Indent, Dedent and Newline.
    pub length: usize,
    /// Its line, from 1.
    pub line: usize,
    /// Its column in bytes, from 1.
    pub column: usize,
}

impl Token {
    /// Its bytes in the text.
    pub fn range(&self) -> Range<usize> {
        self.position..self.position + self.length
    }

    /// From the words of a record; 7 for a kind above 92.
    pub(crate) fn from_words(words: &[u64]) -> Result<Token, Refusal> {
        let kind = u32::try_from(words[0])
            .ok()
            .and_then(TokenKind::from_number)
            .ok_or(Refusal::Unfit)?;
        let [position, length, line, column] = [1, 2, 3, 4].map(|i| words[i] as usize);
        Ok(Token {
            kind,
            position,
            length,
            line,
            column,
        })
    }
}

/// A line record: where a line starts, and the state before it.
#[derive(Debug, Clone, Copy, PartialEq, Eq, Hash)]
pub struct Line {
    /// The byte where it starts.
    pub start: usize,
    /// The number of its first token, from 0; its Indent or Dedents come first.
    pub first_token: usize,
    /// How many brackets `(` are open before it.
    pub depth: usize,
    /// Whether the line before it ends in `->`, so that it goes on here.
    pub arrow: bool,
    /// How many levels are open before it.
    pub levels: usize,
    /// The widths of the open levels, outermost first; unused ones are 0.
    pub widths: [u32; MAX_LEVELS],
}

impl Line {
    /// The widths of the levels that are open, outermost first.
    pub fn open_widths(&self) -> &[u32] {
        &self.widths[..self.levels.min(MAX_LEVELS)]
    }

    /// From the 21 words of a record.
    pub fn from_words(words: &[u32; LINE_WORDS]) -> Line {
        let mut widths = [0; MAX_LEVELS];
        widths.copy_from_slice(&words[5..]);
        let [start, first_token, depth, arrow, levels] = [0, 1, 2, 3, 4].map(|i| words[i] as usize);
        Line {
            start,
            first_token,
            depth,
            arrow: arrow != 0,
            levels,
            widths,
        }
    }
}
