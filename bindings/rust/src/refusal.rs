//! Why a call is refused.
use core::error::Error;
use core::fmt;
use core::ops::Range;

/// A refusal, with its values. [`Refusal::number`] is its number in the specification.
///
/// Written out it is one line without control characters, fit for a panel.
#[derive(Debug, Clone, PartialEq, Eq, Hash)]
#[non_exhaustive]
pub enum Refusal {
    /// 1: the text, or the edited text, is over 1,048,576 bytes.
    TooLong {
        /// Its length; `usize::MAX` also stands for any longer.
        length: usize,
    },
    /// 2: the text, or the edited text, is not well-formed UTF-8.
    Malformed {
        /// The length of the longest well-formed prefix, which is where the trouble is.
        prefix: usize,
    },
    /// 3: a lexical failure.
    Failure(Failure),
    /// 4: a 17th level would open.
    TooDeep {
        /// The line that would open it, from 1.
        line: usize,
    },
    /// 5: a lent buffer is too short. A [`Page`](crate::Page) grows its buffers, so its users never meet this.
    ShortBuffer {
        /// Which buffer.
        buffer: Buffer,
        /// The least length that is enough, in its elements.
        least: usize,
    },
    /// 6: an edit `a..b` with a > b or b > n, a token number of k or more, or an offset past the text or inside a scalar.
    OutOfRange,
    /// 7: the header needs more than is lent, or a token has a kind above 92 or reaches past n. A
    /// [`Page`](crate::Page) keeps its own header and records, so its users never meet this.
    Unfit,
}

/// The buffers that refusal 5 names.
#[derive(Debug, Clone, Copy, PartialEq, Eq, Hash)]
#[non_exhaustive]
pub enum Buffer {
    /// 1: the page's text.
    Text,
    /// 2: the spare, which an edit builds the edited text in.
    Spare,
    /// 3: the words of the line records.
    Lines,
    /// 4: the words of the token records.
    Tokens,
    /// 5: where a message is written.
    Out,
    /// 6: the names of tokens without text.
    Names,
}

/// A lexical failure: what is wrong, and where.
#[derive(Debug, Clone, PartialEq, Eq, Hash)]
pub struct Failure {
    /// The code in the message, as E0001.
    pub code: Code,
    /// What is wrong.
    pub detail: Detail,
    /// The scalar that the detail names, if it names one.
    pub found: Option<char>,
    /// The byte where it stands.
    pub position: usize,
    /// Its line, from 1.
    pub line: usize,
    /// Its column in bytes, from 1.
    pub column: usize,
    /// The bytes that it covers.
    pub range: Range<usize>,
}

/// The code of a failure.
#[derive(Debug, Clone, Copy, PartialEq, Eq, Hash)]
#[non_exhaustive]
pub enum Code {
    /// A character that begins no token, or a bad byte literal.
    E0001 = 1,
    /// A lone `&`.
    E0002 = 2,
    /// A string without its end.
    E0004 = 4,
    /// An indentation that fits no open level.
    E0101 = 101,
}

/// What is wrong, in the specification's order from 1. Those from `LiteralUnterminated` on are of a byte literal.
#[derive(Debug, Clone, Copy, PartialEq, Eq, Hash)]
#[non_exhaustive]
pub enum Detail {
    /// 1: a scalar that begins no token.
    UnexpectedCharacter = 1,
    /// 2: a lone `&`.
    ExpectedAnd,
    /// 3: a string without its end.
    UnterminatedString,
    /// 4: an indentation that fits no open level.
    BadIndent,
    /// 5: a byte literal without its end.
    LiteralUnterminated,
    /// 6: `b''`.
    LiteralEmpty,
    /// 7: `\x` with a value above 7F.
    EscapeAbove7F,
    /// 8: `\x` without its two hex digits.
    ExpectedHexDigit,
    /// 9: a backslash with something that it does not stand before.
    UnknownEscape,
    /// 10: a control character, written as itself.
    ControlCharacter,
    /// 11: a character beyond ASCII.
    NonAscii,
    /// 12: more than one character.
    ExpectedClosingQuote,
}

const BUFFERS: [Buffer; 6] = [
    Buffer::Text,
    Buffer::Spare,
    Buffer::Lines,
    Buffer::Tokens,
    Buffer::Out,
    Buffer::Names,
];

const CODES: [Code; 4] = [Code::E0001, Code::E0002, Code::E0004, Code::E0101];

const DETAILS: [Detail; 12] = [
    Detail::UnexpectedCharacter,
    Detail::ExpectedAnd,
    Detail::UnterminatedString,
    Detail::BadIndent,
    Detail::LiteralUnterminated,
    Detail::LiteralEmpty,
    Detail::EscapeAbove7F,
    Detail::ExpectedHexDigit,
    Detail::UnknownEscape,
    Detail::ControlCharacter,
    Detail::NonAscii,
    Detail::ExpectedClosingQuote,
];

impl Refusal {
    /// Its number in the specification, 1 to 7.
    pub fn number(&self) -> u32 {
        match self {
            Refusal::TooLong { .. } => 1,
            Refusal::Malformed { .. } => 2,
            Refusal::Failure(_) => 3,
            Refusal::TooDeep { .. } => 4,
            Refusal::ShortBuffer { .. } => 5,
            Refusal::OutOfRange => 6,
            Refusal::Unfit => 7,
        }
    }

    /// From the words of a reply. Others than the header allows do not come: the library's replies are proved.
    pub(crate) fn from_words(words: &[u64]) -> Refusal {
        match *words {
            [1, length] => Refusal::TooLong {
                length: length as usize,
            },
            [2, prefix] => Refusal::Malformed {
                prefix: prefix as usize,
            },
            [3, ref failure @ ..] => Refusal::Failure(Failure::from_words(failure)),
            [4, line] => Refusal::TooDeep { line: line as usize },
            [5, buffer, least] => Refusal::ShortBuffer {
                buffer: BUFFERS[buffer as usize - 1],
                least: least as usize,
            },
            [6] => Refusal::OutOfRange,
            [7] => Refusal::Unfit,
            _ => unreachable!("lexpage replied {words:?}"),
        }
    }
}

impl Failure {
    fn from_words(words: &[u64]) -> Failure {
        let [code, detail, found, position, line, column, from, to] = *words else {
            unreachable!("lexpage replied a failure {words:?}")
        };
        let detail = DETAILS[detail as usize - 1];
        Failure {
            code: *CODES.iter().find(|c| **c as u64 == code).expect("a code of the header"),
            detail,
            found: char::from_u32(found as u32).filter(|_| detail.names_scalar()),
            position: position as usize,
            line: line as usize,
            column: column as usize,
            range: from as usize..to as usize,
        }
    }
}

impl Detail {
    /// Its number in the specification, 1 to 12.
    pub fn number(self) -> u32 {
        self as u32
    }

    /// Whether a failure of this detail names the scalar that was found.
    pub fn names_scalar(self) -> bool {
        matches!(self, Detail::UnexpectedCharacter) || self.number() >= Detail::ExpectedHexDigit.number()
    }

    /// Its text before and after the scalar that it names.
    fn text(self) -> (&'static str, &'static str) {
        match self {
            Detail::UnexpectedCharacter => ("unexpected character '", "'"),
            Detail::ExpectedAnd => ("expected '&&'", ""),
            Detail::UnterminatedString => ("unterminated string literal", ""),
            Detail::BadIndent => ("Bad Indent", ""),
            Detail::LiteralUnterminated => ("invalid byte literal: unterminated", ""),
            Detail::LiteralEmpty => ("invalid byte literal: empty", ""),
            Detail::EscapeAbove7F => ("invalid byte literal: \\x escape above \\x7F is not ASCII", ""),
            Detail::ExpectedHexDigit => ("invalid byte literal: expected hex digit, found '", "'"),
            Detail::UnknownEscape => ("invalid byte literal: unknown escape '\\", "'"),
            Detail::ControlCharacter => ("invalid byte literal: control character ", " must be escaped"),
            Detail::NonAscii => ("invalid byte literal: non-ASCII character '", "'"),
            Detail::ExpectedClosingQuote => ("invalid byte literal: expected closing quote, found '", "'"),
        }
    }
}

impl fmt::Display for Code {
    fn fmt(&self, f: &mut fmt::Formatter<'_>) -> fmt::Result {
        write!(f, "E{:04}", *self as u32)
    }
}

impl fmt::Display for Buffer {
    fn fmt(&self, f: &mut fmt::Formatter<'_>) -> fmt::Result {
        f.pad(match self {
            Buffer::Text => "text",
            Buffer::Spare => "spare",
            Buffer::Lines => "lines",
            Buffer::Tokens => "tokens",
            Buffer::Out => "out",
            Buffer::Names => "names",
        })
    }
}

/// Line, column, what is wrong, code. A control character is written as U+HHHH.
impl fmt::Display for Failure {
    fn fmt(&self, f: &mut fmt::Formatter<'_>) -> fmt::Result {
        let (before, after) = self.detail.text();
        write!(f, "line {}, column {}: {before}", self.line, self.column)?;
        match self.found {
            Some(c) if c.is_control() => write!(f, "U+{:04X}", u32::from(c))?,
            Some(c) => write!(f, "{c}")?,
            None => {}
        }
        write!(f, "{after} ({})", self.code)
    }
}

impl fmt::Display for Refusal {
    fn fmt(&self, f: &mut fmt::Formatter<'_>) -> fmt::Result {
        match self {
            Refusal::TooLong { length } => {
                write!(f, "the text has {length} bytes; at most {} are read", crate::MAX_BYTES)
            }
            Refusal::Malformed { prefix } => write!(f, "the text is not UTF-8 at byte {prefix}"),
            Refusal::Failure(failure) => failure.fmt(f),
            Refusal::TooDeep { line } => write!(f, "line {line}: more than {} levels", crate::MAX_LEVELS),
            Refusal::ShortBuffer { buffer, least } => write!(f, "the buffer {buffer} is shorter than {least}"),
            Refusal::OutOfRange => f.write_str("out of range"),
            Refusal::Unfit => f.write_str("the page does not fit its buffers, or the token its page"),
        }
    }
}

impl Error for Failure {}

impl Error for Refusal {}
