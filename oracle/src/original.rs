//! The original lexer, compiled from its own two files, and its answers as document 01's numbers.

use lexer::LexFailure;
use types::{Token, TokenKind};

/// Stand-ins for what the two files use and do not declare.
pub mod ton618_core {
    /// "three numbers: line, col, file_id (always 0)"
    #[derive(Debug, Clone, Copy, PartialEq, Eq)]
    pub struct SourceMark {
        pub line: u32,
        pub col: u32,
        pub file_id: u32,
    }

    #[derive(Debug, Clone, Copy, PartialEq, Eq, Hash)]
    pub struct ExprId(pub u32);

    #[derive(Debug, Clone, Copy, PartialEq, Eq, Hash)]
    pub struct StmtId(pub u32);

    #[derive(Debug, Clone, Copy, PartialEq, Eq, Hash)]
    pub struct SymbolId(pub u32);

    /// The names of symbols; the lexer does not touch it.
    #[derive(Debug, Clone, Default, PartialEq)]
    pub struct SigTable(Vec<String>);

    impl SigTable {
        /// Stand-in, outside document 01.
        pub fn intern(&mut self, name: &str) -> SymbolId {
            self.0.push(name.into());
            SymbolId(self.0.len() as u32 - 1)
        }

        /// Stand-in, outside document 01.
        #[allow(clippy::len_without_is_empty)]
        pub fn len(&self) -> usize {
            self.0.len()
        }

        /// Stand-in, outside document 01.
        pub fn resolve(&self, id: SymbolId) -> Option<&str> {
            self.0.get(id.0 as usize).map(String::as_str)
        }
    }
}

#[allow(clippy::all)]
pub mod types {
    use super::ton618_core;
    include!(env!("SEMANTIC_TYPES"));
}

#[allow(clippy::all)]
pub mod lexer {
    use super::ton618_core;
    include!(env!("SEMANTIC_LEXER"));

    /// "Indent width: leading spaces count 1, tabs 4, up to the first other byte"
    pub fn indent_width(line: &str) -> u32 {
        compute_indent(line) as u32
    }
}

/// "Token, 5 words: kind, position, length, line, column"
pub type TokenRecord = [u32; 5];

/// "Failure record: code, detail, found scalar, position, line, column, range", and the message.
#[derive(Debug, Clone, PartialEq, Eq)]
pub struct Failure {
    pub code: u32,
    pub detail: u32,
    pub found: u32,
    pub position: u32,
    pub line: u32,
    pub column: u32,
    pub range_start: u32,
    pub range_end: u32,
    pub message: Vec<u8>,
}

impl Failure {
    /// "Failure record: code, detail, found scalar, position, line, column, range"
    pub fn words(&self) -> [u32; 8] {
        [
            self.code,
            self.detail,
            self.found,
            self.position,
            self.line,
            self.column,
            self.range_start,
            self.range_end,
        ]
    }
}

/// How a detail shows the scalar that was found.
enum Shown {
    Nothing,
    Scalar,
    Hex,
}

/// "Details: ...", in document 01's order: the text before the scalar, the scalar, the text after.
const DETAILS: [(&str, Shown, &str); 12] = [
    ("unexpected character '", Shown::Scalar, "'"),
    ("expected '&&'", Shown::Nothing, ""),
    ("unterminated string literal", Shown::Nothing, ""),
    ("Bad Indent", Shown::Nothing, ""),
    ("invalid byte literal: unterminated", Shown::Nothing, ""),
    ("invalid byte literal: empty", Shown::Nothing, ""),
    (
        "invalid byte literal: \\x escape above \\x7F is not ASCII",
        Shown::Nothing,
        "",
    ),
    (
        "invalid byte literal: expected hex digit, found '",
        Shown::Scalar,
        "'",
    ),
    (
        "invalid byte literal: unknown escape '\\",
        Shown::Scalar,
        "'",
    ),
    (
        "invalid byte literal: control character U+",
        Shown::Hex,
        " must be escaped",
    ),
    (
        "invalid byte literal: non-ASCII character '",
        Shown::Scalar,
        "'",
    ),
    (
        "invalid byte literal: expected closing quote, found '",
        Shown::Scalar,
        "'",
    ),
];

/// "found scalar (C, or HHHH as four capital hex digits; 0 where the detail names none)"
fn scalar_found(shown: &Shown, middle: &str) -> Option<u32> {
    let mut scalars = middle.chars();
    match (shown, scalars.next(), scalars.next()) {
        (Shown::Nothing, None, _) => Some(0),
        (Shown::Scalar, Some(scalar), None) => Some(scalar as u32),
        (Shown::Hex, Some(_), Some(_)) if middle.len() == 4 => u32::from_str_radix(middle, 16).ok(),
        _ => None,
    }
}

/// "Details: ..." numbered 1 to 12, with the scalar found.
fn detail_number(detail: &str) -> Option<(u32, u32)> {
    DETAILS.iter().zip(1..).find_map(|(entry, number)| {
        let (before, shown, after) = entry;
        let middle = detail.strip_prefix(before)?.strip_suffix(after)?;
        Some((number, scalar_found(shown, middle)?))
    })
}

/// "Report writes the failure's `message`": line and column stand in its second row.
fn line_and_column(message: &str) -> Option<(u32, u32)> {
    let row = message.split('\n').nth(1)?;
    let (line, column) = row.strip_prefix(" --> <input>:")?.split_once(':')?;
    Some((line.parse().ok()?, column.parse().ok()?))
}

/// "3, the failure record"
fn failure(original: LexFailure) -> Failure {
    let message = original.error.message;
    let (detail, found) = detail_number(&original.detail).expect("a detail that 01 lists");
    let (line, column) = line_and_column(&message).expect("line and column in the second row");
    let range = original.range.expect("a range with every failure");
    Failure {
        code: original.code[1..].parse().expect("E and a number"),
        detail,
        found,
        position: original.error.pos as u32,
        line,
        column,
        range_start: range.start as u32,
        range_end: range.end as u32,
        message: message.into_bytes(),
    }
}

/// "Token, 5 words: kind, position, length, line, column; length 0 for Indent, Dedent, Newline"
fn token_record(text: &str, token: &Token) -> TokenRecord {
    let length = match token.kind {
        TokenKind::Indent | TokenKind::Dedent | TokenKind::Newline => 0,
        _ => token.text.len(),
    };
    let part = &text[token.pos..token.pos + length];
    assert!(length == 0 || part == token.text, "a token's own text");
    [
        token.kind as u32,
        token.pos as u32,
        length as u32,
        token.mark.line,
        token.mark.col,
    ]
}

/// "The reference is `lex_tokens_with_authority`"
pub fn tokens(text: &str) -> Result<Vec<TokenRecord>, Failure> {
    match lexer::lex_tokens_with_authority(text) {
        Ok(list) => Ok(list.iter().map(|t| token_record(text, t)).collect()),
        Err(original) => Err(failure(original)),
    }
}

/// "`ascii_byte_literal_value` is the reference for values"
pub fn byte_value(text: &str) -> Option<u32> {
    lexer::ascii_byte_literal_value(text)
}
