//! Document 01's own cases and the places where a reader stumbles, with their answers by hand.

use crate::original::types::TokenKind::{self, *};
use crate::reading::Reply;

/// What a reading of a text gives.
pub enum Answer {
    /// The tokens: kind, position, length.
    Reads(&'static [(TokenKind, u32, u32)]),
    /// The failure record: code, detail, found, position, line, column, range start, range end.
    Fails([u32; 8]),
    /// Another refusal, its number and value.
    Refused([u64; 2]),
}

/// A text, as bytes, and its answer.
pub struct Example {
    pub text: &'static [u8],
    pub answer: Answer,
}

/// An example that reads.
const fn reads(text: &'static [u8], tokens: &'static [(TokenKind, u32, u32)]) -> Example {
    Example {
        text,
        answer: Answer::Reads(tokens),
    }
}

/// An example with a lexical failure.
const fn fails(text: &'static [u8], record: [u32; 8]) -> Example {
    Example {
        text,
        answer: Answer::Fails(record),
    }
}

/// An example with another refusal.
const fn refused(text: &'static [u8], reply: [u64; 2]) -> Example {
    Example {
        text,
        answer: Answer::Refused(reply),
    }
}

/// "L1 to L11", but L10 (edits) and L11 (levels).
pub const CASES: &[Example] = &[
    reads(b"", &[]),
    reads(
        b"a\n  b\n",
        &[
            (Ident, 0, 1),
            (Newline, 1, 0),
            (Indent, 2, 0),
            (Ident, 4, 1),
            (Newline, 5, 0),
            (Dedent, 6, 0),
        ],
    ),
    fails(b"a & b", [2, 2, 0, 2, 1, 3, 2, 3]),
    reads(
        b"f ->\n  x",
        &[
            (Ident, 0, 1),
            (Implies, 2, 2),
            (Newline, 4, 0),
            (Ident, 7, 1),
            (Newline, 8, 0),
        ],
    ),
    reads(
        b"f ->\n# c\n  x",
        &[
            (Ident, 0, 1),
            (Implies, 2, 2),
            (Newline, 4, 0),
            (Newline, 8, 0),
            (Indent, 9, 0),
            (Ident, 11, 1),
            (Newline, 12, 0),
            (Dedent, 12, 0),
        ],
    ),
    fails(b"  a\n b", [101, 4, 0, 4, 2, 1, 4, 5]),
    reads(br"b'\x7F'", &[(ByteLit, 0, 7), (Newline, 7, 0)]),
    fails(br"b'\x80'", [1, 7, 0, 4, 1, 5, 4, 5]),
    reads(br#""a\""#, &[(String, 0, 4), (Newline, 4, 0)]),
    fails(b"\"ab\r\n", [4, 3, 0, 0, 1, 1, 0, 3]),
    reads(
        b"1..2",
        &[(Num, 0, 1), (DotDot, 1, 2), (Num, 3, 1), (Newline, 4, 0)],
    ),
    reads(b"0x1f64", &[(Num, 0, 6), (Newline, 6, 0)]),
];

/// "Bytes and lines": LF alone ends a line, UTF-8 is checked whole before reading.
pub const BYTES_AND_LINES: &[Example] = &[
    refused(b"\xC0\x80", [2, 0]),
    refused(b"a\xC3", [2, 1]),
    refused(b"&\xFF", [2, 1]),
    refused(b"a\n\xED\xA0\x80", [2, 2]),
    refused(b"\xF4\x90\x80\x80", [2, 0]),
    refused(b"#\xC3\xA9\xE2\x82", [2, 3]),
    reads(b"\n", &[(Newline, 0, 0)]),
    reads(b"\n\n", &[(Newline, 0, 0), (Newline, 1, 0)]),
    reads(b"a", &[(Ident, 0, 1), (Newline, 1, 0)]),
    reads(b"a\n", &[(Ident, 0, 1), (Newline, 1, 0)]),
    reads(b"a\r\n", &[(Ident, 0, 1), (Newline, 2, 0)]),
    reads(b"a\rb", &[(Ident, 0, 1), (Ident, 2, 1), (Newline, 3, 0)]),
    reads(b"#\xC3\xA9\n", &[(Newline, 3, 0)]),
    reads(b"#\xE2\x80\xA8&", &[(Newline, 5, 0)]),
    reads(b"#\xC2\x85&", &[(Newline, 4, 0)]),
    fails(b"\xEF\xBB\xBFa", [1, 1, 0xFEFF, 0, 1, 1, 0, 3]),
    fails(b"\xC2\x85", [1, 1, 0x85, 0, 1, 1, 0, 2]),
    fails(b"\xE2\x80\xA8", [1, 1, 0x2028, 0, 1, 1, 0, 3]),
    fails(b"\n\xF0\x9F\x90\x9F", [1, 1, 0x1F41F, 1, 2, 1, 1, 5]),
    fails(b"\0", [1, 1, 0, 0, 1, 1, 0, 1]),
    fails(b"\x7F", [1, 1, 0x7F, 0, 1, 1, 0, 1]),
    fails(b"\x0B", [1, 1, 0x0B, 0, 1, 1, 0, 1]),
    fails(b"\"\xC3\xA9\"'", [1, 1, 39, 4, 1, 5, 4, 5]),
];

/// Seventeen levels in the fewest bytes.
#[rustfmt::skip]
pub const SEVENTEEN_LEVELS: &[u8] = b" a\n  a\n   a\n\ta\n\t a\n\t  a\n\t   a\n\t\ta\n\t\t a\n\
\t\t  a\n\t\t   a\n\t\t\ta\n\t\t\t a\n\t\t\t  a\n\t\t\t\ta\n\t\t\t\t a\n\t\t\t\t\ta";

/// "Levels": widths, blank lines, brackets and the carried arrow.
pub const LEVELS: &[Example] = &[
    reads(
        b" a\n\r b",
        &[
            (Indent, 0, 0),
            (Ident, 1, 1),
            (Newline, 2, 0),
            (Dedent, 3, 0),
            (Ident, 5, 1),
            (Newline, 6, 0),
        ],
    ),
    reads(
        b"\ta\n    b\n",
        &[
            (Indent, 0, 0),
            (Ident, 1, 1),
            (Newline, 2, 0),
            (Ident, 7, 1),
            (Newline, 8, 0),
            (Dedent, 9, 0),
        ],
    ),
    reads(
        b" a",
        &[
            (Indent, 0, 0),
            (Ident, 1, 1),
            (Newline, 2, 0),
            (Dedent, 2, 0),
        ],
    ),
    refused(SEVENTEEN_LEVELS, [4, 17]),
    fails(b"  \ta\n    b", [101, 4, 0, 5, 2, 1, 5, 9]),
    fails(b"  a\n \rb", [101, 4, 0, 4, 2, 1, 4, 5]),
    fails(b"    a\n  &", [101, 4, 0, 6, 2, 1, 6, 8]),
    fails(b"\xC3\xA9\n  a\n b", [1, 1, 0xE9, 0, 1, 1, 0, 2]),
    reads(
        b"a\n         b",
        &[
            (Ident, 0, 1),
            (Newline, 1, 0),
            (Indent, 2, 0),
            (Ident, 11, 1),
            (Newline, 12, 0),
            (Dedent, 12, 0),
        ],
    ),
    reads(
        b" a\n  b\nc",
        &[
            (Indent, 0, 0),
            (Ident, 1, 1),
            (Newline, 2, 0),
            (Indent, 3, 0),
            (Ident, 5, 1),
            (Newline, 6, 0),
            (Dedent, 7, 0),
            (Dedent, 7, 0),
            (Ident, 7, 1),
            (Newline, 8, 0),
        ],
    ),
    reads(
        b"  \r#\n\t//\n \r",
        &[(Newline, 4, 0), (Newline, 8, 0), (Newline, 11, 0)],
    ),
    reads(
        b"f -> # c\n x",
        &[
            (Ident, 0, 1),
            (Implies, 2, 2),
            (Newline, 8, 0),
            (Ident, 10, 1),
            (Newline, 11, 0),
        ],
    ),
    reads(
        b"f # ->\n x",
        &[
            (Ident, 0, 1),
            (Newline, 6, 0),
            (Indent, 7, 0),
            (Ident, 8, 1),
            (Newline, 9, 0),
            (Dedent, 9, 0),
        ],
    ),
    reads(
        b"->\n\n x",
        &[
            (Implies, 0, 2),
            (Newline, 2, 0),
            (Newline, 3, 0),
            (Indent, 4, 0),
            (Ident, 5, 1),
            (Newline, 6, 0),
            (Dedent, 6, 0),
        ],
    ),
    reads(
        b"(->\n#\n)\n x",
        &[
            (LParen, 0, 1),
            (Implies, 1, 2),
            (Newline, 3, 0),
            (Newline, 5, 0),
            (RParen, 6, 1),
            (Newline, 7, 0),
            (Indent, 8, 0),
            (Ident, 9, 1),
            (Newline, 10, 0),
            (Dedent, 10, 0),
        ],
    ),
    reads(
        b" (\na",
        &[
            (Indent, 0, 0),
            (LParen, 1, 1),
            (Newline, 2, 0),
            (Ident, 3, 1),
            (Newline, 4, 0),
            (Dedent, 4, 0),
        ],
    ),
    reads(
        b")(\n a",
        &[
            (RParen, 0, 1),
            (LParen, 1, 1),
            (Newline, 2, 0),
            (Ident, 4, 1),
            (Newline, 5, 0),
        ],
    ),
    reads(
        b"{\n a",
        &[
            (LBrace, 0, 1),
            (Newline, 1, 0),
            (Indent, 2, 0),
            (Ident, 3, 1),
            (Newline, 4, 0),
            (Dedent, 4, 0),
        ],
    ),
    reads(
        b"[\n a",
        &[
            (LBracket, 0, 1),
            (Newline, 1, 0),
            (Indent, 2, 0),
            (Ident, 3, 1),
            (Newline, 4, 0),
            (Dedent, 4, 0),
        ],
    ),
];

/// "Signs, longest first"; "`#` and `//` end the line"
pub const SIGNS_AND_WORDS: &[Example] = &[
    reads(b"/ //", &[(Slash, 0, 1), (Newline, 4, 0)]),
    reads(b"//=", &[(Newline, 3, 0)]),
    reads(
        b"/=/",
        &[(SlashAssign, 0, 2), (Slash, 2, 1), (Newline, 3, 0)],
    ),
    reads(
        b"|||=",
        &[(OrOr, 0, 2), (Pipe, 2, 1), (Assign, 3, 1), (Newline, 4, 0)],
    ),
    reads(b"||=", &[(OrOrAssign, 0, 3), (Newline, 3, 0)]),
    reads(b"||>", &[(OrOr, 0, 2), (RAngle, 2, 1), (Newline, 3, 0)]),
    reads(b"...", &[(DotDot, 0, 2), (Dot, 2, 1), (Newline, 3, 0)]),
    reads(
        b"...=",
        &[(DotDot, 0, 2), (Dot, 2, 1), (Assign, 3, 1), (Newline, 4, 0)],
    ),
    reads(b":::=", &[(PathSep, 0, 2), (Assign, 2, 2), (Newline, 4, 0)]),
    reads(b"-->", &[(Minus, 0, 1), (Implies, 1, 2), (Newline, 3, 0)]),
    reads(b"=>=", &[(FatArrow, 0, 2), (Assign, 2, 1), (Newline, 3, 0)]),
    reads(b"==>", &[(EqEq, 0, 2), (RAngle, 2, 1), (Newline, 3, 0)]),
    reads(b"&&=", &[(AndAndAssign, 0, 3), (Newline, 3, 0)]),
    fails(b"&&&", [2, 2, 0, 2, 1, 3, 2, 3]),
    fails(b"&", [2, 2, 0, 0, 1, 1, 0, 1]),
    reads(
        b"__",
        &[(Underscore, 0, 1), (Underscore, 1, 1), (Newline, 2, 0)],
    ),
    reads(
        b"when When",
        &[(KwWhen, 0, 4), (KwWhen, 5, 4), (Newline, 9, 0)],
    ),
    reads(
        b"WHEN lets le",
        &[
            (Ident, 0, 4),
            (Ident, 5, 4),
            (Ident, 10, 2),
            (Newline, 12, 0),
        ],
    ),
    reads(
        b"N f64 fx",
        &[(QuadN, 0, 1), (TyF64, 2, 3), (TyFx, 6, 2), (Newline, 8, 0)],
    ),
    fails(b"'", [1, 1, 39, 0, 1, 1, 0, 1]),
    fails(b"\\", [1, 1, 92, 0, 1, 1, 0, 1]),
    fails(b"a\xC3\xA9", [1, 1, 0xE9, 1, 1, 2, 1, 3]),
];

/// "String: to the next `\"`"; "Number: ..."
pub const STRINGS_AND_NUMBERS: &[Example] = &[
    reads(br#""""#, &[(String, 0, 2), (Newline, 2, 0)]),
    reads(b"\"\r\"\r", &[(String, 0, 3), (Newline, 4, 0)]),
    reads(b"\"#//\"", &[(String, 0, 5), (Newline, 5, 0)]),
    fails(b"\"", [4, 3, 0, 0, 1, 1, 0, 1]),
    fails(b"\"\r", [4, 3, 0, 0, 1, 1, 0, 1]),
    fails(b"\"\r\r", [4, 3, 0, 0, 1, 1, 0, 1]),
    fails(b"a \"b\r c\r\n\"", [4, 3, 0, 2, 1, 3, 2, 7]),
    reads(
        b"1.e",
        &[(Num, 0, 1), (Dot, 1, 1), (Ident, 2, 1), (Newline, 3, 0)],
    ),
    reads(b"1_.5", &[(Num, 0, 4), (Newline, 4, 0)]),
    reads(
        b"1._5",
        &[
            (Num, 0, 1),
            (Dot, 1, 1),
            (Underscore, 2, 1),
            (Num, 3, 1),
            (Newline, 4, 0),
        ],
    ),
    reads(
        b"1.5.6",
        &[(Num, 0, 3), (Dot, 3, 1), (Num, 4, 1), (Newline, 5, 0)],
    ),
    reads(b"0x", &[(Num, 0, 2), (Newline, 2, 0)]),
    reads(b"0x_", &[(Num, 0, 3), (Newline, 3, 0)]),
    reads(b"0xi32", &[(Num, 0, 5), (Newline, 5, 0)]),
    reads(b"0Xi32", &[(Num, 0, 5), (Newline, 5, 0)]),
    reads(b"0xfx", &[(Num, 0, 3), (Ident, 3, 1), (Newline, 4, 0)]),
    reads(
        b"0x1.5",
        &[(Num, 0, 3), (Dot, 3, 1), (Num, 4, 1), (Newline, 5, 0)],
    ),
    reads(b"00x1", &[(Num, 0, 2), (Ident, 2, 2), (Newline, 4, 0)]),
    reads(b"1f642", &[(Num, 0, 4), (Num, 4, 1), (Newline, 5, 0)]),
    reads(b"1fxi32", &[(Num, 0, 3), (TyI32, 3, 3), (Newline, 6, 0)]),
    reads(b"1.5fx", &[(Num, 0, 5), (Newline, 5, 0)]),
    reads(b"1f", &[(Num, 0, 1), (Ident, 1, 1), (Newline, 2, 0)]),
    fails(b"1\xC3\xA9", [1, 1, 0xE9, 1, 1, 2, 1, 3]),
];

/// "`b'` begins a byte literal"
pub const BYTE_LITERALS: &[Example] = &[
    reads(b"b'a'", &[(ByteLit, 0, 4), (Newline, 4, 0)]),
    reads(b"b'\"'", &[(ByteLit, 0, 4), (Newline, 4, 0)]),
    reads(b"b'#'", &[(ByteLit, 0, 4), (Newline, 4, 0)]),
    reads(br"b'\''", &[(ByteLit, 0, 5), (Newline, 5, 0)]),
    reads(br"b'\\'", &[(ByteLit, 0, 5), (Newline, 5, 0)]),
    reads(b"0b'a'", &[(Num, 0, 1), (ByteLit, 1, 4), (Newline, 5, 0)]),
    reads(
        b"_b'a'",
        &[(Underscore, 0, 1), (ByteLit, 1, 4), (Newline, 5, 0)],
    ),
    fails(b"xb'a'", [1, 1, 39, 2, 1, 3, 2, 3]),
    fails(b"0xb'a'", [1, 1, 39, 3, 1, 4, 3, 4]),
    fails(b"b'", [1, 5, 0, 0, 1, 1, 0, 2]),
    fails(b"b'\r", [1, 5, 0, 0, 1, 1, 0, 2]),
    fails(b"b'\r\n", [1, 5, 0, 0, 1, 1, 0, 2]),
    fails(br"b'\'", [1, 5, 0, 0, 1, 1, 0, 4]),
    fails(b"b'\n'", [1, 5, 0, 0, 1, 1, 0, 2]),
    fails(b" b'a\r\r", [1, 5, 0, 1, 1, 2, 1, 4]),
    fails(br"b'\", [1, 5, 0, 0, 1, 1, 0, 3]),
    fails(br"b'\x", [1, 5, 0, 0, 1, 1, 0, 4]),
    fails(br"b'\x7", [1, 5, 0, 0, 1, 1, 0, 5]),
    fails(br"b'\x7F", [1, 5, 0, 0, 1, 1, 0, 6]),
    fails(b"b'\r'", [1, 10, 13, 2, 1, 3, 2, 3]),
    fails(b"b'a\r'", [1, 12, 13, 3, 1, 4, 3, 4]),
    fails(b"b''", [1, 6, 0, 2, 1, 3, 2, 3]),
    fails(b"b'''", [1, 6, 0, 2, 1, 3, 2, 3]),
    fails(br"b'\x8", [1, 7, 0, 4, 1, 5, 4, 5]),
    fails(br"b'\x8g'", [1, 7, 0, 4, 1, 5, 4, 5]),
    fails(br"b'\xFg'", [1, 7, 0, 4, 1, 5, 4, 5]),
    fails(br"b'\xg0'", [1, 8, 103, 4, 1, 5, 4, 5]),
    fails(br"b'\x+7'", [1, 8, 43, 4, 1, 5, 4, 5]),
    fails(br"b'\x7'", [1, 8, 39, 5, 1, 6, 5, 6]),
    fails(b"b'\\x7\xC3\xA9", [1, 8, 0xE9, 5, 1, 6, 5, 7]),
    fails(b"b'\\x\r'", [1, 8, 13, 4, 1, 5, 4, 5]),
    fails(br"b'\q", [1, 9, 113, 3, 1, 4, 3, 4]),
    fails(b"b'\\\r'", [1, 9, 13, 3, 1, 4, 3, 4]),
    fails(br"b'\q'", [1, 9, 113, 3, 1, 4, 3, 4]),
    fails(b"b'\\\xC3\xA9'", [1, 9, 0xE9, 3, 1, 4, 3, 5]),
    fails(b"b'\0'", [1, 10, 0, 2, 1, 3, 2, 3]),
    fails(b"b'\x1F'", [1, 10, 0x1F, 2, 1, 3, 2, 3]),
    fails(b"b'\x7F'", [1, 10, 0x7F, 2, 1, 3, 2, 3]),
    fails(b"b'\t", [1, 10, 9, 2, 1, 3, 2, 3]),
    fails(b"b'\xC3\xA9", [1, 11, 0xE9, 2, 1, 3, 2, 4]),
    fails(b"b'\xF4\x8F\xBF\xBF'", [1, 11, 0x10FFFF, 2, 1, 3, 2, 6]),
    fails(b"b'ab", [1, 12, 98, 3, 1, 4, 3, 4]),
    fails(b"b' \\'", [1, 12, 92, 3, 1, 4, 3, 4]),
    fails(b"b'a\xE2\x82\xAC'", [1, 12, 0x20AC, 3, 1, 4, 3, 6]),
];

/// Every list of examples.
pub const ALL: &[&[Example]] = &[
    CASES,
    BYTES_AND_LINES,
    LEVELS,
    SIGNS_AND_WORDS,
    STRINGS_AND_NUMBERS,
    BYTE_LITERALS,
];

/// "Byte-literal value": texts with their values, `None` for none.
pub const VALUES: &[(&[u8], Option<u64>)] = &[
    (b"b'a'", Some(97)),
    (b"b'''", Some(39)),
    (br"b'\'", Some(92)),
    (br"b'\''", Some(39)),
    (br"b'\\'", Some(92)),
    (br#"b'\"'"#, Some(34)),
    (br"b'\0'", Some(0)),
    (br"b'\t'", Some(9)),
    (br"b'\n'", Some(10)),
    (br"b'\r'", Some(13)),
    (br"b'\x00'", Some(0)),
    (br"b'\x7F'", Some(127)),
    (br"b'\x7f'", Some(127)),
    (br"b'\x80'", None),
    (br"b'\xFF'", None),
    (br"b'\x+7'", Some(7)),
    (br"b'\x+f'", Some(15)),
    (br"b'\x-0'", None),
    (br"b'\x_7'", None),
    (br"b'\x7_'", None),
    (br"b'\x++'", None),
    (br"b'\x+'", None),
    (br"b'\x7'", None),
    (br"b'\x007'", None),
    (b"b'\\x\xC3\xA9'", None),
    (b"b'\n'", Some(10)),
    (b"b'\0'", Some(0)),
    (b"b'\r'", Some(13)),
    (b"b'\x7F'", Some(127)),
    (b"b'\xC3\xA9'", None),
    (b"b''", None),
    (b"b'", None),
    (b"b'ab'", None),
    (br"b'\q'", None),
    (b"b'a", None),
    (b"b'a' ", None),
    (b" b'a'", None),
    (b"'a'", None),
    (b"", None),
];

/// "Digits and suffix told apart": texts with the end of the number at their front, its base, its digits' end and its suffix.
pub const PARTS: &[(&[u8], [u64; 4])] = &[
    (b"0", [1, 10, 1, 0]),
    (b"38", [2, 10, 2, 0]),
    (b"1_", [2, 10, 2, 0]),
    (b"1__0", [4, 10, 4, 0]),
    (b"00x1", [2, 10, 2, 0]),
    (b"0_x1", [2, 10, 2, 0]),
    (b"1x1", [1, 10, 1, 0]),
    (b"1.5", [3, 10, 3, 0]),
    (b"1_.5", [4, 10, 4, 0]),
    (b"1.5_", [4, 10, 4, 0]),
    (b"1.5.6", [3, 10, 3, 0]),
    (b"1.", [1, 10, 1, 0]),
    (b"1.e", [1, 10, 1, 0]),
    (b"1._5", [1, 10, 1, 0]),
    (b"1.fx", [1, 10, 1, 0]),
    (b"1..2", [1, 10, 1, 0]),
    (b"1fx", [3, 10, 1, 1]),
    (b"0fx", [3, 10, 1, 1]),
    (b"1_fx", [4, 10, 2, 1]),
    (b"1.5_fx", [6, 10, 4, 1]),
    (b"1fxi32", [3, 10, 1, 1]),
    (b"1_i32", [5, 10, 2, 2]),
    (b"1i32u32", [4, 10, 1, 2]),
    (b"1u32_", [4, 10, 1, 3]),
    (b"1.5f64", [6, 10, 3, 4]),
    (b"1f642", [4, 10, 1, 4]),
    (b"1f64.5", [4, 10, 1, 4]),
    (b"1f", [1, 10, 1, 0]),
    (b"1f6", [1, 10, 1, 0]),
    (b"1i3", [1, 10, 1, 0]),
    (b"1 i32", [1, 10, 1, 0]),
    (b"1I32", [1, 10, 1, 0]),
    (b"1FX", [1, 10, 1, 0]),
    (b"0x", [2, 16, 2, 0]),
    (b"0X", [2, 16, 2, 0]),
    (b"0x_", [3, 16, 3, 0]),
    (b"0xg", [2, 16, 2, 0]),
    (b"0x0x1", [3, 16, 3, 0]),
    (b"0x1.5", [3, 16, 3, 0]),
    (b"0xfx", [3, 16, 3, 0]),
    (b"0x1fx", [4, 16, 4, 0]),
    (b"0x_fx", [4, 16, 4, 0]),
    (b"0x1f64", [6, 16, 6, 0]),
    (b"0Xf64", [5, 16, 5, 0]),
    (b"0x_f64", [6, 16, 6, 0]),
    (b"0xf64i32", [8, 16, 5, 2]),
    (b"0xi32", [5, 16, 2, 2]),
    (b"0Xi32", [5, 16, 2, 2]),
    (b"0x_i32", [6, 16, 3, 2]),
    (b"0XFFu32", [7, 16, 4, 3]),
    (b"0xu32u32", [5, 16, 2, 3]),
    (b"1 ", [1, 10, 1, 0]),
    (b"1\n", [1, 10, 1, 0]),
    (b"1\r\n& ?", [1, 10, 1, 0]),
    (b"1\n  a\n b", [1, 10, 1, 0]),
    (b"38\xC3\xA9", [2, 10, 2, 0]),
    (b"7i32&", [4, 10, 1, 2]),
    (b"0xb'a'", [3, 16, 3, 0]),
    (b"0b'", [1, 10, 1, 0]),
    (b"1.\"", [1, 10, 1, 0]),
];

/// "Digits and suffix told apart": texts that begin with no number.
pub const NO_NUMBERS: &[&[u8]] = &[
    b"",
    b"x",
    b"x1",
    b" 1",
    b"\t1",
    b"\r1",
    b"\n1",
    b"-1",
    b"+1",
    b".5",
    b"_1",
    b"#1",
    b"\"1\"",
    b"i32",
    b"/1",
    b":1",
    b"\xC2\xB2",
    b"\xEF\xBC\x91",
];

/// "Report writes the failure's `message` as in `fmt_mark_error`": texts with their messages.
#[rustfmt::skip]
pub const MESSAGES: &[(&[u8], &str)] = &[
    (
        b"a & b",
        "error[E0002]: expected '&&'\n --> <input>:1:3\n  |\n 1 | a & b\n  |   ^",
    ),
    (
        b"\"\r\n",
        "error[E0004]: unterminated string literal\n --> <input>:1:1\n  |\n 1 | \"\r\n  | ^",
    ),
    (
        b"b'\r\n",
        "error[E0001]: invalid byte literal: unterminated\n --> <input>:1:1\n  |\n 1 | b'\r\n  | ^",
    ),
    (
        b"#\n\"\xC3\xA9\"?",
        "error[E0001]: unexpected character '?'\n --> <input>:2:5\n  |\n 2 | \"é\"?\n  |     ^",
    ),
    (
        b"\"\xC3\xA9\xC3\xA9\"?",
        "error[E0001]: unexpected character '?'\n --> <input>:1:7\n  |\n 1 | \"éé\"?\n  |       ^",
    ),
    (
        b"\t?",
        "error[E0001]: unexpected character '?'\n --> <input>:1:2\n  |\n 1 | \t?\n  |  ^",
    ),
    (
        b"b'a\r'",
        "error[E0001]: invalid byte literal: expected closing quote, found '\r'\n \
         --> <input>:1:4\n  |\n 1 | b'a\r'\n  |    ^",
    ),
    (
        b"b'\x01'",
        "error[E0001]: invalid byte literal: control character U+0001 must be escaped\n \
         --> <input>:1:3\n  |\n 1 | b'\x01'\n  |   ^",
    ),
    (
        b"  a\n b",
        "error[E0101]: Bad Indent\n --> <input>:2:1\n  |\n 2 |  b\n  | ^",
    ),
];

/// A text of so many levels, one line and one more space each.
pub fn levels(count: usize) -> Vec<u8> {
    let line = |width: usize| [&vec![b' '; width][..], b"a\n"].concat();
    (0..=count).flat_map(line).collect()
}

/// "L11 sixteen levels read, a seventeenth gives 4", and what stands around the limit.
pub fn level_limits() -> Vec<(Vec<u8>, Reply)> {
    let after_sixteen = |width: usize, rest: &[u8]| {
        let indentation = vec![b' '; width];
        [&levels(16), &indentation, rest].concat()
    };
    let tabs = [&levels(16), &b"\t\t\t\t \"a"[..]].concat();
    vec![
        (levels(15), vec![0, 152, 16, 62]),
        (levels(16), vec![0, 170, 17, 66]),
        (levels(17), vec![4, 18]),
        (levels(18), vec![4, 18]),
        (tabs, vec![4, 18]),
        (after_sixteen(17, b"&"), vec![4, 18]),
        (after_sixteen(17, b"\r&"), vec![4, 18]),
        (after_sixteen(17, b"a\n&"), vec![4, 18]),
        (after_sixteen(17, b"#"), vec![0, 188, 18, 67]),
        (after_sixteen(17, b"\r"), vec![0, 188, 18, 67]),
        (
            after_sixteen(16, b"->\n                  a"),
            vec![0, 208, 19, 70],
        ),
        (
            after_sixteen(15, b"a\n                  a"),
            vec![0, 206, 19, 72],
        ),
        (
            after_sixteen(16, b"&"),
            vec![3, 2, 2, 0, 186, 18, 17, 186, 187],
        ),
        (
            after_sixteen(16, b"(\n                  &"),
            vec![3, 2, 2, 0, 206, 19, 19, 206, 207],
        ),
        (
            after_sixteen(0, b"&\n                 a"),
            vec![3, 2, 2, 0, 170, 18, 1, 170, 171],
        ),
    ]
}
