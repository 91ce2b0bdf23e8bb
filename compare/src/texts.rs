//! A text by itself: read, report, byte value, number parts, panel columns and the page of its records, against the oracle's.

use crate::lent::{Lent, BYTE, WORD};
use crate::library::Library;
use crate::pages::{page_holds, same, Held};
use oracle::generate::calls::page_of;
use oracle::generate::numbers::{filled, PIECES};
use oracle::generate::texts::every;
use oracle::numbers::number_parts;
use oracle::original::types::TokenKind;
use oracle::page::{byte_value, message, panel_column, read_into, report, Page};
use oracle::reading::{LINE_WORDS, TOKEN_WORDS};

/// A reading into buffers of these lengths: the reply and both buffers whole.
fn read_holds(library: &Library, text: &[u8], lines: usize, tokens: usize) -> Held {
    let (mut due_lines, mut due_tokens) = (vec![WORD; lines], vec![WORD; tokens]);
    let due = read_into(text, &mut due_lines, &mut due_tokens);
    let (mut is_lines, mut is_tokens) = (Lent::filled(lines, WORD), Lent::filled(tokens, WORD));
    let is = library.read(text, is_lines.items_mut(), is_tokens.items_mut());
    let name = format!("read with {lines} line words and {tokens} token words");
    same(format_args!("{name}"), is, due)?;
    is_lines.holds(&format!("{name}: lines"), &due_lines)?;
    is_tokens.holds(&format!("{name}: tokens"), &due_tokens)
}

/// With ample buffers, with just enough, with one word too few in one or both, and with none.
fn reads_hold(library: &Library, text: &[u8], page: &Page) -> Held {
    let lines = LINE_WORDS * (page.m as usize + 1);
    let tokens = TOKEN_WORDS * page.k as usize;
    let fewer = tokens.saturating_sub(1);
    read_holds(library, text, lines + 22, tokens + 6)?;
    read_holds(library, text, lines, tokens)?;
    read_holds(library, text, lines - 1, tokens)?;
    read_holds(library, text, lines, fewer)?;
    read_holds(library, text, lines - 1, fewer)?;
    read_holds(library, text, 0, 0)
}

/// A report into a buffer of this length: the reply and the buffer whole.
fn report_holds(library: &Library, text: &[u8], length: usize) -> Held {
    let mut due_out = vec![BYTE; length];
    let due = report(text, &mut due_out);
    let mut out = Lent::filled(length, BYTE);
    let is = library.report(text, out.items_mut());
    same(format_args!("report with {length} bytes"), is, due)?;
    out.holds("out", &due_out)
}

/// With room to spare, with just enough, with one byte too few, and with none.
fn reports_hold(library: &Library, text: &[u8]) -> Held {
    let length = message(text).unwrap_or_default().len();
    for room in [length + 3, length, length.saturating_sub(1), 0] {
        report_holds(library, text, room)?;
    }
    Ok(())
}

/// At every offset to one past the end, and at some far ones.
fn columns_hold(library: &Library, text: &[u8]) -> Held {
    let end = text.len() as u64 + 1;
    for offset in (0..=end).chain([2 * end + 1, 1 << 32, u64::MAX]) {
        let is = library.panel_column(text, offset);
        let what = format_args!("the panel column at {offset}");
        same(what, is, panel_column(text, offset))?;
    }
    Ok(())
}

/// The parts of the number at a text's front, between digits that are none of its bytes: the reply, and the text untouched.
pub fn number_parts_hold(library: &Library, text: &[u8]) -> Held {
    let mut lent = Lent::holding(text, b'1');
    let is = library.number_parts(lent.items_mut());
    let what = format_args!("the parts of the number in {} bytes", text.len());
    same(what, is, number_parts(text))?;
    lent.holds("text", text)
}

/// At the text's front; of each number of its page, the number alone and with all that stands behind it.
fn numbers_hold(library: &Library, text: &[u8], page: &Page) -> Held {
    number_parts_hold(library, text)?;
    for token in page.tokens.chunks(TOKEN_WORDS) {
        if token[0] == TokenKind::Num as u32 {
            let rest = &text[token[1] as usize..];
            number_parts_hold(library, &rest[..token[2] as usize])?;
            number_parts_hold(library, rest)?;
        }
    }
    Ok(())
}

/// Every text of at most four pieces that numbers are spelled with.
pub fn short_numbers_hold(library: &Library) -> Held {
    every(PIECES, 4).try_for_each(|text| {
        number_parts_hold(library, &text)
            .map_err(|what| format!("{:?}: {what}", String::from_utf8_lossy(&text)))
    })
}

/// Numbers that reach to the end of a text as long as it may be; the same with one byte more.
pub fn long_numbers_hold(library: &Library) -> Held {
    let ends: [&[u8]; 7] = [b"", b"fx", b"i32", b"f64", b"u3", b" ", b"\xC3"];
    for front in [&b"1"[..], b"1.5", b"0x"] {
        for end in ends {
            let mut text = filled(front, b'_', end);
            number_parts_hold(library, &text)?;
            text.push(b'1');
            number_parts_hold(library, &text)?;
        }
    }
    Ok(())
}

/// Every call on a text by itself, and the calls around its page.
pub fn text_holds(library: &Library, text: &[u8]) -> Held {
    let page = page_of(text);
    reads_hold(library, text, &page)?;
    reports_hold(library, text)?;
    let value = library.byte_value(text);
    same(format_args!("the byte value"), value, byte_value(text))?;
    numbers_hold(library, text, &page)?;
    columns_hold(library, text)?;
    page_holds(library, &page, text.len())
}
