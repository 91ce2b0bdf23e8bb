//! The number at the front of a text, and its parts: request F-1 of document 02, on top of the original's own tokens.

use crate::original::{self, types::TokenKind};
use crate::reading::{checked_text, Reply};

/// "at most one of `fx` `i32` `u32` `f64`": by their numbers, none first.
pub const SUFFIXES: [&str; 5] = ["", "fx", "i32", "u32", "f64"];

/// The text of the original's first token, where that is a number.
///
/// What stands behind a number may fail. A number is spelled with letters, digits, `_` and `.`, and every run of these reads, so the
/// original is handed the run at the text's front and nothing behind it.
pub fn first_number(text: &str) -> Option<&str> {
    let spelled = |scalar: char| scalar.is_ascii_alphanumeric() || "_.".contains(scalar);
    let run = text.split(|scalar| !spelled(scalar)).next()?;
    let tokens = original::tokens(run).expect("a run of letters, digits, `_` and `.`");
    let [kind, _, length, ..] = tokens.first()?;
    (*kind == TokenKind::Num as u32).then(|| &run[..*length as usize])
}

/// "which suffix follows there, if any": its number.
///
/// The original is asked for the number with `i32` put behind it, which a number takes exactly if it has no suffix yet.
fn suffix_of(number: &str) -> usize {
    if first_number(&format!("{number}i32")) != Some(number) {
        return 0;
    }
    let mut named = 1..SUFFIXES.len();
    let suffix = named.find(|suffix| number.ends_with(SUFFIXES[*suffix]));
    suffix.expect("a suffix that 01 lists")
}

/// "the base (10 or 16)"
fn base_of(number: &str) -> u64 {
    match number.starts_with("0x") || number.starts_with("0X") {
        true => 16,
        false => 10,
    }
}

/// "besides its end ..., the base (10 or 16), where digits, `_` and fraction end and which suffix follows there, if any", after 1 and
/// 2: 0, 1, end, base, digits' end, suffix; or 0, 0 where no number is at the front.
pub fn number_parts(text: &[u8]) -> Reply {
    match checked_text(text).map(first_number) {
        Ok(Some(number)) => {
            let suffix = suffix_of(number);
            let end = number.len() as u64;
            let digits = end - SUFFIXES[suffix].len() as u64;
            vec![0, 1, end, base_of(number), digits, suffix as u64]
        }
        Ok(None) => vec![0, 0],
        Err(refusal) => refusal.numbers(),
    }
}
