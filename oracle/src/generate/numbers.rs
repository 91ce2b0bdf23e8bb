//! Texts that begin with a number, or with what is nearly one.

use super::{texts, Random};
use crate::reading::MAX_BYTES;

/// What numbers are spelled with, and a blank.
pub const PIECES: &[&str] = &[
    "0", "1", "x", "X", "_", ".", "e", "f", "fx", "i32", "u32", "f64", " ",
];

/// How numbers begin, then how other texts do.
const FRONTS: [&str; 12] = [
    "0", "1", "38", "00", "0x", "0X", "0xF", "1.5", "1_", ".", "_", "x",
];

/// What may stand behind a number; some of it does not read.
const BEHIND: [&str; 16] = [
    " ", "\n", "\r\n", "\t", ".", "..", "..2", ".e", "x", "f", "i3", "I32", "é", "b'", "\"", "&",
];

/// A front, some pieces, and something behind them; now and then with a byte that is not well-formed.
pub fn number(random: &mut Random) -> Vec<u8> {
    let mut text = random.pick(&FRONTS).to_string();
    for _ in 0..random.below(5) {
        text += random.pick(PIECES);
    }
    if random.one_in(2) {
        text += random.pick(&BEHIND);
    }
    if random.one_in(4) {
        text += &texts::line(random, 8);
    }
    let mut text = text.into_bytes();
    if random.one_in(8) {
        texts::damage(random, &mut text);
    }
    text
}

/// A text of 1,048,576 bytes: a front, an end, and one byte as often as it takes between them.
pub fn filled(front: &[u8], byte: u8, end: &[u8]) -> Vec<u8> {
    let between = vec![byte; MAX_BYTES - front.len() - end.len()];
    [front, &between, end].concat()
}
