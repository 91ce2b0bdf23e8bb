//! The parts of a number.

/// A number at the front of a text. Its parts are counted in bytes from its start.
#[derive(Debug, Clone, Copy, PartialEq, Eq, Hash)]
pub struct Number {
    /// Where it ends, its suffix included.
    pub end: usize,
    /// The base of its digits: 16 behind `0x` or `0X`, otherwise 10.
    pub base: u32,
    /// Where its digits end, `0x`, `_` and fraction included: its suffix stands from here to its end.
    pub digits: usize,
    /// Its suffix, if it has one.
    pub suffix: Option<Suffix>,
}

/// The suffix of a number, which names its type.
#[derive(Debug, Clone, Copy, PartialEq, Eq, Hash)]
pub enum Suffix {
    /// `fx`
    Fx,
    /// `i32`
    I32,
    /// `u32`
    U32,
    /// `f64`
    F64,
}

/// The suffixes in the order of their numbers, from 1.
const SUFFIXES: [Suffix; 4] = [Suffix::Fx, Suffix::I32, Suffix::U32, Suffix::F64];

impl Number {
    /// From the words of a reply: end, base, digits' end, the suffix's number or 0.
    pub(crate) fn from_words(words: &[u64]) -> Number {
        Number {
            end: words[0] as usize,
            base: words[1] as u32,
            digits: words[2] as usize,
            suffix: words[3].checked_sub(1).map(|i| SUFFIXES[i as usize]),
        }
    }
}
