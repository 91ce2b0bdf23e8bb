//! The parts of a number: by hand, by document 01's sentence, and of every Num token.

use crate::tally::Tally;
use oracle::examples;
use oracle::generate::numbers::filled;
use oracle::numbers::{first_number, number_parts, SUFFIXES};
use oracle::original::types::TokenKind;
use oracle::reading::{checked_text, Records, MAX_BYTES, TOKEN_WORDS};

/// The answers found by hand.
pub fn check(tally: &mut Tally) {
    for (text, parts) in examples::PARTS {
        let reply = [&[0, 1], &parts[..]].concat();
        let about = format!("number in {:?}", String::from_utf8_lossy(text));
        tally.equal(number_parts(text), reply, &about);
    }
    for text in examples::NO_NUMBERS {
        let about = format!("no number in {:?}", String::from_utf8_lossy(text));
        tally.equal(number_parts(text), vec![0, 0], &about);
    }
    limits(tally);
}

/// "1, the length", then "2, length of the longest well-formed prefix"
fn limits(tally: &mut Tally) {
    const MOST: u64 = MAX_BYTES as u64;
    let cases: [(Vec<u8>, &[u64]); 11] = [
        (filled(b"", b'1', b""), &[0, 1, MOST, 10, MOST, 0]),
        (filled(b"1.", b'_', b""), &[0, 1, 1, 10, 1, 0]),
        (filled(b"1.5", b'_', b"f64"), &[0, 1, MOST, 10, MOST - 3, 4]),
        (filled(b"0x", b'f', b"i32"), &[0, 1, MOST, 16, MOST - 3, 2]),
        (filled(b"0x", b'f', b"64"), &[0, 1, MOST, 16, MOST, 0]),
        (filled(b"", b'a', b"1"), &[0, 0]),
        (filled(b"", b'1', b"\xC3"), &[2, MOST - 1]),
        (vec![b'1'; MAX_BYTES + 1], &[1, MOST + 1]),
        (vec![0xFF; MAX_BYTES + 9], &[1, MOST + 9]),
        (b"1\xFF".to_vec(), &[2, 1]),
        (b"0x1i32 \xED\xA0\x80".to_vec(), &[2, 7]),
    ];
    for (text, reply) in cases {
        tally.equal(number_parts(&text), reply.to_vec(), "number at a limit");
    }
}

/// A digit or `_`.
fn decimal(byte: &u8) -> bool {
    byte.is_ascii_digit() || *byte == b'_'
}

/// A hex digit or `_`.
fn hexadecimal(byte: &u8) -> bool {
    byte.is_ascii_hexdigit() || *byte == b'_'
}

/// "`0x` or `0X`, then any hex digits and `_`, perhaps none"
fn hex_digits_hold(digits: &[u8], rest: &[u8]) -> bool {
    let behind = digits.get(2..);
    behind.is_some_and(|behind| behind.iter().all(hexadecimal))
        && !rest.first().is_some_and(hexadecimal)
}

/// "otherwise digits and `_`, then, if `.` and a digit follow, both and more digits and `_`"
fn decimal_digits_hold(digits: &[u8], rest: &[u8]) -> bool {
    let parts: Vec<&[u8]> = digits.split(|byte| *byte == b'.').collect();
    let begins = |part: &&[u8]| part.first().is_some_and(u8::is_ascii_digit);
    let fraction = matches!(rest, [b'.', digit, ..] if digit.is_ascii_digit());
    parts.iter().all(begins)
        && parts.concat().iter().all(decimal)
        && !rest.first().is_some_and(decimal)
        && (parts.len() == 2 || parts.len() == 1 && !fraction)
}

/// "Then at most one of `fx` `i32` `u32` `f64`": the one that is told stands there, and none where none is told.
fn suffix_holds(rest: &[u8], length: usize, suffix: usize) -> bool {
    let names = SUFFIXES.map(str::as_bytes);
    let follows = |name: &&[u8]| rest.starts_with(name);
    match suffix {
        0 => length == 0 && !names[1..].iter().any(follows),
        _ => names.get(suffix) == Some(&&rest[..length]),
    }
}

/// The base, asked of the original: the letter `a` behind the digits is one more of them in base 16 alone.
fn base_holds(digits: &[u8], base: u64) -> bool {
    let digits = String::from_utf8_lossy(digits);
    let longer = format!("{digits}a");
    match base {
        16 => first_number(&longer) == Some(&longer),
        10 => first_number(&longer) == Some(&digits),
        _ => false,
    }
}

/// The parts that are told are those of document 01's sentence, and there are none exactly where no digit comes first.
pub fn parts_hold(text: &[u8]) -> bool {
    let reply = number_parts(text);
    if let Err(refusal) = checked_text(text) {
        return reply == refusal.numbers();
    }
    let digit_first = text.first().is_some_and(u8::is_ascii_digit);
    let [0, 1, end, base, digits, suffix] = reply[..] else {
        return reply == [0, 0] && !digit_first;
    };
    let length = (end - digits) as usize;
    let (digits, rest) = text.split_at(digits as usize);
    let digits_hold = match text.starts_with(b"0x") || text.starts_with(b"0X") {
        true => base == 16 && hex_digits_hold(digits, rest),
        false => base == 10 && decimal_digits_hold(digits, rest),
    };
    let base = base_holds(digits, base);
    digit_first && base && digits_hold && suffix_holds(rest, length, suffix as usize)
}

/// Of every Num token: the number in its own text ends with it, and with all that stands behind it has the same parts.
pub fn tokens_hold(text: &[u8], reading: &Records) -> bool {
    let tokens = reading.tokens.chunks(TOKEN_WORDS);
    let mut numbers = tokens.filter(|token| token[0] == TokenKind::Num as u32);
    numbers.all(|token| {
        let rest = &text[token[1] as usize..];
        let alone = number_parts(&rest[..token[2] as usize]);
        alone[..3] == [0, 1, u64::from(token[2])] && number_parts(rest) == alone
    })
}
