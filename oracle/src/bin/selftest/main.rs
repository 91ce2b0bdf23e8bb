//! Tests the oracle itself: document 01's cases by hand, and laws over generated inputs.

mod edit_laws;
mod free_edits;
mod numbers;
mod pages_by_hand;
mod probes;
mod readings_by_hand;
mod replayed;
mod tally;
mod text_laws;

use oracle::generate::utf8::well_formed_prefix;
use oracle::generate::{self, edits, lists, texts, Random};
use std::process::ExitCode;
use tally::Tally;

/// How many texts, texts that begin with numbers, lists of edits and edits of unfaithful pages are generated.
const TEXTS: usize = 60_000;
const NUMBERS: usize = 20_000;
const HISTORIES: usize = 8_000;
const SCRIPT_HISTORIES: usize = 100;
const FREE_EDITS: usize = 20_000;

/// Every short text over the alphabets.
fn short_texts(tally: &mut Tally) {
    let bytes = texts::every(texts::LAYOUT, 4).chain(texts::every(texts::LITERALS, 4));
    for text in bytes.chain(texts::every(texts::STATES, 5)) {
        text_laws::check(tally, &text, text.len() <= 5);
    }
    for text in texts::every(generate::numbers::PIECES, 4) {
        tally.expect(numbers::parts_hold(&text), || {
            format!("number in {:?}", String::from_utf8_lossy(&text))
        });
    }
}

/// The recorded texts and generated ones.
fn other_texts(tally: &mut Tally) {
    for text in lists::recorded_texts() {
        text_laws::check(tally, &text, text.len() <= 40);
    }
    let mut random = Random::new(3);
    for _ in 0..TEXTS {
        let text = texts::small(&mut random);
        text_laws::check(tally, &text, true);
    }
    for _ in 0..NUMBERS {
        let text = generate::numbers::number(&mut random);
        text_laws::check(tally, &text, true);
    }
}

/// "for UTF-8 the Unicode Standard, Table 3-7, decides": every string of up to three bytes.
fn every_utf8(tally: &mut Tally) {
    let judged = |bytes: &[u8]| match std::str::from_utf8(bytes) {
        Ok(_) => bytes.len(),
        Err(error) => error.valid_up_to(),
    };
    for first in 0..=255u8 {
        let mut agree = judged(&[first]) == well_formed_prefix(&[first]);
        for rest in 0..=u16::MAX {
            let [second, third] = rest.to_be_bytes();
            let bytes = [first, second, third];
            agree &= judged(&bytes[..2]) == well_formed_prefix(&bytes[..2]);
            agree &= judged(&bytes) == well_formed_prefix(&bytes);
        }
        tally.expect(agree, || format!("Table 3-7 at {first:02X}"));
    }
}

/// The recorded lists of edits and generated ones; edits of unfaithful pages.
fn histories(tally: &mut Tally) {
    for history in lists::recorded_histories() {
        edit_laws::check(tally, &history);
    }
    let mut random = Random::new(4);
    for _ in 0..HISTORIES {
        let length = 1 + random.below(15);
        edit_laws::check(tally, &edits::history(&mut random, length));
    }
    for _ in 0..FREE_EDITS {
        free_edits::check(tally, &mut random);
    }
    for _ in 0..SCRIPT_HISTORIES {
        edit_laws::check(tally, &edits::script_history(&mut random, 30));
    }
}

/// Last line `N passed, 0 failed`, and the exit status by it.
fn main() -> ExitCode {
    let mut tally = Tally::default();
    readings_by_hand::check(&mut tally);
    pages_by_hand::check(&mut tally);
    numbers::check(&mut tally);
    tally.end_of_part("cases by hand");
    short_texts(&mut tally);
    tally.end_of_part("every short text");
    other_texts(&mut tally);
    tally.end_of_part("recorded and generated texts");
    every_utf8(&mut tally);
    tally.end_of_part("every short byte string");
    histories(&mut tally);
    tally.end_of_part("lists of edits");
    replayed::check(&mut tally);
    tally.end_of_part("recorded lists");
    tally.expect_all_reached();
    match tally.conclude() {
        true => ExitCode::SUCCESS,
        false => ExitCode::FAILURE,
    }
}
