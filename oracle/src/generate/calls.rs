//! The calls around a page: a page, mostly faithful, with an offset, a token number and a names length.

use super::{texts, Random};
use crate::page::{Lengths, Page, NAMES};
use crate::reading::fresh_reading;

/// What the calls are given.
#[derive(Debug, Clone, PartialEq, Eq)]
pub struct Calls {
    pub page: Page,
    pub offset: u64,
    pub token: u64,
    pub names: usize,
}

/// The page of a text in buffers of just its size; the empty page where the text does not read.
pub fn page_of(text: &[u8]) -> Page {
    let mut page = Page::with_lengths(Lengths {
        text: text.len(),
        spare: 0,
        lines: 21,
        tokens: 0,
    });
    page.fresh();
    page.text = text.to_vec();
    if let Ok(reading) = fresh_reading(text) {
        (page.n, page.m, page.k) = (reading.n, reading.m, reading.k);
        page.lines = reading.lines;
        page.tokens = reading.tokens;
    }
    page
}

/// Changes one number of the header or one word of the records.
fn disturb(random: &mut Random, page: &mut Page) {
    match random.below(5) {
        0 => page.n = page.n.wrapping_add(random.pick(&[1, u32::MAX])),
        1 => page.m = page.m.wrapping_add(random.pick(&[1, u32::MAX])),
        2 => page.k = page.k.wrapping_add(random.pick(&[1, u32::MAX])),
        3 => {
            let at = random.below(page.lines.len());
            page.lines[at] ^= 1;
        }
        _ if page.tokens.is_empty() => {}
        _ => {
            let at = random.below(page.tokens.len());
            page.tokens[at] = random.pick(&[0, 1, 48, 90, 91, 92, 93, u32::MAX]);
        }
    }
}

/// Calls on the page of a small text.
pub fn calls(random: &mut Random) -> Calls {
    let text = texts::small(random);
    let mut page = page_of(&text);
    if random.one_in(3) {
        disturb(random, &mut page);
    }
    Calls {
        offset: random.below(text.len() + 2) as u64,
        token: random.below(page.tokens.len() / 5 + 2) as u64,
        names: NAMES.len() + 1 - random.below(3),
        page,
    }
}
