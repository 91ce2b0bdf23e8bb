//! "On another page that fits": edits of pages that are, but for chance, not faithful, and what they are still held to.

use super::calls::page_of;
use super::edits::{self, Edit};
use super::utf8::well_formed_prefix;
use super::{texts, Random};
use crate::page::{Lengths, Page};
use crate::reading::{Reply, LINE_WORDS, MAX_BYTES, TOKEN_WORDS};

/// A page, and an edit of it.
#[derive(Debug, Clone, PartialEq, Eq)]
pub struct FreeEdit {
    pub page: Page,
    pub edit: Edit,
}

/// A page that fits its buffers, with any text and any words.
fn any_page(random: &mut Random) -> Page {
    let text = texts::small(random);
    let mut page = Page::with_lengths(Lengths {
        text: text.len() + random.below(40),
        spare: text.len() + random.below(40),
        lines: LINE_WORDS * (1 + random.below(8)),
        tokens: random.below(120),
    });
    page.text[..text.len()].copy_from_slice(&text);
    page.n = random.below(page.text.len() + 1) as u32;
    page.m = random.below(page.lines.len() / LINE_WORDS) as u32;
    page.k = random.below(page.tokens.len() / TOKEN_WORDS + 1) as u32;
    for word in page.lines.iter_mut().chain(&mut page.tokens) {
        let number = random.below(60) as u32;
        *word = random.pick(&[number, 0, u32::MAX]);
    }
    page
}

/// The page of a text with some room, of which a few words, or the numbers of lines and tokens, are others.
fn nearly_faithful(random: &mut Random) -> Page {
    let mut page = page_of(&texts::small(random));
    for _ in 0..1 + random.below(3) {
        let number = random.below(60) as u32;
        let value = random.pick(&[number, number, 0, 1, u32::MAX]);
        match random.below(4) {
            0 => page.m = random.below(page.m as usize + 1) as u32,
            1 => page.k = random.below(page.k as usize + 1) as u32,
            2 if !page.tokens.is_empty() => {
                let at = random.below(page.tokens.len());
                page.tokens[at] = value;
            }
            _ => {
                let at = random.below(page.lines.len());
                page.lines[at] = value;
            }
        }
    }
    let room = page.text.len() + random.below(60);
    page.text.resize(room, 0xAA);
    page.spare.resize(room, 0xAA);
    let (lines, tokens) = (page.lines.len(), page.tokens.len());
    page.lines.resize(lines + random.below(100), 0xAAAA_AAAA);
    page.tokens.resize(tokens + random.below(100), 0xAAAA_AAAA);
    page
}

/// An edit of such a page.
pub fn free_edit(random: &mut Random) -> FreeEdit {
    let page = match random.below(2) {
        0 => any_page(random),
        _ => nearly_faithful(random),
    };
    let edit = edits::edit(random, &page.text[..page.n as usize]);
    FreeEdit { page, edit }
}

impl FreeEdit {
    /// The text that a proper edit gives.
    fn edited(&self) -> Option<Vec<u8>> {
        let old = &self.page.text[..self.page.n as usize];
        let Edit { a, b, w } = &self.edit;
        let (a, b) = (usize::try_from(*a).ok()?, usize::try_from(*b).ok()?);
        old.get(a..b)?;
        Some([&old[..a], w, &old[b..]].concat())
    }

    /// "6, 1, 5 (text, spare) and 2 are as ever": the refusal due before the reading, if any, and whether the spare is filled.
    fn early_refusal(&self, edited: Option<&[u8]>) -> Option<(Reply, bool)> {
        let Some(edited) = edited else {
            return Some((vec![6], false));
        };
        let (length, prefix) = (edited.len(), well_formed_prefix(edited));
        let least = length as u64;
        match length {
            _ if length > MAX_BYTES => Some((vec![1, least], false)),
            _ if length > self.page.text.len() => Some((vec![5, 1, least], false)),
            _ if length > self.page.spare.len() => Some((vec![5, 2, least], false)),
            _ if prefix < length => Some((vec![2, prefix as u64], true)),
            _ => None,
        }
    }

    /// "a refusal still touches only the spare, and an acceptance edits the text exactly"
    fn late_allowed(&self, expected: Page, after: &Page, reply: &[u64], edited: &[u8]) -> bool {
        match *reply {
            [0, n, _, _, _] => {
                let length = edited.len();
                let mut text = expected.text;
                text[..length].copy_from_slice(edited);
                n == length as u64 && after.text == text && after.spare == expected.spare
            }
            [3, ..] | [4, _] | [5, 3 | 4, _] | [7] => *after == expected,
            _ => false,
        }
    }

    /// The reply and the page after the edit are among those that document 01 allows.
    pub fn allows(&self, after: &Page, reply: &[u64]) -> bool {
        let mut expected = self.page.clone();
        if self.page.fits().is_err() {
            return *reply == [7] && *after == expected;
        }
        let edited = self.edited();
        let early = self.early_refusal(edited.as_deref());
        let edited = edited.unwrap_or_default();
        if early.as_ref().is_none_or(|(_, filled)| *filled) {
            expected.spare[..edited.len()].copy_from_slice(&edited);
        }
        match early {
            Some((due, _)) => *reply == due && *after == expected,
            None => self.late_allowed(expected, after, reply, &edited),
        }
    }
}
