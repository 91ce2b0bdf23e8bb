//! Edits and lists of edits, proper and refused, on pages with ample and with narrow buffers.

use super::{texts, Random};
use crate::page::{Lengths, Page};
use crate::reading::{LINE_WORDS, TOKEN_WORDS};

/// "An edit replaces bytes a..b by the bytes w"
#[derive(Debug, Clone, PartialEq, Eq)]
pub struct Edit {
    pub a: u64,
    pub b: u64,
    pub w: Vec<u8>,
}

/// A list of edits from the fresh page on, and the lengths of the page's buffers.
#[derive(Debug, Clone, PartialEq, Eq)]
pub struct History {
    pub lengths: Lengths,
    pub edits: Vec<Edit>,
}

/// Room for every text that the generated lists reach.
pub const AMPLE: Lengths = Lengths {
    text: 1_500,
    spare: 1_500,
    lines: 100 * LINE_WORDS,
    tokens: 500 * TOKEN_WORDS,
};

impl Edit {
    /// The edit of a..b by w.
    pub fn new(a: usize, b: usize, w: &[u8]) -> Edit {
        let (a, b) = (a as u64, b as u64);
        Edit {
            a,
            b,
            w: w.to_vec(),
        }
    }

    /// Edits the page and hands back its reply.
    pub fn apply(&self, page: &mut Page) -> Vec<u64> {
        page.edit(self.a, self.b, &self.w)
    }
}

impl History {
    /// The page before the first edit.
    pub fn page(&self) -> Page {
        let mut page = Page::with_lengths(self.lengths);
        page.fresh();
        page
    }
}

/// 0, n, a line's start or end, or any byte.
fn place(random: &mut Random, text: &[u8]) -> usize {
    let at = random.below(text.len() + 1);
    let line_start = text[..at].iter().rposition(|byte| *byte == b'\n');
    let line_end = text[at..].iter().position(|byte| *byte == b'\n');
    match random.below(8) {
        0 => 0,
        1 => text.len(),
        2 | 3 => line_start.map_or(0, |before| before + 1),
        4 => line_end.map_or(text.len(), |further| at + further),
        5 => line_end.map_or(text.len(), |further| at + further + 1),
        _ => at,
    }
}

/// "A range is proper if a ≤ b ≤ n": one that is.
fn proper_range(random: &mut Random, text: &[u8]) -> (usize, usize) {
    let (a, other) = (place(random, text), place(random, text));
    match random.below(8) {
        0 => (0, text.len()),
        1..=3 => (a, a),
        4 | 5 => (a, text.len().min(a + 1 + random.below(3))),
        _ => (a.min(other), a.max(other)),
    }
}

/// "6: edit a..b with a > b or b > n": one that is not proper.
fn improper_range(random: &mut Random, text: &[u8]) -> (u64, u64) {
    let n = text.len() as u64;
    let choices = [
        (n + 1, n + 1),
        (0, n + 1),
        (n, u64::MAX),
        (u64::MAX, u64::MAX),
        (u64::MAX, 0),
        (1, 0),
        (0, u64::from(u32::MAX) + 1),
    ];
    random.pick(&choices)
}

/// "w (any length, also 0)": layout, tokens, lines, and bytes that split or join scalars.
fn insertion(random: &mut Random) -> Vec<u8> {
    const LAYOUT: [&str; 16] = [
        "\n", "\n\n", "(", ")", "(", ")", "->", " ->", " ->\n", "#", "//", " ", "  ", "\t", "\r",
        "\"",
    ];
    const BYTES: [&[u8]; 12] = [
        b"\xC3",
        b"\xA9",
        b"\x80",
        b"\xE9\xAE",
        b"\xAD",
        b"\xF0\x9F",
        b"\xED\xA0\x80",
        b"\xC0\x80",
        b"\xC3\xA9",
        b"#\xC3\xA9",
        b"\"\xE9\xAE\xAD\"",
        b"\xFF",
    ];
    if random.one_in(100) {
        return texts::ladder(random);
    }
    match random.below(16) {
        0..=2 => Vec::new(),
        3..=7 => random.pick(&LAYOUT).into(),
        8 | 9 => texts::item(random, 40).into(),
        10 | 11 => (texts::line(random, 80) + "\n").into(),
        12..=14 => texts::script(random, 100),
        _ => random.pick(&BYTES).into(),
    }
}

/// An edit of this text, one in sixteen improper.
pub fn edit(random: &mut Random, text: &[u8]) -> Edit {
    let (a, b) = proper_range(random, text);
    let mut edit = Edit::new(a, b, &insertion(random));
    if random.one_in(16) {
        (edit.a, edit.b) = improper_range(random, text);
    }
    edit
}

/// "Needed: 21(m+1) and 5k words", and n bytes.
fn needs(page: &Page) -> Lengths {
    Lengths {
        text: page.n as usize,
        spare: page.n as usize,
        lines: LINE_WORDS * (page.m as usize + 1),
        tokens: TOKEN_WORDS * page.k as usize,
    }
}

/// "Buffers are long enough if ...": ample, exactly long enough, or one short of it.
fn lengths(random: &mut Random, most: Lengths) -> Lengths {
    let mut lengths = most;
    match random.below(8) {
        0..=2 => lengths = AMPLE,
        3 => lengths.text = lengths.text.saturating_sub(1),
        4 => lengths.spare = lengths.spare.saturating_sub(1),
        5 => lengths.lines = LINE_WORDS.max(lengths.lines - 1),
        6 => lengths.tokens = lengths.tokens.saturating_sub(1),
        _ => {}
    }
    lengths
}

/// A list of so many edits, each made from its number and the text it meets.
fn made(random: &mut Random, count: usize, next: fn(&mut Random, usize, &[u8]) -> Edit) -> History {
    let mut page = Page::with_lengths(AMPLE);
    page.fresh();
    let mut most = needs(&page);
    let mut edits = Vec::new();
    for number in 0..count {
        let edit = next(random, number, &page.text[..page.n as usize]);
        edit.apply(&mut page);
        let now = needs(&page);
        most.text = most.text.max(now.text);
        most.spare = most.spare.max(now.spare);
        most.lines = most.lines.max(now.lines);
        most.tokens = most.tokens.max(now.tokens);
        edits.push(edit);
    }
    let lengths = lengths(random, most);
    History { lengths, edits }
}

/// A list of so many edits of any kind.
pub fn history(random: &mut Random, count: usize) -> History {
    made(random, count, |random, _, text| edit(random, text))
}

/// How many edits of a script's list put lines at its end, before the others change them.
pub const APPENDED: usize = 8;

/// A list of edits that writes a script and then makes so many small changes in it.
pub fn script_history(random: &mut Random, changes: usize) -> History {
    made(random, APPENDED + changes, |random, number, text| {
        if number < APPENDED {
            let mut w = texts::script(random, 1_000);
            w.push(b'\n');
            return Edit::new(text.len(), text.len(), &w);
        }
        change(random, text)
    })
}

/// Inside the indentation of a line, or at one of its ends.
fn indented_place(random: &mut Random, text: &[u8]) -> usize {
    let at = random.below(text.len() + 1);
    let before = text[..at].iter().rposition(|byte| *byte == b'\n');
    let start = before.map_or(0, |before| before + 1);
    let blanks = text[start..]
        .iter()
        .take_while(|byte| b" \t\r".contains(byte));
    start + random.below(blanks.count() + 1)
}

/// An insertion, or some bytes or the rest of a line with its LF replaced or taken out.
fn change(random: &mut Random, text: &[u8]) -> Edit {
    let a = match random.below(3) {
        0 => indented_place(random, text),
        _ => place(random, text),
    };
    let line_end = text[a..].iter().position(|byte| *byte == b'\n');
    let b = match random.below(8) {
        0..=3 => a,
        4..=6 => text.len().min(a + 1 + random.below(3)),
        _ => line_end.map_or(text.len(), |further| a + further + 1),
    };
    Edit::new(a, b, &insertion(random))
}

/// Each of these edits, all proper, on the base text, and after an accepted one its inverse.
pub fn each_on(base: &[u8], edits: impl IntoIterator<Item = Edit>) -> History {
    each_within(AMPLE, base, edits)
}

/// The same in buffers of these lengths.
pub fn each_within(
    lengths: Lengths,
    base: &[u8],
    edits: impl IntoIterator<Item = Edit>,
) -> History {
    let mut history = History {
        lengths,
        edits: vec![Edit::new(0, 0, base)],
    };
    let mut page = history.page();
    history.edits[0].apply(&mut page);
    for edit in edits {
        let accepted = edit.apply(&mut page)[0] == 0;
        let (a, b, size) = (edit.a as usize, edit.b as usize, edit.w.len());
        history.edits.push(edit);
        if accepted {
            let inverse = Edit::new(a, a + size, &base[a..b]);
            inverse.apply(&mut page);
            history.edits.push(inverse);
        }
    }
    history
}

/// Every range of the base text with each of these insertions.
pub fn every_range(base: &[u8], insertions: &[&[u8]]) -> History {
    let n = base.len();
    let ranges = (0..=n).flat_map(|a| (a..=n).map(move |b| (a, b)));
    let edits = ranges.flat_map(|(a, b)| insertions.iter().map(move |w| Edit::new(a, b, w)));
    each_on(base, edits)
}
