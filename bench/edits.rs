//! Edits of a page, against the Rust lexer, `read` and a plain copy, all of the page's text.

use crate::clock::{copy, medians, timed};
use crate::original::lexer;
use crate::page::{agree, Page};
use crate::texts;
use std::hint::black_box;

/// Bytes put in at a place, and taken out again.
struct Change {
    name: String,
    at: usize,
    w: Vec<u8>,
}

impl Change {
    fn new(name: &str, at: usize, w: &[u8]) -> Change {
        let (name, w) = (name.to_string(), w.to_vec());
        Change { name, at, w }
    }

    /// Puts the bytes in; how many lines were read again.
    fn put(&self, page: &mut Page) -> u64 {
        page.change(self.at, self.at, &self.w)
    }

    /// Takes them out.
    fn take(&self, page: &mut Page) -> u64 {
        page.change(self.at, self.at + self.w.len(), b"")
    }
}

/// The page's records are those of a reading of its text, by the library and by the Rust.
fn is_fresh(page: &Page) {
    let fresh = Page::new(page.bytes());
    assert!(page.header == fresh.header && page.records() == fresh.records());
    agree(&fresh);
}

/// The lines read again when each change is put in and taken out; after each the page is compared with a fresh reading.
fn counts(page: &mut Page, changes: &[Change]) -> Vec<(u64, u64)> {
    let both = |change: &Change| {
        let put = change.put(page);
        is_fresh(page);
        let taken = change.take(page);
        is_fresh(page);
        (put, taken)
    };
    changes.iter().map(both).collect()
}

/// The milliseconds of the Rust's call and free, of `read`, of a copy, and of each change put in and taken out. The first change is
/// made once more before, to fill the caches.
fn times(page: &mut Page, text: &[u8], changes: &[Change], turns: usize) -> Vec<f64> {
    let source = std::str::from_utf8(text).unwrap();
    let mut copied = vec![0; text.len()];
    let mut fresh = Page::new(text);
    medians(turns, || {
        let (rust, ()) = timed(|| drop(lexer::lex_tokens_with_authority(black_box(source))));
        let (ours, ()) = timed(|| fresh.read(black_box(text)));
        let mut times = vec![rust, ours, copy(text, &mut copied)];
        changes[0].put(page);
        changes[0].take(page);
        for change in changes {
            times.push(timed(|| change.put(page)).0);
            times.push(timed(|| change.take(page)).0);
        }
        times
    })
}

/// Every change of one page: a row for each.
fn rows(name: &str, text: &[u8], changes: &[Change], turns: usize) {
    let mut page = Page::new(text);
    let counts = counts(&mut page, changes);
    let times = times(&mut page, text, changes, turns);
    let shares = |time: f64| {
        let [of_rust, of_read, copies] = [0, 1, 2].map(|of| time / times[of]);
        format!("{time:.3} | {of_rust:.3} | {of_read:.3} | {copies:.1}")
    };
    let (kib, rust) = ((text.len() + 256) >> 10, times[0]);
    for (number, change) in changes.iter().enumerate() {
        let (put, taken) = (shares(times[3 + 2 * number]), shares(times[4 + 2 * number]));
        let ((count, back), what) = (counts[number], &change.name);
        println!("| {name} | {kib} | {what} | {count}, {back} | {rust:.2} | {put} | {taken} |");
    }
}

/// The place after the first letter of a word, from this byte on, or the start of its line.
pub fn place(text: &[u8], near: usize, at_start: bool) -> usize {
    let is_word = |at: &usize| text[*at..at + 2].iter().all(u8::is_ascii_lowercase);
    let word = (near..).find(is_word).unwrap() + 1;
    let before = text[..word].iter().rposition(|byte| *byte == b'\n');
    match at_start {
        true => before.map_or(0, |before| before + 1),
        false => word,
    }
}

/// A byte, a line and ten lines at the start, in the middle and at the end of a script.
fn small_changes(text: &[u8]) -> Vec<Change> {
    let size = text.len();
    let mut changes = Vec::new();
    for (w, what) in [
        (b"x".to_vec(), "a byte"),
        (b"# the vet was here\n".to_vec(), "a line"),
        (b"# a note\n".repeat(10), "ten lines"),
    ] {
        for (where_, near) in [("start", 40), ("middle", size / 2), ("end", size - 1792)] {
            let at = place(text, near, w.len() > 1);
            changes.push(Change::new(&format!("{what}, {where_}"), at, &w));
        }
    }
    changes.push(Change::new("a bracket opened at the top", 0, b"(\n"));
    changes
}

/// A byte at the start, in the middle and at the end of one line.
fn line_changes(text: &[u8]) -> Vec<Change> {
    let size = text.len();
    let places = [("start", 1), ("middle", size / 2), ("end", size - 64)];
    places
        .map(|(where_, near)| {
            let at = place(text, near, false);
            Change::new(&format!("a byte, {where_}"), at, b"x")
        })
        .into()
}

/// Every page and change at these sizes.
pub fn table(sizes: &[usize], turns: usize) {
    println!("| page | KiB | what is put in and taken out | lines read again | Rust ms | put in ms | of Rust | of read | copies | taken out ms | of Rust | of read | copies |");
    println!("|---|---|---|---|---|---|---|---|---|---|---|---|---|");
    for &size in sizes {
        let script = texts::script(size - 256);
        rows("script", &script, &small_changes(&script), turns);
        let line = texts::repeated("pen_4 := rate; ", size - 256);
        rows("one line", &line, &line_changes(&line), turns / 3 + 1);
        let feeds = texts::repeated("\n", size - 256);
        let changes = [
            Change::new("an LF at the start", 0, b"\n"),
            Change::new("an LF in the middle", size / 2, b"\n"),
            Change::new("a bracket opened at the top", 0, b"("),
        ];
        rows("LFs", &feeds, &changes, turns / 10 + 1);
        let indented = texts::indented(size - 256);
        let level = Change::new("a level opened at the top", texts::TOP.len(), b"  x\n");
        rows("indented script", &indented, &[level], turns / 3 + 1);
    }
}
