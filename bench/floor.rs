//! The floor of an edit: plain copies, a UTF-8 check and plain loops over the same bytes and records, without reading a line again.

use crate::clock::{medians, timed};
use crate::edits::place;
use crate::page::Page;
use crate::texts;
use std::hint::black_box;

/// A line of one token, which is put in at a line's start.
const LINE: &[u8] = b"# the vet was here\n";

/// The LFs of a text, in parts whose number fits a byte.
fn line_feeds(text: &[u8]) -> usize {
    let part = |part: &[u8]| part.iter().map(|byte| (*byte == b'\n') as u8).sum::<u8>();
    text.chunks(128).map(|bytes| part(bytes) as usize).sum()
}

/// The page of a text, and where the records stand that an edit keeps: the first line behind it, and that line's first token.
struct Plain {
    page: Page,
    line: usize,
    token: usize,
}

impl Plain {
    /// The lines that start at `from` or further on are kept.
    fn new(text: &[u8], from: usize) -> Plain {
        let page = Page::new(text);
        let starts = page.lines.chunks(21).map(|record| record[0] as usize);
        let line = starts.take_while(|start| *start < from).count();
        let token = page.lines[21 * line + 1] as usize;
        Plain { page, line, token }
    }

    /// The text with w for the bytes a..b, in the spare; its UTF-8 check and the LFs before `a`; the text copied back.
    fn text(&mut self, a: usize, b: usize, w: &[u8]) {
        let n = self.page.header[0] as usize;
        let (kept, size) = (a + w.len(), n - (b - a) + w.len());
        let Page { text, spare, .. } = &mut self.page;
        spare[..a].copy_from_slice(&text[..a]);
        spare[a..kept].copy_from_slice(w);
        spare[kept..size].copy_from_slice(&text[b..n]);
        assert!(std::str::from_utf8(&spare[..size]).is_ok());
        black_box(line_feeds(&spare[..a]));
        text[a..size].copy_from_slice(&spare[a..size]);
        self.page.header[0] = size as u32;
    }

    /// The kept records moved to this line and this token, and what they say by so many bytes too.
    fn records(&mut self, bytes: u32, line: usize, token: usize) {
        let [_, m, k] = self.page.header.map(|number| number as usize);
        let (kept_lines, kept_tokens) = (m + 1 - self.line, k - self.token);
        let lines = (line as u32).wrapping_sub(self.line as u32);
        let tokens = (token as u32).wrapping_sub(self.token as u32);
        self.page
            .tokens
            .copy_within(5 * self.token..5 * k, 5 * token);
        for record in self.page.tokens[5 * token..][..5 * kept_tokens].chunks_exact_mut(5) {
            record[1] = record[1].wrapping_add(bytes);
            record[3] = record[3].wrapping_add(lines);
        }
        self.page
            .lines
            .copy_within(21 * self.line..21 * (m + 1), 21 * line);
        for record in self.page.lines[21 * line..][..21 * kept_lines].chunks_exact_mut(21) {
            record[0] = record[0].wrapping_add(bytes);
            record[1] = record[1].wrapping_add(tokens);
        }
        (self.line, self.token) = (line, token);
        self.page.header[1] = (line + kept_lines - 1) as u32;
        self.page.header[2] = (token + kept_tokens) as u32;
    }

    /// Puts w in, with as many lines of one token.
    fn put(&mut self, a: usize, w: &[u8], lines: usize) {
        self.text(a, a, w);
        self.records(w.len() as u32, self.line + lines, self.token + lines);
    }

    /// Takes it out.
    fn take(&mut self, a: usize, w: &[u8], lines: usize) {
        self.text(a, a + w.len(), b"");
        self.records(
            (w.len() as u32).wrapping_neg(),
            self.line - lines,
            self.token - lines,
        );
    }

    /// Text and kept records are those of this page.
    fn keeps(&self, page: &Page) -> bool {
        let [_, m, k] = page.header.map(|number| number as usize);
        let (lines, tokens) = (21 * self.line..21 * (m + 1), 5 * self.token..5 * k);
        self.page.header == page.header
            && self.page.bytes() == page.bytes()
            && self.page.lines[lines.clone()] == page.lines[lines]
            && self.page.tokens[tokens.clone()] == page.tokens[tokens]
    }
}

/// A byte put into a word, or a line before one: the floor's time and the library's, in milliseconds.
fn measured(text: &[u8], near: usize, w: &[u8], turns: usize) -> (f64, f64) {
    let lines = line_feeds(w);
    let a = place(text, near, lines > 0);
    let line_end = text[a..].iter().position(|byte| *byte == b'\n');
    let behind = line_end.map_or(text.len(), |end| a + end + 1);
    let mut page = Page::new(text);
    let mut plain = Plain::new(text, if lines > 0 { a } else { behind });
    page.change(a, a, w);
    plain.put(a, w, lines);
    assert!(plain.keeps(&page), "put in");
    page.change(a, a + w.len(), b"");
    plain.take(a, w, lines);
    assert!(plain.keeps(&page), "taken out");
    let times = medians(turns, || {
        plain.put(a, w, lines);
        plain.take(a, w, lines);
        let (floor, ()) = timed(|| plain.put(a, w, lines));
        plain.take(a, w, lines);
        page.change(a, a, w);
        page.change(a, a + w.len(), b"");
        let (edit, _) = timed(|| page.change(a, a, w));
        page.change(a, a + w.len(), b"");
        vec![floor, edit]
    });
    (times[0], times[1])
}

/// A byte and a line, at the start, in the middle and at the end of a script of each size.
pub fn table(sizes: &[usize], turns: usize) {
    println!("| script, KiB | what is put in | floor µs | edit µs | of the floor |");
    println!("|---|---|---|---|---|");
    for &size in sizes {
        let text = texts::script(size - 256);
        for (what, w) in [("a byte", &b"x"[..]), ("a line", LINE)] {
            let places = [
                ("start", 40),
                ("middle", text.len() / 2),
                ("end", text.len() - 1792),
            ];
            for (where_, near) in places {
                let (floor, edit) = measured(&text, near, w, turns);
                let (kib, of_floor) = (size >> 10, edit / floor);
                let [floor, edit] = [floor, edit].map(|time| time * 1e3);
                println!("| {kib} | {what}, {where_} | {floor:.1} | {edit:.1} | {of_floor:.2} |");
            }
        }
    }
}
