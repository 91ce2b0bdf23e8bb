//! The parts of an edit one by one, by differences of calls: docs/BENCHMARKS.md says how.

use crate::clock::{copy, medians, timed};
use crate::page::{byte_value, Page};
use crate::texts;

/// The first line of the page, which the edits change.
const FIRST: &str = "# set by the vet\n";

/// Where a byte is put into it, and the line that is put before it.
const AT: usize = 2;
const LINE: &[u8] = b"# a note\n";

/// A byte put in and taken out, a line put in and taken out: the milliseconds of each, with caches that a byte's edits have filled.
fn accepted(page: &mut Page) -> [f64; 4] {
    page.change(AT, AT, b"x");
    page.change(AT, AT + 1, b"");
    [
        timed(|| page.change(AT, AT, b"x")).0,
        timed(|| page.change(AT, AT + 1, b"")).0,
        timed(|| page.change(0, 0, LINE)).0,
        timed(|| page.change(0, LINE.len(), b"")).0,
    ]
}

/// Edits that are refused: with 2 at the first byte, and with 3 in the first line and in the last; caches as above.
fn refused(page: &mut Page) -> [f64; 3] {
    let end = page.bytes().len();
    page.refused(end, b"\n&", 3);
    [
        timed(|| page.refused(0, b"\x80", 2)).0,
        timed(|| page.refused(0, b"&", 3)).0,
        timed(|| page.refused(end, b"\n&", 3)).0,
    ]
}

/// The pages of one text: whole, with a header of one line, of one token, and of one of each; and a page of one line.
struct Pages {
    whole: Page,
    tokens: Page,
    lines: Page,
    neither: Page,
    small: Page,
}

impl Pages {
    fn new(text: &[u8]) -> Pages {
        let with = |header: fn(&mut [u32; 3])| {
            let mut page = Page::new(text);
            header(&mut page.header);
            page
        };
        Pages {
            whole: with(|_| {}),
            tokens: with(|header| header[1] = 1),
            lines: with(|header| header[2] = 1),
            neither: with(|header| header[1..].fill(1)),
            small: Page::new(FIRST.as_bytes()),
        }
    }

    /// The milliseconds of every call: the order is that of `Times`.
    fn turn(&mut self, copies: &mut Copies) -> Vec<f64> {
        let mut reply = [0; 16];
        let text = self.whole.bytes().to_vec();
        let mut times = vec![timed(|| byte_value(&text, &mut reply)).0];
        times.extend(refused(&mut self.whole));
        times.extend(refused(&mut self.small));
        for page in [
            &mut self.whole,
            &mut self.tokens,
            &mut self.lines,
            &mut self.neither,
            &mut self.small,
        ] {
            times.extend(accepted(page));
        }
        let (lines, tokens) = self.whole.records();
        times.push(copy(&text, &mut copies.bytes));
        times.push(copy(lines, &mut copies.lines));
        times.push(copy(tokens, &mut copies.tokens));
        times
    }
}

/// Where plain copies go.
struct Copies {
    bytes: Vec<u8>,
    lines: Vec<u32>,
    tokens: Vec<u32>,
}

/// A name with its time, and the plain copy that it is held against.
pub type Row = (&'static str, f64, f64);

/// The medians, in the order of `Pages::turn`.
struct Times(Vec<f64>);

impl Times {
    /// Of `whole`, `tokens`, `lines`, `neither`, `small`: a byte put in, taken out, a line put in, taken out.
    fn accepted(&self, page: usize, edit: usize) -> f64 {
        self.0[7 + 4 * page + edit]
    }

    /// A plain copy of the text, the line records, the token records.
    fn copied(&self, which: usize) -> f64 {
        self.0[27 + which]
    }

    /// Each part.
    fn parts(&self) -> Vec<Row> {
        let t = &self.0;
        let [text, lines, tokens] = [0, 1, 2].map(|which| self.copied(which));
        let more = |page, edit| self.accepted(page, edit) - self.accepted(3, edit);
        let splice = t[1] - t[4];
        let copy_back = (self.accepted(3, 0) - self.accepted(4, 0)) - (t[2] - t[5]);
        let fixed = self.accepted(4, 0);
        let sum = |edit| splice + t[0] + copy_back + more(1, edit) + more(2, edit) + fixed;
        vec![
            ("the edited text put together in the spare", splice, text),
            ("UTF-8 pass over it", t[0], text),
            ("LFs counted, to its end", t[3] - t[2] - (t[6] - t[5]), text),
            ("copied back, from its start", copy_back, text),
            ("token records, where they stand", more(1, 0), tokens),
            ("token records, one further up", more(1, 2), tokens),
            ("token records, one further down", more(1, 3), tokens),
            ("line records, where they stand", more(2, 0), lines),
            ("line records, one further up", more(2, 2), lines),
            ("line records, one further down", more(2, 3), lines),
            ("the rest: an edit of a page of one line", fixed, text),
            ("a byte put in at the start, the parts added", sum(0), text),
            ("the same, measured", self.accepted(0, 0), text),
            ("a line put in at the start, the parts added", sum(2), text),
            ("the same, measured", self.accepted(0, 2), text),
        ]
    }
}

/// The parts at one size.
fn measured(size: usize, turns: usize) -> Vec<Row> {
    let text = [FIRST.as_bytes(), &texts::script(size - 256)].concat();
    let mut pages = Pages::new(&text);
    let (lines, tokens) = pages.whole.records();
    let mut copies = Copies {
        bytes: vec![0; text.len()],
        lines: vec![0; lines.len()],
        tokens: vec![0; tokens.len()],
    };
    Times(medians(turns, || pages.turn(&mut copies))).parts()
}

/// Every part, for each size.
pub fn table(sizes: &[usize], turns: usize) {
    let columns: Vec<_> = sizes.iter().map(|size| measured(*size, turns)).collect();
    print("part", sizes, &columns);
}

/// A table of rows, with a column for each size: microseconds, and how many plain copies of the same bytes that is.
pub fn print(what: &str, sizes: &[usize], columns: &[Vec<Row>]) {
    let heads = sizes
        .iter()
        .map(|size| format!(" {} KiB: µs | copies |", size >> 10));
    println!("| {what} |{}", heads.collect::<String>());
    println!("|---|{}", "---|---|".repeat(sizes.len()));
    for row in 0..columns[0].len() {
        let cell = |column: &Vec<Row>| {
            let (_, time, copy) = column[row];
            format!(" {:.1} | {:.2} |", time * 1e3, time / copy)
        };
        let cells: String = columns.iter().map(cell).collect();
        println!("| {} |{cells}", columns[0][row].0);
    }
}
