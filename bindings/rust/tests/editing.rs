//! Edits of pages: document 01's cases, every refusal, buffers that grow, and random lists held against fresh readings.
use lexpage::{lent, Line, Page, Refusal, MAX_BYTES};
use std::ops::Range;
use std::time::{Duration, Instant};

fn page(text: &str) -> Page {
    Page::read(text.as_bytes()).unwrap()
}

/// The re-read count of an edit, and the page after it.
fn edited(text: &str, range: Range<usize>, bytes: &str) -> (usize, Page) {
    let mut page = page(text);
    let edited = page.edit(range, bytes.as_bytes()).unwrap();
    assert_eq!(edited.header, page.header());
    (edited.reread, page)
}

#[test]
fn l10_lines_read_again() {
    assert_eq!(edited("a\n  b\n", 0..1, "cc"), (1, page("cc\n  b\n")));
    let (count, after) = edited("a\n  b\n", 0..1, "a(");
    assert_eq!((count, after.header().tokens), (2, 5));
    assert_eq!(after, page("a(\n  b\n"));
}

#[test]
fn the_stop_lies_strictly_beyond_the_edit() {
    let count = |text, range, bytes| edited(text, range, bytes).0;
    assert_eq!(count("a\nb\n", 2..2, ""), 1);
    assert_eq!(count("a\nb\n", 4..4, ""), 0);
    assert_eq!(count("a\nb\nc\n", 2..4, ""), 1);
    assert_eq!(count("a\nb\nc\n", 2..2, "x\n"), 2);
}

/// A range, the bytes to put there, the number of the refusal, the refused text.
type Refused<'a> = (Range<usize>, &'a [u8], u32, Option<&'a [u8]>);

#[test]
fn refusals_leave_the_page() {
    let ladder: String = (0..=17).map(|width| " ".repeat(width) + "a\n").collect();
    let cases: [Refused; 8] = [
        (Range { start: 2, end: 1 }, b"", 6, None),
        (0..7, b"", 6, None),
        (7..7, b"", 6, None),
        (0..usize::MAX, b"", 6, None),
        (0..1, b"\xFF", 2, Some(b"\xFF\n  b\n")),
        (5..6, b"\xE9\xAE", 2, Some(b"a\n  b\xE9\xAE")),
        (0..1, b"&", 3, Some(b"&\n  b\n")),
        (0..6, ladder.as_bytes(), 4, Some(ladder.as_bytes())),
    ];
    for (range, bytes, number, refused) in cases {
        let mut after = page("a\n  b\n");
        let answer = after.edit(range.clone(), bytes);
        assert_eq!(
            answer.map_err(|refusal| refusal.number()),
            Err(number),
            "{range:?} {bytes:?}"
        );
        assert_eq!((&after, after.refused_text()), (&page("a\n  b\n"), refused));
        assert!(after.check());
    }
}

#[test]
fn a_refused_text_is_gone_after_the_next_edit() {
    let mut page = page("a");
    assert!(page.edit(0..1, b"&").is_err());
    assert_eq!(page.refused_text(), Some(&b"&"[..]));
    assert!(page.edit(2..2, b"").is_err());
    assert_eq!(page.refused_text(), None);
    assert!(page.edit(0..1, b"&").is_err());
    page.edit(0..1, b"b").unwrap();
    assert_eq!((page.refused_text(), page.text()), (None, &b"b"[..]));
}

#[test]
fn bytes_of_a_scalar_may_be_replaced() {
    let mut page = page("\"é\"");
    page.edit(2..3, b"\xAE").unwrap();
    assert_eq!(page.text(), "\"î\"".as_bytes());
}

#[test]
fn a_page_grows_from_nothing() {
    let mut page = Page::new();
    let mut text = Vec::new();
    for i in 0..2000 {
        let line = format!("{}if x{i} == ({i}) // {i}\n", " ".repeat(i % 3));
        let line = if i % 3 == 0 {
            line
        } else {
            format!("{}y += 1;\n", " ".repeat(i % 3))
        };
        page.edit(text.len()..text.len(), line.as_bytes()).unwrap();
        text.extend_from_slice(line.as_bytes());
    }
    assert_eq!((page.text(), page.header().lines), (&text[..], 2000));
    assert_eq!(page, Page::read(&text).unwrap());
    let all = Page::new().edit(0..0, &text).unwrap();
    assert_eq!(all.reread, 2000);
    assert_eq!(all.header, page.header());
}

#[test]
fn room_changes_no_answer() {
    let text = "fn f(a: u32) ->\n  u32\n  return a\n".repeat(40);
    let mut narrow = Page::new();
    let mut wide = Page::with_capacity(100_000);
    for (range, bytes) in [
        (0..0, text.as_bytes()),
        (5..6, b"\n(\n"),
        (0..20, b""),
        (0..0, b"&"),
        (9..9, b"x\n\n\n"),
    ] {
        assert_eq!(narrow.edit(range.clone(), bytes), wide.edit(range, bytes));
        assert_eq!(narrow, wide);
    }
}

#[test]
fn limits_of_an_edited_text() {
    let mut page = Page::new();
    let long = |length| Err(Refusal::TooLong { length });
    assert_eq!(page.edit(0..0, &vec![b'#'; MAX_BYTES + 1]), long(MAX_BYTES + 1));
    assert_eq!(page.edit(0..0, &vec![b'#'; MAX_BYTES]).unwrap().reread, 1);
    assert_eq!(page.edit(MAX_BYTES..MAX_BYTES, b"#"), long(MAX_BYTES + 1));
    assert_eq!(page.edit(0..1, &[b'#'; 1000]), long(MAX_BYTES + 999));
    assert_eq!(page.edit(0..MAX_BYTES + 1, b""), Err(Refusal::OutOfRange));
    page.edit(MAX_BYTES / 2..MAX_BYTES / 2 + 1, b"\n").unwrap();
    assert!(page.check());
    assert_eq!((page.text().len(), page.header().lines), (MAX_BYTES, 2));
    page.edit(0..MAX_BYTES, b"").unwrap();
    assert_eq!(page, Page::new());
}

/// Numbers below a bound, drawn by xorshift.
struct Draw(u64);

impl Draw {
    fn below(&mut self, bound: usize) -> usize {
        self.0 ^= self.0 << 13;
        self.0 ^= self.0 >> 7;
        self.0 ^= self.0 << 17;
        (self.0 % bound as u64) as usize
    }
}

const PIECES: [&[u8]; 32] = [
    b"a",
    b"let x",
    b"if",
    b"(",
    b")",
    b"((",
    b" ->",
    b"->",
    b"\n",
    b"\n",
    b"\n  ",
    b"\n    ",
    b"\n\t",
    b" ",
    b"  ",
    b"\r",
    b"\r\n",
    b"# c",
    b"// d",
    b"\"",
    b"\"s\"",
    b"b'q'",
    b"b'",
    b"1..2",
    b"0x1f64",
    b"&&",
    b"&",
    b";",
    b"\xC3\xA9",
    b"\xAE",
    b"\n a\n  b\n   c",
    b"\n\n\n",
];

fn spliced(text: &[u8], range: Range<usize>, bytes: &[u8]) -> Vec<u8> {
    [&text[..range.start], bytes, &text[range.end..]].concat()
}

fn state(line: &Line) -> (usize, bool, &[u32]) {
    (line.depth, line.arrow, line.open_widths())
}

/// The count of the stop rule, from the fresh readings before and after.
fn count(before: &Page, after: &Page, range: Range<usize>, written: usize) -> usize {
    let old: Vec<Line> = before.lines().chain([before.end()]).collect();
    let first = before.text()[..range.start]
        .iter()
        .filter(|byte| **byte == b'\n')
        .count();
    let beyond = range.start + written;
    let stop = after.lines().position(|line| {
        line.start > beyond
            && old
                .iter()
                .any(|o| o.start + beyond == line.start + range.end && state(o) == state(&line))
    });
    stop.unwrap_or(after.lines().len()) - first
}

/// One random edit, held against a fresh reading of the edited text. Tells whether it was accepted.
fn one_edit(page: &mut Page, draw: &mut Draw) -> bool {
    let n = page.text().len();
    let a = draw.below(n + 1);
    let b = a + draw.below((n - a).min(9) + 1);
    let bytes: Vec<u8> = (0..draw.below(4))
        .flat_map(|_| PIECES[draw.below(PIECES.len())])
        .copied()
        .collect();
    let (before, text) = (page.clone(), spliced(page.text(), a..b, &bytes));
    match (page.edit(a..b, &bytes), Page::read(&text)) {
        (Ok(edited), Ok(fresh)) => {
            assert_eq!(*page, fresh);
            assert_eq!(
                edited.reread,
                count(&before, &fresh, a..b, bytes.len()),
                "{before:?} {a}..{b} {bytes:?}"
            );
            true
        }
        (Err(refusal), Err(fresh)) => {
            assert_eq!(
                (&refusal, &*page, page.refused_text()),
                (&fresh, &before, Some(&text[..]))
            );
            false
        }
        (edited, fresh) => panic!("{before:?} {a}..{b} {bytes:?}: {edited:?}, a fresh reading: {fresh:?}"),
    }
}

#[test]
fn random_lists_of_edits() {
    let mut draw = Draw(0x9E37_79B9_7F4A_7C15);
    let (mut accepted, mut refused, mut longest) = (0, 0, 0);
    for _ in 0..400 {
        let mut page = Page::new();
        for _ in 0..60 {
            let done = one_edit(&mut page, &mut draw);
            (accepted, refused) = (accepted + usize::from(done), refused + usize::from(!done));
            longest = longest.max(page.header().lines);
        }
        assert!(page.check());
    }
    assert!(
        accepted > 8000 && refused > 2000 && longest > 20,
        "{accepted} accepted, {refused} refused, {longest} lines"
    );
}

/// The median time of a task.
fn median(mut task: impl FnMut()) -> Duration {
    let mut times: Vec<Duration> = (0..15)
        .map(|_| {
            let begun = Instant::now();
            task();
            begun.elapsed()
        })
        .collect();
    times.sort();
    times[times.len() / 2]
}

/// No contract says how long a call takes: an edit that read the whole page again, and told the stop rule's count, would meet it.
/// A byte in the middle of a long page costs about a twentieth of a reading.
#[test]
fn an_edit_reads_few_lines_again() {
    let line = b"record 4 -> 7 = 38; # seconds\n";
    let text = line.repeat(34_000);
    let mut page = Page::read(&text).unwrap();
    let (mut lines, mut tokens) = (page.line_words().to_vec(), page.token_words().to_vec());
    let reading = median(|| assert_eq!(lent::read(&text, &mut lines, &mut tokens), Ok(page.header())));
    let at = 17_000 * line.len() + 8;
    let edits = median(|| {
        assert_eq!(page.edit(at..at, b"1").unwrap().reread, 1);
        assert_eq!(page.edit(at..at + 1, b"").unwrap().reread, 1);
    });
    assert!(edits < reading / 2, "two edits took {edits:?}, a reading {reading:?}");
}
