//! Edits and the calls around the page, with answers found by hand.

use crate::tally::Tally;
use oracle::examples;
use oracle::format::digest;
use oracle::generate::edits::{Edit, AMPLE};
use oracle::page::{self, Lengths, Page};
use oracle::reading::{LINE_WORDS, MAX_BYTES};

/// Every check of this file.
pub fn check(tally: &mut Tally) {
    counts(tally);
    order_of_refusals(tally);
    fresh_pages(tally);
    token_texts(tally);
    walks(tally);
    columns(tally);
    reports(tally);
    wide_headers(tally);
    digests(tally);
}

/// A page with ample buffers that holds this text.
fn page_of(text: &[u8]) -> Page {
    let mut page = Page::with_lengths(AMPLE);
    page.fresh();
    page.edit(0, 0, text);
    page
}

/// "L10 in L2's page ..."; "The count is the number of lines read, perhaps 0"
fn counts(tally: &mut Tally) {
    let cases: [(&[u8], Edit, [u64; 5]); 12] = [
        (b"a\n  b\n", Edit::new(0, 1, b"cc"), [0, 7, 2, 6, 1]),
        (b"a\n  b\n", Edit::new(0, 1, b"a("), [0, 7, 2, 5, 2]),
        (b"a\nb\n", Edit::new(2, 2, b""), [0, 4, 2, 4, 1]),
        (b"a\nb\n", Edit::new(4, 4, b""), [0, 4, 2, 4, 0]),
        (b"a\nb\nc\n", Edit::new(2, 4, b""), [0, 4, 2, 4, 1]),
        (b"a\nb\nc\n", Edit::new(2, 2, b"x\n"), [0, 8, 4, 8, 2]),
        (b"", Edit::new(0, 0, b""), [0, 0, 0, 0, 0]),
        (b"", Edit::new(0, 0, b"\n\n"), [0, 2, 2, 2, 2]),
        (b"a\nb", Edit::new(0, 3, b""), [0, 0, 0, 0, 0]),
        (b"(\n a\n)\nb\n", Edit::new(0, 1, b""), [0, 8, 4, 9, 3]),
        (b"a\n b\n  c\nd\n", Edit::new(2, 3, b""), [0, 10, 4, 10, 3]),
        (b"f\n x\n#\ny\n", Edit::new(1, 1, b"->"), [0, 11, 4, 8, 4]),
    ];
    for (text, edit, reply) in cases {
        let mut page = page_of(text);
        let about = format!("{edit:?} on {text:?}");
        tally.equal(edit.apply(&mut page), reply.to_vec(), &about);
    }
}

/// Buffers of these lengths.
fn lengths([text, spare, lines, tokens]: [usize; 4]) -> Lengths {
    Lengths {
        text,
        spare,
        lines,
        tokens,
    }
}

/// "Order for an edit: 7, 6, 1, 5 (text), 5 (spare), 2, then 3 or 4 ..., 5 (lines), 5 (tokens)."
fn order_of_refusals(tally: &mut Tally) {
    let wide = vec![b'a'; MAX_BYTES + 1];
    let failure = [3, 2, 2, 0, 0, 1, 1, 0, 1];
    let deep = examples::levels(17);
    let cases: [([usize; 4], Edit, &[u64]); 12] = [
        ([0, 0, 20, 0], Edit::new(1, 0, &wide), &[7]),
        ([0, 0, 21, 0], Edit::new(1, 0, &wide), &[6]),
        ([0, 0, 21, 0], Edit::new(0, 1, &wide), &[6]),
        ([0, 0, 21, 0], Edit::new(0, 0, &wide), &[1, 1_048_577]),
        ([0, 0, 21, 0], Edit::new(0, 0, b"\xFF"), &[5, 1, 1]),
        ([1, 0, 21, 0], Edit::new(0, 0, b"\xFF"), &[5, 2, 1]),
        ([1, 1, 21, 0], Edit::new(0, 0, b"\xFF"), &[2, 0]),
        ([1, 1, 21, 0], Edit::new(0, 0, b"&"), &failure),
        ([189, 189, 21, 0], Edit::new(0, 0, &deep), &[4, 18]),
        ([1, 1, 21, 0], Edit::new(0, 0, b"a"), &[5, 3, 42]),
        ([1, 1, 42, 9], Edit::new(0, 0, b"a"), &[5, 4, 10]),
        ([1, 1, 42, 10], Edit::new(0, 0, b"a"), &[0, 1, 1, 2, 1]),
    ];
    for (sizes, edit, reply) in cases {
        let mut page = Page::with_lengths(lengths(sizes));
        page.fresh();
        let is = edit.apply(&mut page);
        tally.note_reply(&is);
        tally.equal(is, reply.to_vec(), &format!("order with {sizes:?}"));
    }
}

/// "The fresh page has header 0, 0, 0 and 21 zero line words; it needs 21. All else keeps ..."
fn fresh_pages(tally: &mut Tally) {
    let mut page = Page::with_lengths(lengths([1, 1, 20, 1]));
    let kept = page.clone();
    tally.equal(page.fresh(), vec![5, 3, 21], "fresh page on 20 words");
    tally.expect(page == kept, || "a refused fresh page".into());
    let mut page = page_of(b"a\n");
    let mut expected = page.clone();
    (expected.n, expected.m, expected.k) = (0, 0, 0);
    expected.lines[..LINE_WORDS].fill(0);
    tally.equal(page.fresh(), vec![0, 0, 0, 0], "fresh page");
    tally.expect(page == expected, || "all else keeps its content".into());
}

/// "the kind alone decides which. Order: 7 (header), 6, 7 (token), 5 (names)."
fn token_texts(tally: &mut Tally) {
    let mut page = page_of(b"a\n  b\n");
    let cases: [(u64, usize, &[u64]); 7] = [
        (0, 18, &[0, 1, 0, 1]),
        (1, 18, &[0, 6, 16, 2]),
        (2, 19, &[0, 6, 0, 8]),
        (5, 18, &[0, 6, 8, 8]),
        (0, 17, &[5, 6, 18]),
        (6, 17, &[6]),
        (u64::MAX, 17, &[6]),
    ];
    for (number, names, reply) in cases {
        let is = page.token_text(number, names);
        tally.note_reply(&is);
        tally.equal(is, reply.to_vec(), &format!("text of token {number}"));
    }
    for words in [[93, 0, 1], [92, 6, 1], [45, u32::MAX, u32::MAX], [45, 7, 0]] {
        page.tokens[..3].copy_from_slice(&words);
        let about = format!("text of the token {words:?}");
        tally.equal(page.token_text(0, 17), vec![7], &about);
        tally.equal(page.check(), vec![0, 0], "check of a changed token");
    }
}

/// "a next number one higher, or done, the number kept, where fewer than five words are left"
fn walks(tally: &mut Tally) {
    let words = [1; 14];
    let step = vec![0, 1, 2, 1, 1, 1, 1, 1];
    tally.equal(page::walk_step(&words, 1), step, "a step");
    for next in [2, 3, u64::MAX / 5 + 1, u64::MAX] {
        let about = format!("a walk done at {next}");
        tally.equal(page::walk_step(&words, next), vec![0, 0, next], &about);
    }
}

/// "Panel column of an offset: scalars before it in its line, plus 1. Checks 1, 2, 6."
fn columns(tally: &mut Tally) {
    let cases: [(u64, &[u64]); 9] = [
        (0, &[0, 1]),
        (1, &[0, 2]),
        (2, &[6]),
        (3, &[0, 3]),
        (4, &[0, 4]),
        (5, &[0, 1]),
        (6, &[0, 2]),
        (7, &[6]),
        (u64::MAX, &[6]),
    ];
    for (offset, reply) in cases {
        let is = page::panel_column(b"\t\xC3\xA9\r\nx", offset);
        tally.equal(is, reply.to_vec(), &format!("column of {offset}"));
    }
    tally.equal(page::panel_column(b"", 0), vec![0, 1], "column in no text");
    tally.equal(page::panel_column(b"\n", 1), vec![0, 1], "column after LF");
    tally.equal(
        page::panel_column(b"a\xFF", 9),
        vec![2, 1],
        "column, 2 first",
    );
}

/// "returns its length, 0 if the text reads well ... It refuses with 1, 2, 4, then 5 (out)"
fn reports(tally: &mut Tally) {
    let cases: [(&[u8], &[u64]); 4] = [
        (b"a", &[0, 0]),
        (b"&", &[5, 5, 61]),
        (b"&\xFF", &[2, 1]),
        (&examples::levels(17), &[4, 18]),
    ];
    for (text, reply) in cases {
        let is = page::report(text, &mut []);
        tally.note_reply(&is);
        tally.equal(is, reply.to_vec(), "report without room");
    }
}

/// "7: header needs more ... than lent", with header words up to 4,294,967,295.
fn wide_headers(tally: &mut Tally) {
    let most = u32::MAX;
    let headers = [
        [most; 3],
        [7, 0, 0],
        [0, 3, 0],
        [0, 0, 7],
        [0, most, 0],
        [0, 0, most],
    ];
    for header in headers {
        let mut page = Page::with_lengths(lengths([6, 6, 4 * LINE_WORDS - 1, 34]));
        (page.n, page.m, page.k) = header.into();
        let kept = page.clone();
        tally.equal(page.check(), vec![7], "check");
        tally.equal(page.edit(1, 0, b""), vec![7], "edit");
        tally.equal(page.token_text(u64::MAX, 0), vec![7], "token text");
        tally.expect(page == kept, || "buffers untouched".into());
    }
}

/// The digest is FNV-1a's, by its published values.
fn digests(tally: &mut Tally) {
    let values: [(&[u8], u64); 3] = [
        (b"", 0xCBF2_9CE4_8422_2325),
        (b"a", 0xAF63_DC4C_8601_EC8C),
        (b"foobar", 0x8594_4171_F739_67E8),
    ];
    for (text, value) in values {
        let mut page = Page::with_lengths(lengths([text.len(), 0, 0, 0]));
        page.text.copy_from_slice(text);
        tally.equal(digest(&page), value, "digest");
    }
}
