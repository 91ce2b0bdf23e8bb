//! `read` against the Rust lexer, a reader written by hand and a plain copy.

use crate::by_hand;
use crate::clock::{copy, medians, timed};
use crate::original::lexer;
use crate::page::{agree, Page};
use crate::texts;
use std::hint::black_box;

/// The reader that was written by hand gives the same header and records, and none where the text fails.
fn alike(page: &Page, text: &[u8], lines: &mut [u32], tokens: &mut [u32]) {
    match by_hand::read(text, lines, tokens) {
        Some(header) => {
            assert!(
                page.reply[0] == 0 && page.header == header,
                "by hand: header"
            );
            let (line_words, token_words) = page.records();
            assert!(
                lines.starts_with(line_words) && tokens.starts_with(token_words),
                "by hand: records"
            );
        }
        None => assert_ne!(page.reply[0], 0, "by hand: refused"),
    }
}

/// A row: the Rust's call and the freeing of what it made, the reader by hand, our call, and its shares.
fn row(name: &str, text: Vec<u8>, turns: usize) {
    let mut page = Page::new(&text);
    let (mut lines, mut tokens) = (vec![0; page.lines.len()], vec![0; page.tokens.len()]);
    alike(&page, &text, &mut lines, &mut tokens);
    if page.reply[0] == 3 {
        page.text.truncate(text.len());
    }
    let holds = agree(&page);
    let text = String::from_utf8(text).unwrap();
    let mut copied = vec![0; text.len()];
    let times = medians(turns, || {
        let (call, made) = timed(|| lexer::lex_tokens_with_authority(black_box(&text)));
        let (free, ()) = timed(|| drop(made));
        let (hand, _) =
            timed(|| by_hand::read(black_box(text.as_bytes()), &mut lines, &mut tokens));
        let (ours, ()) = timed(|| page.read(black_box(text.as_bytes())));
        vec![call, free, hand, ours, copy(text.as_bytes(), &mut copied)]
    });
    let [call, free, hand, ours, copied] = times[..] else {
        return;
    };
    let (whole, alone, of_hand) = (ours / (call + free), ours / call, ours / hand);
    let (kib, a_byte) = (text.len() >> 10, ours * 1e6 / text.len() as f64);
    println!(
        "| {name} | {kib} | {holds} | {call:.2} | {free:.2} | {hand:.2} | {ours:.2} | {whole:.2} | {alone:.2} | {of_hand:.2} | {:.0} | {a_byte:.1} |",
        ours / copied
    );
}

/// A script of this size with this front and this end.
fn framed(front: &str, size: usize, end: &str) -> Vec<u8> {
    let script = texts::script(size - front.len() - end.len());
    [front.as_bytes(), &script, end.as_bytes()].concat()
}

/// Every text at these sizes.
pub fn table(sizes: &[usize], turns: usize) {
    println!("| text | KiB | holds | Rust call ms | Rust free ms | by hand ms | read ms | of call and free | of the call | of by hand | copies | ns a byte |");
    println!("|---|---|---|---|---|---|---|---|---|---|---|---|");
    let repeated = texts::repeated;
    for &size in sizes {
        let texts = [
            ("script", texts::script(size)),
            ("statements drawn at random", texts::drawn(size)),
            ("one line", repeated("pen_4 := rate; ", size)),
            ("one word", repeated("a", size)),
            ("LFs", repeated("\n", size)),
            ("a bracket open from the top", framed("f(\n", size, "")),
            ("brackets, each line one deeper", repeated("f(\n", size)),
            ("a level open from the top", texts::indented(size)),
            ("signs of one byte", repeated("()[]{}+-*;\n", size)),
            ("comments", repeated(texts::COMMENT, size)),
            ("keywords", repeated("let while true return record\n", size)),
            ("a failure at the end", framed("", size, "\n&")),
        ];
        for (name, text) in texts {
            row(name, text, turns);
        }
    }
}
