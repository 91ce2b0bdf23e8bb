//! Document 01's own cases of reading, with answers found by hand.

use crate::tally::Tally;
use oracle::examples::{self, Answer, Example, SEVENTEEN_LEVELS};
use oracle::generate::texts::{repeated, KEYWORDS, SIGNS};
use oracle::original::types::TokenKind;
use oracle::original::{self, lexer};
use oracle::page;
use oracle::reading::{fresh_reading, Reply, LINE_WORDS, MAX_BYTES, TOKEN_WORDS};

/// Every check of this file.
pub fn check(tally: &mut Tally) {
    for example in examples::ALL.iter().flat_map(|list| list.iter()) {
        check_example(tally, example);
    }
    for (text, reply) in examples::level_limits() {
        tally.equal(reply_of(&text), reply, "levels");
    }
    for (text, value) in examples::VALUES {
        let reply = value.map_or(vec![0, 0], |value| vec![0, 1, value]);
        tally.equal(page::byte_value(text), reply, &format!("value of {text:?}"));
    }
    byte_limit(tally);
    beyond_the_original(tally);
    keywords(tally);
    signs(tally);
    line_records(tally);
    messages(tally);
    scans(tally);
}

/// The reply of a reading of this text by itself.
fn reply_of(text: &[u8]) -> Reply {
    match fresh_reading(text) {
        Ok(reading) => page::header_reply(&reading),
        Err(refusal) => refusal.numbers(),
    }
}

/// Kind, position and length of each token; of a text that does not read, its refusal's number.
fn tokens_of(text: &[u8]) -> Vec<u32> {
    match fresh_reading(text) {
        Ok(reading) => {
            let tokens = reading.tokens.chunks(TOKEN_WORDS);
            tokens.flat_map(|token| token[..3].to_vec()).collect()
        }
        Err(refusal) => vec![refusal.numbers()[0] as u32],
    }
}

/// "The cases L1 to L11", and the places where a reader stumbles.
fn check_example(tally: &mut Tally, example: &Example) {
    let text = example.text;
    let about = format!("{:?}", String::from_utf8_lossy(text));
    match &example.answer {
        Answer::Reads(tokens) => {
            let words = |(kind, position, length): &(TokenKind, u32, u32)| {
                [*kind as u32, *position, *length]
            };
            let should_be = tokens.iter().flat_map(words).collect();
            tally.equal(tokens_of(text), should_be, &about);
        }
        Answer::Fails(record) => {
            let reply = [&[3], &record.map(u64::from)[..]].concat();
            tally.equal(reply_of(text), reply, &about);
        }
        Answer::Refused(reply) => tally.equal(reply_of(text), reply.to_vec(), &about),
    }
}

/// "1, the length: text, or edited text, over 1,048,576 bytes"
fn byte_limit(tally: &mut Tally) {
    let cases: [(&str, &[u64]); 5] = [
        ("a", &[0, 1_048_576, 1, 2]),
        ("\n", &[0, 1_048_576, 1_048_576, 1_048_576]),
        (" a\na\n", &[0, 1_048_576, 419_431, 1_258_291]),
        ("x -> # (\n", &[0, 1_048_576, 116_509, 349_525]),
        ("é", &[3, 1, 1, 233, 0, 1, 1, 0, 2]),
    ];
    for (unit, reply) in cases {
        let text = repeated(unit, MAX_BYTES);
        tally.equal(reply_of(&text), reply.to_vec(), "text at the limit");
        let text = repeated(unit, MAX_BYTES + 1);
        let longer = reply_of(&text);
        tally.note_reply(&longer);
        tally.equal(longer, vec![1, 1_048_577], "text past the limit");
        tally.equal(page::byte_value(&text), vec![1, 1_048_577], "value past it");
        let column = page::panel_column(&text, u64::MAX);
        tally.equal(column, vec![1, 1_048_577], "column past it");
        let report = page::report(&text, &mut []);
        tally.equal(report, vec![1, 1_048_577], "report past it");
    }
}

/// "Added by us: ... the two limits": the original has neither, and renders what it calls bare.
fn beyond_the_original(tally: &mut Tally) {
    let deep = String::from_utf8_lossy(SEVENTEEN_LEVELS);
    tally.equal(deep.len(), 89, "seventeen levels in the fewest bytes");
    tally.expect(original::tokens(&deep).is_ok(), || "17 levels".into());
    let broken = format!("{}&", &deep[..88]);
    let line = original::tokens(&broken).map_err(|failure| failure.line);
    tally.equal(line, Err(17), "the original's failure on level 17");
    tally.equal(reply_of(broken.as_bytes()), vec![4, 17], "4 before it");
    let long = "a".repeat(MAX_BYTES + 1);
    tally.expect(original::tokens(&long).is_ok(), || "a longer text".into());
    let bare =
        lexer::lex_tokens("&").map_err(|error| (error.detail, error.message.lines().count()));
    tally.equal(bare.map(|_| ()), Err((None, 5)), "a message called bare");
}

/// The kind of the one token that this spelling is, if it is one.
fn only_kind(spelling: &str) -> Option<u32> {
    match tokens_of(spelling.as_bytes())[..] {
        [kind, 0, length, 92, _, 0] if length as usize == spelling.len() => Some(kind),
        _ => None,
    }
}

/// The different kinds of these spellings, in order.
fn kinds_of(spellings: &[&str]) -> Vec<u32> {
    let mut kinds: Vec<u32> = spellings.iter().filter_map(|s| only_kind(s)).collect();
    kinds.sort();
    kinds.dedup();
    kinds
}

/// "one of 46 spellings of 45 kinds"; "Kinds are numbered 0 (KwFn) to 92 (Newline)"
fn keywords(tally: &mut Tally) {
    let read = KEYWORDS.iter().filter_map(|word| only_kind(word)).count();
    tally.equal(read, 46, "keyword spellings");
    tally.equal(kinds_of(&KEYWORDS), (0..45).collect(), "keyword kinds");
    let numbers = [
        TokenKind::KwFn,
        TokenKind::Ident,
        TokenKind::Arrow,
        TokenKind::Indent,
        TokenKind::Dedent,
        TokenKind::Newline,
    ];
    let numbers = numbers.map(|kind| kind as u32);
    tally.equal(numbers, [0, 45, 66, 90, 91, 92], "kind numbers");
}

/// "Signs, longest first: ..."; "`:=` is Assign, `->` is Implies"; "66, `Arrow`, has no spelling"
fn signs(tally: &mut Tally) {
    let read = SIGNS.iter().filter_map(|sign| only_kind(sign)).count();
    tally.equal(read, 41, "sign spellings");
    let kinds = (49..90).filter(|kind| *kind != 66).collect();
    tally.equal(kinds_of(&SIGNS), kinds, "sign kinds");
    let assign = Some(TokenKind::Assign as u32);
    tally.equal(only_kind(":="), assign, "`:=`");
    tally.equal(only_kind("="), assign, "`=`");
    let implies = Some(TokenKind::Implies as u32);
    tally.equal(only_kind("->"), implies, "`->`");
}

/// A line record by its first words; the others are 0.
fn line_record(words: &&[u32]) -> Vec<u32> {
    let mut record = words.to_vec();
    record.resize(LINE_WORDS, 0);
    record
}

/// "Line, 21 words"; "One more line record stands for the end: start n, first closing Dedent."
fn line_records(tally: &mut Tally) {
    let cases: [(&[u8], &[&[u32]]); 7] = [
        (b"", &[&[]]),
        (b"a\n  b\n", &[&[], &[2, 2], &[6, 5, 0, 0, 1, 2]]),
        (b"f ->", &[&[], &[4, 3, 0, 1]]),
        (b"(->\n", &[&[], &[4, 3, 1, 1]]),
        (b"(->\n#\n", &[&[], &[4, 3, 1, 1], &[6, 4, 1]]),
        (
            b" a\n\t((",
            &[&[], &[3, 3, 0, 0, 1, 1], &[6, 7, 2, 0, 2, 1, 4]],
        ),
        (
            b" a\n  b\nc",
            &[&[], &[3, 3, 0, 0, 1, 1], &[7, 6, 0, 0, 2, 1, 2], &[8, 10]],
        ),
    ];
    for (text, records) in cases {
        let should_be: Vec<u32> = records.iter().flat_map(line_record).collect();
        let read = fresh_reading(text).map(|reading| reading.lines);
        tally.equal(read, Ok(should_be), "line records");
    }
}

/// "Report writes the failure's `message` ... (trailing CRs kept, line number at least 2 wide)"; the caret's row does not follow
/// the number's width.
fn messages(tally: &mut Tally) {
    for (text, message) in examples::MESSAGES {
        let mut out = vec![0; message.len()];
        let reply = page::report(text, &mut out);
        tally.equal(reply, vec![0, message.len() as u64], "report");
        tally.equal(String::from_utf8_lossy(&out).as_ref(), message, "message");
    }
    for (line, shown) in [
        (1, "\n 1 | &\n  | ^"),
        (10, "\n10 | &\n  | ^"),
        (100, "\n100 | &\n  | ^"),
        (1000, "\n1000 | &\n  | ^"),
    ] {
        let text = [&vec![b'\n'; line - 1][..], b"&"].concat();
        let message = page::message(&text).unwrap_or_default();
        let message = String::from_utf8_lossy(&message);
        tally.expect(message.ends_with(shown), || {
            format!("line number and caret in {message}")
        });
    }
}

/// "Program `scan` reads a text of at most 512 bytes"
fn scans(tally: &mut Tally) {
    let shown = "(page (bytes 5) (lines 1) (tokens 3))\n\
                 (tok 10 (at 0 1 1) (len 3))\n\
                 (tok 45 (at 4 1 5) (len 1))\n\
                 (tok 92 (at 5 1 6) (len 0))\n";
    let failed = "error[E0002]: expected '&&'\n --> <input>:1:1\n  |\n 1 | &\n  | ^\n";
    let blank = "(page (bytes 512) (lines 1) (tokens 1))\n(tok 92 (at 512 1 513) (len 0))\n";
    let longer = [&[b' '; 512][..], b"\xFF"].concat();
    let cases: [(&[u8], &str); 7] = [
        (b"let x", shown),
        (b"", "(page (bytes 0) (lines 0) (tokens 0))\n"),
        (b"&", failed),
        (b"\xFF", "(refused 2)\n"),
        (&examples::levels(17), "(refused 4)\n"),
        (&longer[..512], blank),
        (&longer, "(refused 1)\n"),
    ];
    for (text, output) in cases {
        let printed = page::scan_output(text);
        tally.equal(String::from_utf8_lossy(&printed).as_ref(), output, "scan");
    }
}
