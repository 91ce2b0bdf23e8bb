//! What holds of every text: laws of a reading, of a failure and of the calls around the page.

use crate::numbers;
use crate::probes;
use crate::tally::Tally;
use oracle::generate::utf8::well_formed_prefix;
use oracle::original::types::TokenKind;
use oracle::original::Failure;
use oracle::page::{self, Lengths, Page};
use oracle::reading::{fresh_reading, Records, Refusal, Reply, LINE_WORDS, MAX_BYTES, TOKEN_WORDS};

/// The laws of one text; `probed` asks the original for each line's state too.
pub fn check(tally: &mut Tally, text: &[u8], probed: bool) {
    let about = |law: &str| format!("{law} of {:?}", String::from_utf8_lossy(text));
    let reading = fresh_reading(text);
    match &reading {
        Ok(reading) => {
            tally.note_reply(&page::header_reply(reading));
            tally.note_kinds(reading.tokens.chunks(TOKEN_WORDS).map(|token| token[0]));
            tally.expect(places_hold(text, reading), || about("places"));
            tally.expect(gaps_hold(text, reading), || about("gaps"));
            tally.expect(states_hold(text, reading, probed), || about("states"));
            tally.expect(page_holds(text, reading), || about("page"));
            tally.expect(numbers::tokens_hold(text, reading), || about("numbers"));
        }
        Err(refusal) => {
            tally.note_reply(&refusal.numbers());
            tally.expect(refusal_holds(text, refusal), || about("refusal"));
        }
    }
    tally.expect(read_into_holds(text, &reading), || about("read_into"));
    tally.expect(report_holds(text, &reading), || about("report"));
    tally.expect(columns_hold(text), || about("columns"));
    tally.expect(numbers::parts_hold(text), || about("number"));
}

/// "Newline stands at the line's end"; "Lines count from 1, columns in bytes from 1."
fn places_hold(text: &[u8], reading: &Records) -> bool {
    let m = reading.m as usize;
    let newlines = reading
        .tokens
        .chunks(TOKEN_WORDS)
        .filter(|token| token[0] == 92);
    let ends = (1..=m).map(|line| {
        let end = reading.start(line) as usize;
        let has_feed = end > 0 && text[end - 1] == b'\n';
        (line as u32, (end - usize::from(has_feed)) as u32)
    });
    let in_line = |token: &[u32]| {
        let (line, place) = (token[3] as usize, u64::from(token[1]));
        let start = reading.start(line - 1);
        line <= m + 1 && place + 1 == start + u64::from(token[4])
    };
    newlines.map(|token| (token[3], token[1])).eq(ends)
        && reading.tokens.chunks(TOKEN_WORDS).all(in_line)
        && first_tokens_hold(reading)
        && reading.k as usize <= 2 * text.len()
}

/// "number of its first token (its Indent or Dedents included)"; "first closing Dedent"
fn first_tokens_hold(reading: &Records) -> bool {
    (0..=reading.m as usize).all(|line| {
        let first = reading.line(line)[1] as usize;
        let lines_of = |token: &[u32]| token[3] as usize;
        let mut before = reading.tokens.chunks(TOKEN_WORDS).take(first);
        let mut after = reading.tokens.chunks(TOKEN_WORDS).skip(first);
        before.all(|token| lines_of(token) <= line) && after.all(|token| lines_of(token) > line)
    })
}

/// "blank (space, tab, CR)"; "`#` and `//` end the line": nothing else lies between tokens.
fn gaps_hold(text: &[u8], reading: &Records) -> bool {
    let mut at = 0;
    let mut gaps = Vec::new();
    for token in reading.tokens.chunks(TOKEN_WORDS) {
        let (start, length) = (token[1] as usize, token[2] as usize);
        if token[0] == TokenKind::Newline as u32 || length > 0 {
            if start < at {
                return false;
            }
            gaps.push(&text[at..start]);
            at = start + length;
        }
    }
    gaps.into_iter().all(|gap| {
        let gap = gap.strip_prefix(b"\n").unwrap_or(gap);
        let blank = |byte: &&u8| b" \t\r".contains(byte);
        let rest = &gap[gap.iter().take_while(blank).count()..];
        !rest.contains(&b'\n') && (rest.is_empty() || rest[0] == b'#' || rest.starts_with(b"//"))
    })
}

/// "the state before it": also what a reading of the lines before it ends with, and a probe finds.
fn states_hold(text: &[u8], reading: &Records, probed: bool) -> bool {
    (0..=reading.m as usize).all(|line| {
        let before = &text[..reading.start(line) as usize];
        let at_line_start = before.last().is_none_or(|byte| *byte == b'\n');
        let ended = fresh_reading(before).is_ok_and(|part| {
            part.state(part.m as usize) == reading.state(line)
                && part.line(part.m as usize)[1] == reading.line(line)[1]
        });
        let before = String::from_utf8_lossy(before);
        ended && (!probed || !at_line_start || probes::agrees(&before, reading.state(line)))
    })
}

/// "1, the length", "2, length of ... prefix", "3, the failure record", "4, the line"
fn refusal_holds(text: &[u8], refusal: &Refusal) -> bool {
    match refusal {
        Refusal::TooLong(length) => *length == text.len() as u64 && text.len() > MAX_BYTES,
        Refusal::IllFormed(prefix) => {
            let prefix = *prefix as usize;
            prefix < text.len() && prefix == well_formed_prefix(text)
        }
        Refusal::Failure(failure) => failure_holds(text, failure),
        Refusal::TooDeep(line) => {
            let lines: Vec<&[u8]> = text.split_inclusive(|byte| *byte == b'\n').collect();
            let before = lines[..*line as usize - 1].concat();
            fresh_reading(&before).is_ok_and(|part| part.state(part.m as usize)[2] == 16)
        }
        _ => false,
    }
}

/// "Failure record": code by detail, place by line and column, the scalar found at the place.
fn failure_holds(text: &[u8], failure: &Failure) -> bool {
    let code = match failure.detail {
        2 => 2,
        3 => 4,
        4 => 101,
        _ => 1,
    };
    let at = failure.position as usize;
    let end = failure.range_end as usize;
    let start = text[..at]
        .iter()
        .rposition(|byte| *byte == b'\n')
        .map_or(0, |before| before + 1);
    let line = text[..at].iter().filter(|byte| **byte == b'\n').count() + 1;
    let part = std::str::from_utf8(&text[at..end]).unwrap_or_default();
    let names_scalar = matches!(failure.detail, 1 | 8..=12);
    let found = part.chars().next().map_or(0, u32::from);
    failure.code == code
        && failure.line as usize == line
        && failure.column as usize == at - start + 1
        && failure.range_start == failure.position
        && !part.is_empty()
        && !part.contains('\n')
        && failure.found == if names_scalar { found } else { 0 }
        && (!names_scalar || part.chars().count() == 1)
}

/// A reading into buffers of these lengths, each word 7 before it.
fn read_with(text: &[u8], lines: usize, tokens: usize) -> (Reply, Vec<u32>, Vec<u32>) {
    let (mut lines, mut tokens) = (vec![7; lines], vec![7; tokens]);
    let reply = page::read_into(text, &mut lines, &mut tokens);
    (reply, lines, tokens)
}

/// "writes records to lines and tokens, words past them untouched, and returns the header"
fn read_into_holds(text: &[u8], reading: &Result<Records, Refusal>) -> bool {
    match reading {
        Ok(reading) => {
            let (lines, tokens) = (&reading.lines, &reading.tokens);
            let longer = |words: &[u32]| [words, &[7]].concat();
            read_with(text, lines.len() + 1, tokens.len() + 1)
                == (page::header_reply(reading), longer(lines), longer(tokens))
                && narrow_read_holds(text, lines.len(), tokens.len())
        }
        Err(refusal) => read_with(text, 1, 1) == (refusal.numbers(), vec![7], vec![7]),
    }
}

/// "5 (lines), 5 (tokens)": each buffer one word short, and both.
fn narrow_read_holds(text: &[u8], lines: usize, tokens: usize) -> bool {
    let refused = |lent_lines: usize, lent_tokens: usize, buffer: u64, least: usize| {
        let untouched = (vec![7; lent_lines], vec![7; lent_tokens]);
        let reply = vec![5, buffer, least as u64];
        read_with(text, lent_lines, lent_tokens) == (reply, untouched.0, untouched.1)
    };
    let fewer_tokens = tokens.saturating_sub(1);
    refused(lines - 1, tokens, 3, lines)
        && refused(lines - 1, fewer_tokens, 3, lines)
        && (tokens == 0 || refused(lines, fewer_tokens, 4, tokens))
}

/// "returns its length, 0 if the text reads well; ... It refuses with 1, 2, 4, then 5 (out)"
fn report_holds(text: &[u8], reading: &Result<Records, Refusal>) -> bool {
    let mut out = vec![7; 2 * text.len().min(4096) + 200];
    let reply = page::report(text, &mut out);
    match reading {
        Ok(_) => reply == [0, 0] && out.iter().all(|byte| *byte == 7),
        Err(Refusal::Failure(failure)) => {
            let length = failure.message.len();
            let short = page::report(text, &mut vec![7; length - 1]);
            reply == [0, length as u64]
                && out.starts_with(&failure.message)
                && out[length..].iter().all(|byte| *byte == 7)
                && short == [5, 5, length as u64]
        }
        Err(refusal) => reply == refusal.numbers(),
    }
}

/// "Panel column of an offset: scalars before it in its line, plus 1. Checks 1, 2, 6."
fn columns_hold(text: &[u8]) -> bool {
    let mut offsets = (0..text.len() + 2).take(60).chain([usize::MAX]);
    offsets.all(|offset| {
        let reply = page::panel_column(text, offset as u64);
        if text.len() > MAX_BYTES || well_formed_prefix(text) < text.len() {
            return reply[0] == 1 || reply[0] == 2;
        }
        let inside = |byte: &&u8| **byte & 0xC0 == 0x80;
        if offset > text.len() || text.get(offset).iter().any(inside) {
            return reply == [6];
        }
        let line = text[..offset].rsplit(|byte| *byte == b'\n').next();
        let scalars = line.unwrap_or_default().iter().filter(|byte| !inside(byte));
        reply == [0, scalars.count() as u64 + 1]
    })
}

/// "Check", "The text of a token", "A token walk" on the page of this text.
fn page_holds(text: &[u8], reading: &Records) -> bool {
    let mut page = Page::with_lengths(Lengths {
        text: text.len() + 1,
        spare: 0,
        lines: reading.lines.len() + 1,
        tokens: reading.tokens.len() + 4,
    });
    page.text[..text.len()].copy_from_slice(text);
    page.lines[..reading.lines.len()].copy_from_slice(&reading.lines);
    page.tokens[..reading.tokens.len()].copy_from_slice(&reading.tokens);
    (page.n, page.m, page.k) = (reading.n, reading.m, reading.k);
    let count = u64::from(reading.k);
    let steps = (0..count).all(|number| step_holds(&page, reading, number));
    let done = page::walk_step(&page.tokens, count) == [0, 0, count];
    page.check() == [0, 1] && page.token_text(count, 18) == [6] && steps && done && marred(page)
}

/// "each step gives a record and a next number one higher"; "the kind alone decides which"
fn step_holds(page: &Page, reading: &Records, number: u64) -> bool {
    let at = number as usize * TOKEN_WORDS;
    let words: Vec<u64> = reading.tokens[at..at + TOKEN_WORDS]
        .iter()
        .map(|w| u64::from(*w))
        .collect();
    let part = match words[0] {
        90 => [0, 6, 0, 8],
        91 => [0, 6, 8, 8],
        92 => [0, 6, 16, 2],
        _ => [0, 1, words[1], words[2]],
    };
    let step = [&[0, 1, number + 1], &words[..]].concat();
    page::walk_step(&page.tokens, number) == step
        && page.token_text(number, 18) == part
        && page.token_text(number, 17) == [5, 6, 18]
}

/// "yes exactly if header and records are faithful": a changed word of the needed ones is a no.
fn marred(mut page: Page) -> bool {
    let words = LINE_WORDS * (page.m as usize + 1);
    let told = (0..words).step_by(7).all(|at| {
        page.lines[at] ^= 1;
        let reply = page.check();
        page.lines[at] ^= 1;
        reply == [0, 0]
    });
    let past = *page.lines.last().unwrap_or(&0) == 0xAAAA_AAAA;
    page.n += 1;
    told && past && page.check() == [0, 0]
}
