//! The line formats of recorded and generated cases; README.md lists their fields.

use crate::call::Call;
use crate::generate::calls::Calls;
use crate::generate::edits::{Edit, History};
use crate::generate::free::FreeEdit;
use crate::generate::lists::{altered_histories, recorded_histories, recorded_texts, ALTERED};
use crate::generate::single_calls::{altered_calls, single_calls};
use crate::page::{byte_value, header_reply, message, panel_column, scan_output, walk_step, Page};
use crate::reading::{fresh_reading, Reply};

/// A byte string in lower-case hex, `-` when empty.
pub fn hex(bytes: &[u8]) -> String {
    if bytes.is_empty() {
        return "-".to_string();
    }
    bytes.iter().map(|byte| format!("{byte:02x}")).collect()
}

/// A group of numbers, preceded by their count.
pub fn group<T: ToString>(numbers: &[T]) -> String {
    let mut fields = vec![numbers.len().to_string()];
    fields.extend(numbers.iter().map(T::to_string));
    fields.join(" ")
}

/// The panel columns at the offsets 0 to n + 1, a group for each reply.
fn columns(text: &[u8]) -> String {
    let offsets = 0..=text.len() as u64 + 1;
    let groups = offsets.map(|offset| group(&panel_column(text, offset)));
    groups.collect::<Vec<_>>().join(" ")
}

/// A text with its reading, its message, its byte-literal value and its panel columns.
fn text_fields(text: &[u8]) -> [String; 7] {
    let reading = fresh_reading(text);
    let (reply, lines, tokens): (Reply, &[u32], &[u32]) = match &reading {
        Ok(reading) => (header_reply(reading), &reading.lines, &reading.tokens),
        Err(refusal) => (refusal.numbers(), &[], &[]),
    };
    [
        hex(text),
        group(&reply),
        group(lines),
        group(tokens),
        hex(&message(text).unwrap_or_default()),
        group(&byte_value(text)),
        columns(text),
    ]
}

/// A text with its answers, as one line without its LF.
pub fn text_case(text: &[u8]) -> String {
    text_fields(text).join(" ")
}

/// A text with its answers, where the last digit of one of the fields above is another.
fn altered_case(text: &[u8], field: usize) -> String {
    let mut fields = text_fields(text);
    let digit = fields[field].pop();
    fields[field].push(if digit == Some('0') { '1' } else { '0' });
    fields.join(" ")
}

/// A line of a recorded list, and whether one of its answers was made wrong.
pub struct Case {
    pub line: String,
    pub wrong: bool,
}

impl Case {
    fn true_to(line: String) -> Case {
        Case { line, wrong: false }
    }

    fn altered(line: String) -> Case {
        Case { line, wrong: true }
    }
}

/// Each text that is altered with its true answers, and then with a wrong one.
fn altered_texts() -> Vec<Case> {
    let pair = |(text, field): &(&[u8], usize)| {
        let altered = Case::altered(altered_case(text, *field));
        [Case::true_to(text_case(text)), altered]
    };
    ALTERED.iter().flat_map(pair).collect()
}

/// A list of edits cut after each of them, once for every number that is recorded of that edit: there this number is another.
fn altered_edits(history: &History) -> Vec<Case> {
    let mut page = history.page();
    let mut before = vec![page_line(history)];
    let mut cases = Vec::new();
    for edit in &history.edits {
        let answers = edit_answers(&mut page, edit);
        for number in 0..answers.len() {
            let mut wrong = answers.clone();
            wrong[number] ^= 1;
            cases.extend(before.iter().cloned().map(Case::true_to));
            cases.push(Case::altered(edit_line(edit, &wrong)));
        }
        before.push(edit_line(edit, &answers));
    }
    cases
}

/// A call with its answers, as one line without its LF.
fn single_call(call: &Call) -> String {
    call.line(&call.answers())
}

/// A call once for every number that is recorded of it: there this number is another.
fn altered_call(call: &Call) -> Vec<Case> {
    let answers = call.answers();
    let wrong = |number: usize| {
        let mut wrong = answers.clone();
        wrong[number] ^= 1;
        Case::altered(call.line(&wrong))
    };
    (0..answers.len()).map(wrong).collect()
}

/// The recorded list of this name.
pub fn recorded(list: &str) -> Option<Vec<Case>> {
    let all_true = |lines: Vec<String>| lines.into_iter().map(Case::true_to).collect();
    let texts = || recorded_texts().iter().map(|t| text_case(t)).collect();
    let histories = recorded_histories;
    match list {
        "texts" => Some(all_true(texts())),
        "altered" => Some(altered_texts()),
        "edits" => Some(all_true(
            histories().iter().flat_map(history_cases).collect(),
        )),
        "altered-edits" => Some(altered_histories().iter().flat_map(altered_edits).collect()),
        "calls" => Some(all_true(single_calls().iter().map(single_call).collect())),
        "altered-calls" => Some(altered_calls().iter().flat_map(altered_call).collect()),
        _ => None,
    }
}

/// The 64-bit FNV-1a digest of these bytes.
pub fn digest_of(bytes: impl Iterator<Item = u8>) -> u64 {
    bytes.fold(0xCBF2_9CE4_8422_2325, |hash, byte| {
        (hash ^ u64::from(byte)).wrapping_mul(0x0000_0100_0000_01B3)
    })
}

/// The digest of text, spare, lines and tokens, words as four bytes, lowest first.
pub fn digest(page: &Page) -> u64 {
    let words = page.lines.iter().chain(&page.tokens);
    let words = words.flat_map(|word| word.to_le_bytes());
    let bytes = page.text.iter().chain(&page.spare).copied();
    digest_of(bytes.chain(words))
}

/// The most bytes of an edit that are spelled one by one.
const SPELLED: usize = 4_096;

/// The bytes of an edit in hex; many equal ones as one of them, `*` and their number.
fn inserted(w: &[u8]) -> String {
    match w.first() {
        Some(first) if w.len() > SPELLED && w.iter().all(|byte| byte == first) => {
            format!("{first:02x}*{}", w.len())
        }
        _ => hex(w),
    }
}

/// The numbers recorded of an edit: its reply, preceded by their count, and the page's digest afterwards.
fn edit_answers(page: &mut Page, edit: &Edit) -> Vec<u64> {
    let reply = edit.apply(page);
    let count = reply.len() as u64;
    [&[count], &reply[..], &[digest(page)]].concat()
}

/// An edit with these answers, as one line without its LF.
fn edit_line(edit: &Edit, answers: &[u64]) -> String {
    let Edit { a, b, w } = edit;
    let mut line = format!("e {a} {b} {}", inserted(w));
    for answer in answers {
        line += &format!(" {answer}");
    }
    line
}

/// A fresh page, as one line without its LF.
fn page_line(history: &History) -> String {
    let lengths = history.lengths;
    format!(
        "p {} {} {} {}",
        lengths.text, lengths.spare, lengths.lines, lengths.tokens
    )
}

/// A fresh page and its edits, as lines without their LFs.
pub fn history_cases(history: &History) -> Vec<String> {
    let mut page = history.page();
    let mut cases = vec![page_line(history)];
    let edits = history.edits.iter();
    cases.extend(edits.map(|edit| edit_line(edit, &edit_answers(&mut page, edit))));
    cases
}

/// A page, mostly unfaithful, and an edit of it, as one line without its LF; the answer is free.
pub fn free_case(free: &FreeEdit) -> String {
    let FreeEdit { page, edit } = free;
    [
        format!("{} {}", hex(&page.text), hex(&page.spare)),
        format!("{} {} {}", page.n, page.m, page.k),
        group(&page.lines),
        group(&page.tokens),
        format!("{} {} {}", edit.a, edit.b, hex(&edit.w)),
    ]
    .join(" ")
}

/// The calls around a page, with their replies, as one line without its LF.
pub fn call_case(calls: &Calls) -> String {
    let Calls {
        page,
        offset,
        token,
        names,
    } = calls;
    [
        hex(&page.text),
        format!("{offset} {}", group(&panel_column(&page.text, *offset))),
        hex(&scan_output(&page.text)),
        format!("{} {} {}", page.n, page.m, page.k),
        group(&page.lines),
        group(&page.tokens),
        group(&page.check()),
        format!(
            "{token} {names} {}",
            group(&page.token_text(*token, *names))
        ),
        group(&walk_step(&page.tokens, *token)),
    ]
    .join(" ")
}
