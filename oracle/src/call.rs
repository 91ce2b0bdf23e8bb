//! One call of a C function: what it is lent by kind, its model, and the line that records it.

use crate::format::{digest_of, group, hex};
use crate::numbers::number_parts;
use crate::page::{byte_value, panel_column, read_into, report, walk_step, Lengths, Page};
use crate::reading::Reply;
use std::mem;

/// A function's name without `lexpage_`, and its arguments in the order of `lexpage.h`: numbers, buffers of bytes and buffers of words,
/// each by themselves.
#[derive(Debug, Clone, PartialEq, Eq)]
pub struct Call {
    pub name: &'static str,
    pub numbers: Vec<u64>,
    pub bytes: Vec<Vec<u8>>,
    pub words: Vec<Vec<u32>>,
}

impl Call {
    /// A call that is lent nothing yet.
    pub fn of(name: &'static str) -> Call {
        Call {
            name,
            numbers: Vec::new(),
            bytes: Vec::new(),
            words: Vec::new(),
        }
    }

    /// With this number too.
    pub fn number(mut self, number: impl Into<u64>) -> Call {
        self.numbers.push(number.into());
        self
    }

    /// With these bytes too.
    pub fn bytes(mut self, bytes: &[u8]) -> Call {
        self.bytes.push(bytes.to_vec());
        self
    }

    /// With these words too.
    pub fn words(mut self, words: &[u32]) -> Call {
        self.words.push(words.to_vec());
        self
    }

    /// With the header, the text and the records of a page too.
    pub fn page(self, page: &Page) -> Call {
        let header = self.number(page.n).number(page.m).number(page.k);
        header
            .bytes(&page.text)
            .words(&page.lines)
            .words(&page.tokens)
    }

    /// The page that the call is lent, with this spare.
    fn lent_page(&self, spare: &[u8]) -> Page {
        let [n, m, k] = [0, 1, 2].map(|at| self.numbers[at] as u32);
        Page {
            n,
            m,
            k,
            text: self.bytes[0].clone(),
            spare: spare.to_vec(),
            lines: self.words[0].clone(),
            tokens: self.words[1].clone(),
        }
    }

    /// An edit of the page that the call is lent.
    fn edit(&mut self) -> Reply {
        let mut page = self.lent_page(&self.bytes[1]);
        let reply = page.edit(self.numbers[3], self.numbers[4], &self.bytes[2]);
        self.bytes[0] = page.text;
        self.bytes[1] = page.spare;
        self.words = vec![page.lines, page.tokens];
        reply
    }

    /// The reply; the buffers become what the call leaves.
    pub fn answer(&mut self) -> Reply {
        let Call {
            numbers,
            bytes,
            words,
            ..
        } = self;
        match (self.name, &mut bytes[..], &mut words[..]) {
            ("panel_column", [text], _) => panel_column(text, numbers[0]),
            ("byte_value", [text], _) => byte_value(text),
            ("number_parts", [text], _) => number_parts(text),
            ("report", [text, out], _) => report(text, out),
            ("walk_step", _, [tokens]) => walk_step(tokens, numbers[0]),
            ("token_text", [_, names], _) => {
                let names = names.len();
                self.lent_page(&[]).token_text(self.numbers[3], names)
            }
            ("check", ..) => self.lent_page(&[]).check(),
            ("read", [text], [lines, tokens]) => read_into(text, lines, tokens),
            ("fresh", _, [lines]) => fresh(lines),
            ("edit", ..) => self.edit(),
            (name, ..) => panic!("no model of {name} on these buffers"),
        }
    }

    /// The numbers recorded of the call: its reply, preceded by their count, and a digest of each buffer afterwards.
    pub fn answers(&self) -> Vec<u64> {
        let mut after = self.clone();
        let reply = after.answer();
        let bytes = after.bytes.iter();
        let bytes = bytes.map(|buffer| digest_of(buffer.iter().copied()));
        let words = after.words.iter();
        let words =
            words.map(|buffer| digest_of(buffer.iter().flat_map(|word| word.to_le_bytes())));
        let count = reply.len() as u64;
        let digests: Vec<u64> = bytes.chain(words).collect();
        [&[count], &reply[..], &digests].concat()
    }

    /// The call with these answers, as one line without its LF.
    pub fn line(&self, answers: &[u64]) -> String {
        let bytes = self.bytes.iter().map(|buffer| byte_runs(buffer));
        let words = self.words.iter().map(|buffer| word_runs(buffer));
        let answers = answers.iter().map(u64::to_string);
        [
            self.name.to_string(),
            group(&self.numbers),
            group(&bytes.collect::<Vec<_>>()),
            group(&words.collect::<Vec<_>>()),
            answers.collect::<Vec<_>>().join(" "),
        ]
        .join(" ")
    }
}

/// The fresh page on these line words.
fn fresh(lines: &mut Vec<u32>) -> Reply {
    let mut page = Page::with_lengths(Lengths {
        text: 0,
        spare: 0,
        lines: 0,
        tokens: 0,
    });
    mem::swap(lines, &mut page.lines);
    let reply = page.fresh();
    mem::swap(lines, &mut page.lines);
    reply
}

/// The fewest equal bytes that are spelled as one of them and their number.
const RUN: usize = 8;

/// Bytes in hex, many equal ones as one of them, `*` and their number; a comma between such runs.
fn byte_runs(bytes: &[u8]) -> String {
    let mut runs = Vec::new();
    let mut single: Vec<u8> = Vec::new();
    for equal in bytes.chunk_by(|a, b| a == b) {
        if equal.len() < RUN {
            single.extend(equal);
            continue;
        }
        if !single.is_empty() {
            runs.push(hex(&mem::take(&mut single)));
        }
        runs.push(format!("{:02x}*{}", equal[0], equal.len()));
    }
    if !single.is_empty() || runs.is_empty() {
        runs.push(hex(&single));
    }
    runs.join(",")
}

/// Words in decimal with commas between, equal ones as one of them, `*` and their number; `-` when there is none.
fn word_runs(words: &[u32]) -> String {
    let run = |equal: &[u32]| match equal {
        [word] => word.to_string(),
        _ => format!("{}*{}", equal[0], equal.len()),
    };
    let runs: Vec<String> = words.chunk_by(|a, b| a == b).map(run).collect();
    if runs.is_empty() {
        return "-".to_string();
    }
    runs.join(",")
}
