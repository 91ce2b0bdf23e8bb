//! Cases read back from their lines, and those that are kept in the folder `kept`.

use crate::case::Case;
use crate::generate::calls::Calls;
use crate::generate::edits::{Edit, History};
use crate::generate::free::FreeEdit;
use crate::page::{Lengths, Page};

/// The kept lists, by name.
const KEPT: [(&str, &str); 4] = [
    ("texts", include_str!("../kept/texts")),
    ("edits", include_str!("../kept/edits")),
    ("calls", include_str!("../kept/calls")),
    ("free", include_str!("../kept/free")),
];

/// The lines of a kept list.
pub fn kept_lines(list: &str) -> &'static str {
    let named = KEPT.iter().find(|(name, _)| *name == list);
    named.map_or("", |(_, lines)| lines)
}

/// The cases of a kept list.
pub fn kept(list: &str) -> Vec<Case> {
    read_back(list, kept_lines(list)).expect("a kept list in the recorded format")
}

/// The fields of a line, read one after another.
struct Fields<'a>(std::str::Split<'a, char>);

impl Fields<'_> {
    /// A number.
    fn number<T: std::str::FromStr>(&mut self) -> Option<T> {
        self.0.next()?.parse().ok()
    }

    /// Numbers, preceded by their count.
    fn group<T: std::str::FromStr>(&mut self) -> Option<Vec<T>> {
        let count: usize = self.number()?;
        (0..count).map(|_| self.number()).collect()
    }

    /// A byte string in hex, `-` when empty.
    fn bytes(&mut self) -> Option<Vec<u8>> {
        let field = self.0.next()?;
        if field == "-" {
            return Some(Vec::new());
        }
        let pair = |at: usize| u8::from_str_radix(field.get(at..at + 2)?, 16).ok();
        (0..field.len()).step_by(2).map(pair).collect()
    }
}

/// p TEXT-LENGTH SPARE-LENGTH LINES-LENGTH TOKENS-LENGTH
fn lengths(mut fields: Fields) -> Option<Lengths> {
    Some(Lengths {
        text: fields.number()?,
        spare: fields.number()?,
        lines: fields.number()?,
        tokens: fields.number()?,
    })
}

/// a b W
fn edit(fields: &mut Fields) -> Option<Edit> {
    Some(Edit {
        a: fields.number()?,
        b: fields.number()?,
        w: fields.bytes()?,
    })
}

/// e a b W ..., added to the list before it.
fn add_edit(histories: &mut [Case], mut fields: Fields) -> Option<()> {
    let Some(Case::Edits(history)) = histories.last_mut() else {
        return None;
    };
    history.edits.push(edit(&mut fields)?);
    Some(())
}

/// Lists of edits, one after another.
fn histories(lines: &str) -> Option<Vec<Case>> {
    let mut histories = Vec::new();
    for line in lines.lines() {
        let mut fields = Fields(line.split(' '));
        match fields.0.next()? {
            "p" => histories.push(Case::Edits(History {
                lengths: lengths(fields)?,
                edits: Vec::new(),
            })),
            "e" => add_edit(&mut histories, fields)?,
            _ => return None,
        }
    }
    Some(histories)
}

/// TEXT OFFSET c column-reply SCAN n m k c lines c tokens c check-reply TOKEN NAMES ...
fn call(line: &str) -> Option<Case> {
    let mut fields = Fields(line.split(' '));
    let text = fields.bytes()?;
    let offset = fields.number()?;
    fields.group::<u64>()?;
    fields.bytes()?;
    let page = Page {
        text,
        n: fields.number()?,
        m: fields.number()?,
        k: fields.number()?,
        lines: fields.group()?,
        tokens: fields.group()?,
        spare: Vec::new(),
    };
    fields.group::<u64>()?;
    Some(Case::Calls(Calls {
        page,
        offset,
        token: fields.number()?,
        names: fields.number()?,
    }))
}

/// TEXT SPARE n m k c lines c tokens a b W
fn free(line: &str) -> Option<Case> {
    let mut fields = Fields(line.split(' '));
    let page = Page {
        text: fields.bytes()?,
        spare: fields.bytes()?,
        n: fields.number()?,
        m: fields.number()?,
        k: fields.number()?,
        lines: fields.group()?,
        tokens: fields.group()?,
    };
    let edit = edit(&mut fields)?;
    Some(Case::Free(FreeEdit { page, edit }))
}

/// The cases whose lines these are, in the list of this name; their answers are passed over.
pub fn read_back(list: &str, lines: &str) -> Option<Vec<Case>> {
    let text = |line: &str| Fields(line.split(' ')).bytes().map(Case::Text);
    match list {
        "texts" => lines.lines().map(text).collect(),
        "edits" => histories(lines),
        "calls" => lines.lines().map(call).collect(),
        "free" => lines.lines().map(free).collect(),
        _ => None,
    }
}
