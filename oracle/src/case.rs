//! A case: one input, with the lines that record it and its answers.

use crate::format::{call_case, free_case, history_cases, text_case};
use crate::generate::calls::{calls, Calls};
use crate::generate::edits::{history, script_history, History};
use crate::generate::free::{free_edit, FreeEdit};
use crate::generate::{numbers, texts, Random};

/// A text by itself, a list of edits from the fresh page on, a page with calls around it, or an edit of an unfaithful page.
#[derive(Debug, Clone, PartialEq, Eq)]
pub enum Case {
    Text(Vec<u8>),
    Edits(History),
    Calls(Calls),
    Free(FreeEdit),
}

/// The most edits of a generated list.
const MOST_EDITS: usize = 10;

/// The most small changes in a generated script.
const MOST_CHANGES: usize = 40;

impl Case {
    /// A generated case of the list of this name.
    pub fn generated(random: &mut Random, list: &str) -> Option<Case> {
        let case = match list {
            "texts" => Case::Text(texts::small(random)),
            "long" => Case::Text(texts::long(random)),
            "numbers" => Case::Text(numbers::number(random)),
            "calls" => Case::Calls(calls(random)),
            "free" => Case::Free(free_edit(random)),
            "edits" => {
                let length = 1 + random.below(MOST_EDITS);
                Case::Edits(history(random, length))
            }
            "scripts" => {
                let changes = 1 + random.below(MOST_CHANGES);
                Case::Edits(script_history(random, changes))
            }
            _ => return None,
        };
        Some(case)
    }

    /// The case with its answers, as lines without their LFs.
    pub fn lines(&self) -> Vec<String> {
        match self {
            Case::Text(text) => vec![text_case(text)],
            Case::Edits(history) => history_cases(history),
            Case::Calls(calls) => vec![call_case(calls)],
            Case::Free(free) => vec![free_case(free)],
        }
    }

    /// The name of the list that the lines belong to.
    pub fn list(&self) -> &'static str {
        match self {
            Case::Text(_) => "texts",
            Case::Edits(_) => "edits",
            Case::Calls(_) => "calls",
            Case::Free(_) => "free",
        }
    }
}
