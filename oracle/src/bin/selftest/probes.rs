//! The state before a line, found by what the original does with lines put after it.

use oracle::original::types::TokenKind;
use oracle::original::{self, lexer};
use oracle::reading::STATE_WORDS;

/// The kinds of the tokens on the text's last line, which has no LF; none where the text fails.
fn last_line(text: &str) -> Option<Vec<u32>> {
    let number = text.matches('\n').count() as u32 + 1;
    let tokens = original::tokens(text).ok()?;
    let of_line = tokens.iter().filter(|token| token[3] == number);
    Some(of_line.map(|token| token[0]).collect())
}

/// "Wider: one Indent": whether a line of this width opens a level.
fn opens(text: &str, width: usize) -> bool {
    let line = format!("{text}{}x", " ".repeat(width));
    last_line(&line).is_some_and(|kinds| kinds.contains(&(TokenKind::Indent as u32)))
}

/// Whether a line of this width is at an open level: it neither fails nor opens one.
fn is_open(text: &str, width: usize) -> bool {
    let line = format!("{text}{}x", " ".repeat(width));
    last_line(&line).is_some_and(|kinds| !kinds.contains(&(TokenKind::Indent as u32)))
}

/// "with bracket depth 0 and no arrow carried": brackets closed, the arrow cleared.
fn closed(text: &str, depth: usize) -> String {
    match depth {
        0 => format!("{text}#\n"),
        _ => format!("{text}{}\n", ")".repeat(depth)),
    }
}

/// "depth, arrow 0 or 1, ... widths" at the end of a text that is empty or ends with LF.
///
/// Inside brackets an arrow has no effect, so there it cannot be found and is none.
pub fn state(text: &str) -> (u32, Option<u32>, Vec<u32>) {
    let widest = text.lines().map(lexer::indent_width).max().unwrap_or(0) as usize;
    let depth = (0..)
        .find(|depth| opens(&closed(text, *depth), widest + 1))
        .unwrap_or(0);
    let arrow = (depth == 0).then(|| u32::from(!opens(text, widest + 1)));
    let closed = closed(text, depth);
    let widths = (1..=widest).filter(|width| is_open(&closed, *width));
    (
        depth as u32,
        arrow,
        widths.map(|width| width as u32).collect(),
    )
}

/// Whether recorded state words agree with what the original shows.
pub fn agrees(text: &str, words: &[u32]) -> bool {
    let (depth, arrow, widths) = state(text);
    let mut shown = vec![0; STATE_WORDS];
    shown[0] = depth;
    shown[1] = arrow.unwrap_or(words[1]);
    shown[2] = widths.len() as u32;
    shown[3..3 + widths.len()].copy_from_slice(&widths);
    shown == words
}
