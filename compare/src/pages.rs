//! The calls around a page: check, the text of a token, the walk, against the oracle's.

use crate::library::{Library, SeenPage};
use oracle::generate::calls::Calls;
use oracle::page::{panel_column, walk_step, Page, NAMES};
use oracle::reading::{LAST_KIND, TOKEN_WORDS};
use std::fmt::Arguments;

/// Nothing, or what differs.
pub type Held = Result<(), String>;

/// The reply is the one that is due.
pub fn same(what: Arguments, is: Vec<u64>, due: Vec<u64>) -> Held {
    if is == due {
        return Ok(());
    }
    Err(format!("{what} is {is:?}, should be {due:?}"))
}

/// The oracle's page, lent to a call that only reads.
fn seen(page: &Page) -> SeenPage<'_> {
    SeenPage {
        header: [page.n, page.m, page.k],
        text: &page.text,
        lines: &page.lines,
        tokens: &page.tokens,
    }
}

/// "Check: 7 for the header; otherwise yes exactly if header and records are faithful."
fn check_holds(library: &Library, page: &Page, about: &str) -> Held {
    let is = library.check(seen(page));
    same(format_args!("check{about}"), is, page.check())
}

/// Check of the page with a number of the header one higher or lower, and with one word of each kind of record changed.
fn altered_checks_hold(library: &Library, page: &Page, spot: usize) -> Held {
    let mut altered = page.clone();
    let number = match spot % 3 {
        0 => &mut altered.n,
        1 => &mut altered.m,
        _ => &mut altered.k,
    };
    *number = number.wrapping_add([1, u32::MAX][spot / 3 % 2]);
    check_holds(library, &altered, " with another header")?;
    let bit = 1 << (spot % 32);
    let line_words = 21 * (page.m as usize + 1);
    altered.clone_from(page);
    altered.lines[spot % line_words] ^= bit;
    check_holds(library, &altered, " with another line word")?;
    if page.k == 0 {
        return Ok(());
    }
    altered.clone_from(page);
    altered.tokens[spot % (TOKEN_WORDS * page.k as usize)] ^= bit;
    check_holds(library, &altered, " with another token word")
}

/// "Order: 7 (header), 6, 7 (token), 5 (names)."
fn token_text_holds(library: &Library, page: &Page, i: u64, names: usize) -> Held {
    let slice = [NAMES.as_bytes(), b"."].concat();
    let is = library.token_text(seen(page), i, &slice[..names]);
    let what = format_args!("text of token {i} with {names} names");
    same(what, is, page.token_text(i, names))
}

/// The text of every token, with names as long as they must be and one shorter, and of numbers past the last.
fn token_texts_hold(library: &Library, page: &Page) -> Held {
    let count = u64::from(page.k);
    for i in (0..=count).chain([count + 1, 1 << 32, u64::MAX]) {
        token_text_holds(library, page, i, NAMES.len())?;
        token_text_holds(library, page, i, NAMES.len() - 1)?;
    }
    token_text_holds(library, page, 0, 0)?;
    token_text_holds(library, page, 0, NAMES.len() + 1)
}

/// The text of one token whose kind, position or length is another.
fn altered_texts_hold(library: &Library, page: &Page, spot: usize) -> Held {
    let Some(token) = spot.checked_rem(page.k as usize) else {
        return Ok(());
    };
    let words = &page.tokens[TOKEN_WORDS * token..];
    let past = page.n.wrapping_sub(words[1]).wrapping_add(1);
    let changes = [
        (0, 0),
        (0, LAST_KIND - 2),
        (0, LAST_KIND - 1),
        (0, LAST_KIND),
        (0, LAST_KIND + 1),
        (0, u32::MAX),
        (1, page.n),
        (1, page.n.wrapping_add(1)),
        (1, u32::MAX),
        (2, past.wrapping_sub(1)),
        (2, past),
        (2, u32::MAX),
    ];
    for (word, value) in changes {
        let mut altered = page.clone();
        altered.tokens[TOKEN_WORDS * token + word] = value;
        for names in [NAMES.len(), NAMES.len() - 1] {
            token_text_holds(library, &altered, token as u64, names)?;
        }
    }
    Ok(())
}

/// One step of a walk.
fn step_holds(library: &Library, tokens: &[u32], next: u64) -> Held {
    let is = library.walk_step(tokens, next);
    let what = format_args!("step {next} of a walk over {} words", tokens.len());
    same(what, is, walk_step(tokens, next))
}

/// "each step gives a record and a next number one higher, or done": every step, to the end of the words and past it.
fn walk_holds(library: &Library, tokens: &[u32]) -> Held {
    let end = (tokens.len() / TOKEN_WORDS) as u64;
    for next in (0..=end + 1).chain([1 << 32, u64::MAX / 5 + 1, u64::MAX]) {
        step_holds(library, tokens, next)?;
    }
    for fewer in 1..=TOKEN_WORDS.min(tokens.len()) {
        step_holds(library, &tokens[..tokens.len() - fewer], end.max(1) - 1)?;
    }
    Ok(())
}

/// Every call around a faithful page; `spot` says which word is changed.
pub fn page_holds(library: &Library, page: &Page, spot: usize) -> Held {
    let spot = spot.wrapping_mul(7919) + page.n as usize;
    check_holds(library, page, "")?;
    altered_checks_hold(library, page, spot)?;
    token_texts_hold(library, page)?;
    altered_texts_hold(library, page, spot)?;
    walk_holds(library, &page.tokens[..TOKEN_WORDS * page.k as usize])
}

/// The calls around a page that may be unfaithful or unfit.
pub fn calls_hold(library: &Library, calls: &Calls) -> Held {
    let page = &calls.page;
    let column = library.panel_column(&page.text, calls.offset);
    let due = panel_column(&page.text, calls.offset);
    same(format_args!("the panel column"), column, due)?;
    check_holds(library, page, "")?;
    token_text_holds(library, page, calls.token, calls.names.min(19))?;
    step_holds(library, &page.tokens, calls.token)
}
