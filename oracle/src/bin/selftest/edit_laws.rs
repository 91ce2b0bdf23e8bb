//! What holds of every edit in every list: the outcome, the buffers, the count, the moved records.

use crate::tally::Tally;
use oracle::generate::edits::{Edit, History};
use oracle::page::Page;
use oracle::reading::{fresh_reading, Records, Reply, LINE_WORDS, MAX_BYTES, TOKEN_WORDS};

/// One edit of a page: the text on paper before and after, the page before and after, the reply.
struct Step<'a> {
    edit: &'a Edit,
    old_text: &'a [u8],
    new_text: &'a [u8],
    before: &'a Page,
    after: &'a Page,
    reply: &'a Reply,
}

/// "On paper the text starts empty; an accepted edit turns it into ...; a refused one leaves it."
pub fn check(tally: &mut Tally, history: &History) {
    let mut page = history.page();
    let mut paper: Vec<u8> = Vec::new();
    for edit in &history.edits {
        let before = page.clone();
        let reply = edit.apply(&mut page);
        let edited = edited(&paper, edit);
        tally.note_reply(&reply);
        let step = Step {
            edit,
            old_text: &paper,
            new_text: edited.as_deref().unwrap_or_default(),
            before: &before,
            after: &page,
            reply: &reply,
        };
        tally.expect(step.holds(edited.is_some()), || {
            format!(
                "{edit:?} on {:?} gave {reply:?}",
                String::from_utf8_lossy(&paper)
            )
        });
        if reply[0] == 0 {
            paper = edited.unwrap_or_default();
        }
    }
}

/// "its first a bytes, w and its bytes from b on", for a proper range.
fn edited(paper: &[u8], edit: &Edit) -> Option<Vec<u8>> {
    let (a, b) = (usize::try_from(edit.a).ok()?, usize::try_from(edit.b).ok()?);
    paper.get(a..b)?;
    Some([&paper[..a], &edit.w, &paper[b..]].concat())
}

impl Step<'_> {
    /// Every law of one edit.
    fn holds(&self, proper: bool) -> bool {
        let accepted = self.reply[0] == 0;
        let due = proper && self.long_enough() && fresh_reading(self.new_text).is_ok();
        let faithful = self.after.check() == [0, 1];
        accepted == due
            && faithful
            && match accepted {
                true => self.acceptance_holds(),
                false => self.refusal_holds(),
            }
    }

    /// "Buffers are long enough if ..."
    fn long_enough(&self) -> bool {
        let length = self.new_text.len();
        let records = fresh_reading(self.new_text).is_ok_and(|reading| {
            reading.lines.len() <= self.before.lines.len()
                && reading.tokens.len() <= self.before.tokens.len()
        });
        length <= MAX_BYTES
            && length <= self.before.text.len()
            && length <= self.before.spare.len()
            && records
    }

    /// "text and spare begin with the n' edited bytes, records ..., all later ... untouched"
    fn acceptance_holds(&self) -> bool {
        let (before, after, n) = (self.before, self.after, self.new_text.len());
        let (Ok(old), Ok(new)) = (fresh_reading(self.old_text), fresh_reading(self.new_text))
        else {
            return false;
        };
        let count = self.reply[4] as usize;
        let header = [0, new.n, new.m, new.k].map(u64::from);
        let (line_words, token_words) = (new.lines.len(), new.tokens.len());
        self.reply[..4] == header
            && after.text == [self.new_text, &before.text[n..]].concat()
            && after.spare == [self.new_text, &before.spare[n..]].concat()
            && after.lines == [&new.lines, &before.lines[line_words..]].concat()
            && after.tokens == [&new.tokens, &before.tokens[token_words..]].concat()
            && count == self.counted()
            && self.head_kept(&old, &new)
            && self.tail_moved(&old, &new, self.begin() + count)
    }

    /// "A refusal leaves every buffer untouched, with one exception: ... the spare"
    fn refusal_holds(&self) -> bool {
        let (before, after) = (self.before, self.after);
        let early = matches!(self.reply[..], [7] | [6] | [1, _] | [5, 1 | 2, _]);
        let mut expected = before.clone();
        if !early {
            expected.spare[..self.new_text.len()].copy_from_slice(self.new_text);
        }
        *after == expected
    }

    /// "Re-reading begins at the line after as many LFs as the first a bytes hold."
    fn begin(&self) -> usize {
        feeds(&self.old_text[..self.edit.a as usize])
    }

    /// "stops at the first line start beyond a + |w| ...", found byte by byte.
    fn counted(&self) -> usize {
        let (a, b, w) = (
            self.edit.a as usize,
            self.edit.b as usize,
            self.edit.w.len(),
        );
        let (old, new) = (self.old_text, self.new_text);
        let stops = |p: &usize| {
            let q = b + (p - a - w);
            new[p - 1] == b'\n' && state_after(&new[..*p]) == state_after(&old[..q])
        };
        let stop = (a + w + 1..new.len()).find(stops);
        let lines = new.split_inclusive(|byte| *byte == b'\n').count();
        stop.map_or(lines, |p| feeds(&new[..p])) - self.begin()
    }

    /// The records before the line where re-reading begins are the old ones.
    fn head_kept(&self, old: &Records, new: &Records) -> bool {
        let lines = self.begin() * LINE_WORDS;
        let tokens = new.line(self.begin())[1] as usize * TOKEN_WORDS;
        old.lines[..lines] == new.lines[..lines]
            && old.tokens[..tokens] == new.tokens[..tokens]
            && old.line(self.begin()) == new.line(self.begin())
    }

    /// The records from the stop on are the old ones, moved in bytes, lines and tokens.
    fn tail_moved(&self, old: &Records, new: &Records, stop: usize) -> bool {
        let n = new.n.wrapping_sub(old.n);
        let m = new.m.wrapping_sub(old.m);
        let k = new.k.wrapping_sub(old.k);
        if stop == new.m as usize {
            return true;
        }
        let old_stop = stop + old.m as usize - new.m as usize;
        let moved_line = |(at, word): (usize, &u32)| match at % LINE_WORDS {
            0 => word.wrapping_add(n),
            1 => word.wrapping_add(k),
            _ => *word,
        };
        let moved_token = |(at, word): (usize, &u32)| match at % TOKEN_WORDS {
            1 => word.wrapping_add(n),
            3 => word.wrapping_add(m),
            _ => *word,
        };
        let first = |reading: &Records, line: usize| reading.line(line)[1] as usize * TOKEN_WORDS;
        let lines = old.lines[old_stop * LINE_WORDS..]
            .iter()
            .enumerate()
            .map(moved_line);
        let tokens = old.tokens[first(old, old_stop)..]
            .iter()
            .enumerate()
            .map(moved_token);
        lines.eq(new.lines[stop * LINE_WORDS..].iter().copied())
            && tokens.eq(new.tokens[first(new, stop)..].iter().copied())
    }
}

/// The number of LFs.
fn feeds(bytes: &[u8]) -> usize {
    bytes.iter().filter(|byte| **byte == b'\n').count()
}

/// The state that a reading of this text ends with.
fn state_after(text: &[u8]) -> Option<Vec<u32>> {
    let reading = fresh_reading(text).ok()?;
    Some(reading.state(reading.m as usize).to_vec())
}
