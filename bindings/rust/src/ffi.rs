//! Each function of `include/lexpage.h` as a safe function on slices. All unsafe code of the crate is here.
//!
//! What the header asks of a caller holds in each call for the same reasons. A slice's pointer is non-null and aligned,
//! also where the slice is empty, and is valid for its length. A slice that is lent to be written comes as `&mut`, so
//! none of the others overlaps it; those that come as `&` are only read. The reply is a local array of 16 words.
use crate::declarations::*;
use crate::record::Header;

// The library is for x86-64: its lengths and offsets are words of 64 bits.
const _: () = assert!(usize::BITS == 64);

/// The words that a call wrote: 0 and the values of an acceptance, or the number and the values of a refusal.
pub struct Reply {
    words: [u64; 16],
    count: usize,
}

impl Reply {
    fn of(call: impl FnOnce(*mut u64) -> u64) -> Reply {
        let mut words = [0; 16];
        let count = call(words.as_mut_ptr()) as usize;
        Reply { words, count }
    }

    pub fn words(&self) -> &[u64] {
        &self.words[..self.count]
    }
}

pub fn fresh(lines: &mut [u32]) -> Reply {
    // SAFETY: one slice and the reply's array, as the module says.
    Reply::of(|reply| unsafe { lexpage_fresh(lines.as_mut_ptr(), lines.len(), reply) })
}

pub fn read(text: &[u8], lines: &mut [u32], tokens: &mut [u32]) -> Reply {
    let (lines_len, tokens_len) = (lines.len(), tokens.len());
    let (lines, tokens) = (lines.as_mut_ptr(), tokens.as_mut_ptr());
    // SAFETY: pointers and lengths are those of three slices that do not overlap, as the module says.
    Reply::of(|reply| unsafe { lexpage_read(text.as_ptr(), text.len(), lines, lines_len, tokens, tokens_len, reply) })
}

pub fn edit(
    head: Header,
    text: &mut [u8],
    spare: &mut [u8],
    lines: &mut [u32],
    tokens: &mut [u32],
    (a, b): (usize, usize),
    w: &[u8],
) -> Reply {
    let (text_len, spare_len, lines_len, tokens_len) = (text.len(), spare.len(), lines.len(), tokens.len());
    let (text, spare, lines, tokens) = (
        text.as_mut_ptr(),
        spare.as_mut_ptr(),
        lines.as_mut_ptr(),
        tokens.as_mut_ptr(),
    );
    let (n, m, k) = (head.bytes, head.lines, head.tokens);
    let (w, w_len) = (w.as_ptr(), w.len());
    // SAFETY: pointers and lengths are those of five slices that do not overlap, as the module says. The header and the
    // range may be anything: the library tests them.
    Reply::of(|reply| unsafe {
        lexpage_edit(
            n, m, k, text, text_len, spare, spare_len, lines, lines_len, tokens, tokens_len, a, b, w, w_len, reply,
        )
    })
}

pub fn check(head: Header, text: &[u8], lines: &[u32], tokens: &[u32]) -> Reply {
    let (n, m, k) = (head.bytes, head.lines, head.tokens);
    let (text_len, lines_len, tokens_len) = (text.len(), lines.len(), tokens.len());
    let (text, lines, tokens) = (text.as_ptr(), lines.as_ptr(), tokens.as_ptr());
    // SAFETY: pointers and lengths are those of three slices that are only read, as the module says.
    Reply::of(|reply| unsafe { lexpage_check(n, m, k, text, text_len, lines, lines_len, tokens, tokens_len, reply) })
}

pub fn token_text(head: Header, text: &[u8], lines: &[u32], tokens: &[u32], i: usize, names: &[u8]) -> Reply {
    let (n, m, k) = (head.bytes, head.lines, head.tokens);
    let (text_len, lines_len, tokens_len, names_len) = (text.len(), lines.len(), tokens.len(), names.len());
    let (text, lines, tokens, names) = (text.as_ptr(), lines.as_ptr(), tokens.as_ptr(), names.as_ptr());
    // SAFETY: pointers and lengths are those of four slices that are only read, as the module says.
    Reply::of(|reply| unsafe {
        lexpage_token_text(
            n, m, k, text, text_len, lines, lines_len, tokens, tokens_len, i, names, names_len, reply,
        )
    })
}

pub fn walk_step(tokens: &[u32], next: usize) -> Reply {
    // SAFETY: one slice that is only read and the reply's array, as the module says.
    Reply::of(|reply| unsafe { lexpage_walk_step(tokens.as_ptr(), tokens.len(), next, reply) })
}

pub fn report(text: &[u8], out: &mut [u8]) -> Reply {
    // SAFETY: pointers and lengths are those of two slices that do not overlap, as the module says.
    Reply::of(|reply| unsafe { lexpage_report(text.as_ptr(), text.len(), out.as_mut_ptr(), out.len(), reply) })
}

pub fn panel_column(text: &[u8], offset: usize) -> Reply {
    // SAFETY: one slice that is only read and the reply's array, as the module says.
    Reply::of(|reply| unsafe { lexpage_panel_column(text.as_ptr(), text.len(), offset, reply) })
}

pub fn byte_value(text: &[u8]) -> Reply {
    // SAFETY: one slice that is only read and the reply's array, as the module says.
    Reply::of(|reply| unsafe { lexpage_byte_value(text.as_ptr(), text.len(), reply) })
}

pub fn number_parts(text: &[u8]) -> Reply {
    // SAFETY: one slice that is only read and the reply's array, as the module says.
    Reply::of(|reply| unsafe { lexpage_number_parts(text.as_ptr(), text.len(), reply) })
}
