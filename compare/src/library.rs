//! The proved library: each C function on slices, its calls counted, and its answers altered where a fault is asked for.

#[path = "../../bindings/rust/src/declarations.rs"]
#[rustfmt::skip]
mod lexpage;

use std::cell::Cell;

/// The functions, in the order of `lexpage.h`.
#[derive(Debug, Clone, Copy, PartialEq, Eq)]
pub enum Call {
    Fresh,
    Read,
    Edit,
    Check,
    TokenText,
    WalkStep,
    Report,
    Column,
    ByteValue,
    NumberParts,
}

/// Their names, in the same order.
pub const CALLS: [&str; 10] = [
    "fresh",
    "read",
    "edit",
    "check",
    "token text",
    "walk step",
    "report",
    "panel column",
    "byte value",
    "number parts",
];

/// A call that has returned: its text as it is now, its reply, and the buffers that it may write.
pub struct Done<'a> {
    pub call: Call,
    pub text: &'a [u8],
    pub reply: &'a mut Vec<u64>,
    pub bytes: &'a mut [u8],
    pub lines: &'a mut [u32],
    pub tokens: &'a mut [u32],
}

/// What makes an answer wrong.
pub type Fault = fn(&mut Done);

/// The page that a call is lent: "A header of three u32 ... text, lines and tokens (u32 words), and a spare".
pub struct LentPage<'a> {
    pub header: [u32; 3],
    pub text: &'a mut [u8],
    pub spare: &'a mut [u8],
    pub lines: &'a mut [u32],
    pub tokens: &'a mut [u32],
}

/// The page that a call only reads.
#[derive(Clone, Copy)]
pub struct SeenPage<'a> {
    pub header: [u32; 3],
    pub text: &'a [u8],
    pub lines: &'a [u32],
    pub tokens: &'a [u32],
}

/// The library, perhaps with a fault.
#[derive(Default)]
pub struct Library {
    fault: Option<Fault>,
    counts: [Cell<u64>; 10],
}

/// What the reply's words hold before a call.
const UNWRITTEN: u64 = 0x5555_5555_5555_5555;

/// The words that a call wrote; all sixteen where it wrote one past their count.
pub fn written(call: impl FnOnce(*mut u64) -> u64) -> Vec<u64> {
    let mut reply = [UNWRITTEN; 16];
    let count = call(reply.as_mut_ptr()).min(16) as usize;
    if reply[count..].iter().any(|word| *word != UNWRITTEN) {
        return reply.to_vec();
    }
    reply[..count].to_vec()
}

impl Library {
    /// The library with this fault.
    pub fn with_fault(fault: Fault) -> Library {
        Library {
            fault: Some(fault),
            ..Library::default()
        }
    }

    /// How often each function was called.
    pub fn counts(&self) -> [u64; 10] {
        self.counts.each_ref().map(Cell::get)
    }

    /// Counts the call, and alters its answer where a fault is asked for.
    fn done(&self, mut done: Done) {
        let count = &self.counts[done.call as usize];
        count.set(count.get() + 1);
        if let Some(fault) = self.fault {
            fault(&mut done);
        }
    }

    /// The same for a call that writes nothing but its reply.
    fn answered(&self, call: Call, text: &[u8], mut reply: Vec<u64>) -> Vec<u64> {
        self.done(Done {
            call,
            text,
            reply: &mut reply,
            bytes: &mut [],
            lines: &mut [],
            tokens: &mut [],
        });
        reply
    }

    /// The fresh page.
    pub fn fresh(&self, lines: &mut [u32]) -> Vec<u64> {
        let mut reply = written(|reply| unsafe {
            lexpage::lexpage_fresh(lines.as_mut_ptr(), lines.len(), reply)
        });
        self.done(Done {
            call: Call::Fresh,
            text: &[],
            reply: &mut reply,
            bytes: &mut [],
            lines,
            tokens: &mut [],
        });
        reply
    }

    /// A reading of a text by itself.
    pub fn read(&self, text: &[u8], lines: &mut [u32], tokens: &mut [u32]) -> Vec<u64> {
        let mut reply = written(|reply| unsafe {
            lexpage::lexpage_read(
                text.as_ptr(),
                text.len(),
                lines.as_mut_ptr(),
                lines.len(),
                tokens.as_mut_ptr(),
                tokens.len(),
                reply,
            )
        });
        self.done(Done {
            call: Call::Read,
            text,
            reply: &mut reply,
            bytes: &mut [],
            lines,
            tokens,
        });
        reply
    }

    /// An edit of a page.
    pub fn edit(&self, page: LentPage, a: u64, b: u64, w: &[u8]) -> Vec<u64> {
        let [n, m, k] = page.header;
        let mut reply = written(|reply| unsafe {
            lexpage::lexpage_edit(
                n,
                m,
                k,
                page.text.as_mut_ptr(),
                page.text.len(),
                page.spare.as_mut_ptr(),
                page.spare.len(),
                page.lines.as_mut_ptr(),
                page.lines.len(),
                page.tokens.as_mut_ptr(),
                page.tokens.len(),
                a as usize,
                b as usize,
                w.as_ptr(),
                w.len(),
                reply,
            )
        });
        let length = if reply[0] == 0 { reply[1] } else { n.into() };
        self.done(Done {
            call: Call::Edit,
            text: &page.text[..page.text.len().min(length as usize)],
            reply: &mut reply,
            bytes: page.spare,
            lines: page.lines,
            tokens: page.tokens,
        });
        reply
    }

    /// Whether a page is faithful.
    pub fn check(&self, page: SeenPage) -> Vec<u64> {
        let [n, m, k] = page.header;
        let reply = written(|reply| unsafe {
            lexpage::lexpage_check(
                n,
                m,
                k,
                page.text.as_ptr(),
                page.text.len(),
                page.lines.as_ptr(),
                page.lines.len(),
                page.tokens.as_ptr(),
                page.tokens.len(),
                reply,
            )
        });
        self.answered(Call::Check, page.text, reply)
    }

    /// Where the text of token i stands.
    pub fn token_text(&self, page: SeenPage, i: u64, names: &[u8]) -> Vec<u64> {
        let [n, m, k] = page.header;
        let reply = written(|reply| unsafe {
            lexpage::lexpage_token_text(
                n,
                m,
                k,
                page.text.as_ptr(),
                page.text.len(),
                page.lines.as_ptr(),
                page.lines.len(),
                page.tokens.as_ptr(),
                page.tokens.len(),
                i as usize,
                names.as_ptr(),
                names.len(),
                reply,
            )
        });
        self.answered(Call::TokenText, page.text, reply)
    }

    /// One step of a walk over tokens.
    pub fn walk_step(&self, tokens: &[u32], next: u64) -> Vec<u64> {
        let reply = written(|reply| unsafe {
            lexpage::lexpage_walk_step(tokens.as_ptr(), tokens.len(), next as usize, reply)
        });
        self.answered(Call::WalkStep, &[], reply)
    }

    /// The message of a text's failure.
    pub fn report(&self, text: &[u8], out: &mut [u8]) -> Vec<u64> {
        let mut reply = written(|reply| unsafe {
            lexpage::lexpage_report(
                text.as_ptr(),
                text.len(),
                out.as_mut_ptr(),
                out.len(),
                reply,
            )
        });
        self.done(Done {
            call: Call::Report,
            text,
            reply: &mut reply,
            bytes: out,
            lines: &mut [],
            tokens: &mut [],
        });
        reply
    }

    /// The panel column of an offset.
    pub fn panel_column(&self, text: &[u8], offset: u64) -> Vec<u64> {
        let reply = written(|reply| unsafe {
            lexpage::lexpage_panel_column(text.as_ptr(), text.len(), offset as usize, reply)
        });
        self.answered(Call::Column, text, reply)
    }

    /// The value of a byte literal.
    pub fn byte_value(&self, text: &[u8]) -> Vec<u64> {
        let reply = written(|reply| unsafe {
            lexpage::lexpage_byte_value(text.as_ptr(), text.len(), reply)
        });
        self.answered(Call::ByteValue, text, reply)
    }

    /// The parts of the number at a text's front; lent to be written, so that a written text can be seen.
    pub fn number_parts(&self, text: &mut [u8]) -> Vec<u64> {
        let given = text.to_vec();
        let mut reply = written(|reply| unsafe {
            lexpage::lexpage_number_parts(text.as_mut_ptr(), text.len(), reply)
        });
        self.done(Done {
            call: Call::NumberParts,
            text: &given,
            reply: &mut reply,
            bytes: text,
            lines: &mut [],
            tokens: &mut [],
        });
        reply
    }
}
