//! A page in buffers that were lent before, and the library's calls on it.

use crate::lexpage;
use crate::original::lexer;

/// The longest text.
pub const MIB: usize = 1 << 20;

/// Records that a page has room for beyond those of its text.
const MORE: usize = 64;

/// The lent buffers, the header, and the last reply.
pub struct Page {
    pub text: Vec<u8>,
    pub spare: Vec<u8>,
    pub lines: Vec<u32>,
    pub tokens: Vec<u32>,
    pub header: [u32; 3],
    pub reply: [u64; 16],
}

/// A reading of a text by itself into these buffers.
pub fn read(text: &[u8], lines: &mut [u32], tokens: &mut [u32], reply: &mut [u64; 16]) {
    unsafe {
        lexpage::lexpage_read(
            text.as_ptr(),
            text.len(),
            lines.as_mut_ptr(),
            lines.len(),
            tokens.as_mut_ptr(),
            tokens.len(),
            reply.as_mut_ptr(),
        );
    }
}

/// The message of a text's failure, at the front of out.
pub fn report(text: &[u8], out: &mut [u8], reply: &mut [u64; 16]) {
    unsafe {
        lexpage::lexpage_report(
            text.as_ptr(),
            text.len(),
            out.as_mut_ptr(),
            out.len(),
            reply.as_mut_ptr(),
        );
    }
}

/// The UTF-8 pass over a text, and a look at its first two bytes.
pub fn byte_value(text: &[u8], reply: &mut [u64; 16]) {
    unsafe {
        lexpage::lexpage_byte_value(text.as_ptr(), text.len(), reply.as_mut_ptr());
    }
}

/// The parts of the number at the front of a text.
pub fn number_parts(text: &[u8], reply: &mut [u64; 16]) {
    unsafe {
        lexpage::lexpage_number_parts(text.as_ptr(), text.len(), reply.as_mut_ptr());
    }
}

impl Page {
    /// The text, read, with room for some more of everything. A text that fails has room for what stands before the failure.
    pub fn new(text: &[u8]) -> Page {
        let words = lexer::lex_tokens_with_authority(std::str::from_utf8(text).unwrap());
        Page::with_room(text, words.map_or(0, |list| list.len()))
    }

    /// The same, with room for so many tokens and some more.
    pub fn with_room(text: &[u8], tokens: usize) -> Page {
        let line_feeds = text.iter().filter(|byte| **byte == b'\n').count();
        let mut page = Page {
            text: text.to_vec(),
            spare: vec![0; MIB],
            lines: vec![0; 21 * (line_feeds + 2 + MORE)],
            tokens: vec![0; 5 * (tokens + MORE)],
            header: [0; 3],
            reply: [0; 16],
        };
        page.text.resize(MIB, 0);
        page.read(text);
        page
    }

    /// Reads a text into the page's records.
    pub fn read(&mut self, text: &[u8]) {
        read(text, &mut self.lines, &mut self.tokens, &mut self.reply);
        if self.reply[0] == 0 {
            self.take_header();
        }
    }

    /// The header that the last reply gives.
    fn take_header(&mut self) {
        self.header = [1, 2, 3].map(|word| self.reply[word] as u32);
    }

    /// Bytes a..b become w; the reply says what came of it.
    pub fn edit(&mut self, a: usize, b: usize, w: &[u8]) {
        let [n, m, k] = self.header;
        unsafe {
            lexpage::lexpage_edit(
                n,
                m,
                k,
                self.text.as_mut_ptr(),
                self.text.len(),
                self.spare.as_mut_ptr(),
                self.spare.len(),
                self.lines.as_mut_ptr(),
                self.lines.len(),
                self.tokens.as_mut_ptr(),
                self.tokens.len(),
                a,
                b,
                w.as_ptr(),
                w.len(),
                self.reply.as_mut_ptr(),
            );
        }
        if self.reply[0] == 0 {
            self.take_header();
        }
    }

    /// Whether the page's records are those of a fresh reading of this text; the reply says it.
    pub fn check(&mut self, text: &[u8]) {
        let [_, m, k] = self.header;
        unsafe {
            lexpage::lexpage_check(
                text.len() as u32,
                m,
                k,
                text.as_ptr(),
                text.len(),
                self.lines.as_ptr(),
                self.lines.len(),
                self.tokens.as_ptr(),
                self.tokens.len(),
                self.reply.as_mut_ptr(),
            );
        }
    }

    /// An edit that must be accepted; how many lines were read again.
    pub fn change(&mut self, a: usize, b: usize, w: &[u8]) -> u64 {
        self.edit(a, b, w);
        assert_eq!(self.reply[0], 0, "an edit was refused");
        self.reply[4]
    }

    /// An edit that must be refused with this number.
    pub fn refused(&mut self, at: usize, w: &[u8], number: u64) {
        self.edit(at, at, w);
        assert_eq!(self.reply[0], number, "another refusal is due");
    }

    /// The page's text.
    pub fn bytes(&self) -> &[u8] {
        &self.text[..self.header[0] as usize]
    }

    /// The line and token words that the page needs.
    pub fn records(&self) -> (&[u32], &[u32]) {
        let [_, m, k] = self.header.map(|number| number as usize);
        (&self.lines[..21 * (m + 1)], &self.tokens[..5 * k])
    }
}

/// Both read the text alike: each token's kind, position, line and column, or the place of the failure.
pub fn agree(page: &Page) -> String {
    let length = page.reply[1] as usize;
    let text = match page.reply[0] {
        0 => &page.text[..length],
        _ => &page.text[..],
    };
    match lexer::lex_tokens_with_authority(std::str::from_utf8(text).unwrap()) {
        Ok(list) => {
            let [_, lines, tokens] = page.header;
            assert_eq!((page.reply[0], tokens as usize), (0, list.len()), "tokens");
            for (t, words) in list.iter().zip(page.tokens.chunks(5)) {
                let is = [words[0], words[1], words[3], words[4]];
                let due = [t.kind as u32, t.pos as u32, t.mark.line, t.mark.col];
                assert_eq!(is, due, "a token");
            }
            format!("{lines} lines, {tokens} tokens")
        }
        Err(failure) => {
            let place = (page.reply[0], page.reply[4] as usize);
            assert_eq!(place, (3, failure.error.pos), "failure");
            format!("fails in line {}", page.reply[5])
        }
    }
}
