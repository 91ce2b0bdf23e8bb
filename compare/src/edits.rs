//! Lists of edits from the fresh page on, against the oracle's page; the fresh page, and texts at the limit.

use crate::lent::{Lent, BYTE, WORD};
use crate::library::{LentPage, Library};
use crate::pages::{page_holds, same, Held};
use crate::texts::number_parts_hold;
use oracle::generate::edits::{each_within, Edit, History};
use oracle::generate::free::FreeEdit;
use oracle::page::{byte_value, panel_column, read_into, report, Lengths, Page};
use oracle::reading::{LINE_WORDS, MAX_BYTES, TOKEN_WORDS};

/// A page in lent buffers.
struct Buffers {
    header: [u32; 3],
    text: Lent<u8>,
    spare: Lent<u8>,
    lines: Lent<u32>,
    tokens: Lent<u32>,
}

impl Buffers {
    /// What the oracle's page holds.
    fn of(page: &Page) -> Buffers {
        Buffers {
            header: [page.n, page.m, page.k],
            text: Lent::holding(&page.text, BYTE),
            spare: Lent::holding(&page.spare, BYTE),
            lines: Lent::holding(&page.lines, WORD),
            tokens: Lent::holding(&page.tokens, WORD),
        }
    }

    /// An edit with this header.
    fn edit(&mut self, library: &Library, header: [u32; 3], edit: &Edit) -> Vec<u64> {
        let page = LentPage {
            header,
            text: self.text.items_mut(),
            spare: self.spare.items_mut(),
            lines: self.lines.items_mut(),
            tokens: self.tokens.items_mut(),
        };
        library.edit(page, edit.a, edit.b, &edit.w)
    }

    /// The page in these buffers.
    fn page(&self) -> Page {
        let [n, m, k] = self.header;
        Page {
            n,
            m,
            k,
            text: self.text.items().to_vec(),
            spare: self.spare.items().to_vec(),
            lines: self.lines.items().to_vec(),
            tokens: self.tokens.items().to_vec(),
        }
    }

    /// Every buffer whole is that of the oracle's page.
    fn hold(&self, page: &Page) -> Held {
        self.text.holds("text", &page.text)?;
        self.spare.holds("spare", &page.spare)?;
        self.lines.holds("lines", &page.lines)?;
        self.tokens.holds("tokens", &page.tokens)
    }
}

/// "7: header needs more text, line words or token words than lent": nothing is touched.
fn unfit_refused(library: &Library, buffers: &mut Buffers, page: &Page, edit: &Edit) -> Held {
    let least = [
        page.text.len() + 1,
        page.lines.len() / LINE_WORDS,
        page.tokens.len() / TOKEN_WORDS + 1,
    ];
    for (which, least) in least.into_iter().enumerate() {
        for number in [least as u32, u32::MAX] {
            let mut header = buffers.header;
            header[which] = number;
            let is = buffers.edit(library, header, edit);
            same(format_args!("an edit of header {header:?}"), is, vec![7])?;
        }
    }
    buffers.hold(page)
}

/// One edit: the reply, every buffer whole, and the calls around the page that it leaves.
fn edit_holds(
    library: &Library,
    buffers: &mut Buffers,
    page: &mut Page,
    edit: &Edit,
    number: usize,
) -> Held {
    unfit_refused(library, buffers, page, edit)?;
    let due = edit.apply(page);
    let is = buffers.edit(library, buffers.header, edit);
    same(format_args!("the reply"), is, due)?;
    buffers.hold(page)?;
    buffers.header = [page.n, page.m, page.k];
    page_holds(library, page, number)
}

/// The fresh page on these buffers, in the library and in the oracle.
fn fresh_holds(library: &Library, lengths: Lengths) -> Result<(Buffers, Page), String> {
    let mut page = Page::with_lengths(lengths);
    let mut buffers = Buffers::of(&page);
    let is = library.fresh(buffers.lines.items_mut());
    same(format_args!("the fresh page"), is, page.fresh())?;
    buffers.hold(&page)?;
    Ok((buffers, page))
}

/// Every edit of a list, from the fresh page on.
pub fn history_holds(library: &Library, history: &History) -> Held {
    let (mut buffers, mut page) = fresh_holds(library, history.lengths)?;
    for (number, edit) in history.edits.iter().enumerate() {
        edit_holds(library, &mut buffers, &mut page, edit, number)
            .map_err(|what| format!("edit {}: {what}", number + 1))?;
    }
    Ok(())
}

/// An edit of a page that may be unfaithful: the reply and the buffers are among those that document 01 allows.
pub fn free_edit_holds(library: &Library, free: &FreeEdit) -> Held {
    let mut buffers = Buffers::of(&free.page);
    let reply = buffers.edit(library, buffers.header, &free.edit);
    let after = buffers.page();
    buffers.hold(&after)?;
    if free.allows(&after, &reply) {
        return Ok(());
    }
    Err(format!("not allowed, the buffers or the reply {reply:?}"))
}

/// "it needs 21": the fresh page with 0 to 22 line words.
pub fn fresh_pages_hold(library: &Library) -> Held {
    for lines in 0..=LINE_WORDS + 1 {
        let lengths = Lengths {
            text: 3,
            spare: 3,
            lines,
            tokens: 3,
        };
        fresh_holds(library, lengths)?;
    }
    Ok(())
}

/// "over 1,048,576 bytes": edits to a comment as long as a text may be and longer, with a text buffer of this length.
pub fn limit_holds(library: &Library, text: usize) -> Held {
    let lengths = Lengths {
        text,
        spare: MAX_BYTES,
        lines: 2 * LINE_WORDS,
        tokens: TOKEN_WORDS,
    };
    let whole = vec![b'#'; MAX_BYTES];
    let longer = vec![b'#'; MAX_BYTES + 1];
    let edits = vec![
        Edit::new(0, 0, &longer),
        Edit::new(0, 0, &whole),
        Edit::new(MAX_BYTES, MAX_BYTES, b"#"),
        Edit::new(MAX_BYTES - 1, MAX_BYTES, b"#"),
        Edit::new(0, MAX_BYTES + 1, b"#"),
        Edit::new(1, MAX_BYTES, b""),
    ];
    history_holds(library, &History { lengths, edits })
}

/// A script of 64 KiB, with lines and tokens put in and taken out, levels and brackets opened and closed, in all its parts.
pub fn large_history() -> History {
    const LINES: &str = "fn blow(pen: u32) ->\n  u32\n  if pen == 4\n    return 38 // \u{9BAD}\n";
    const PUT_IN: [&str; 7] = [
        "x",
        "# a note\n",
        "(",
        "(\n",
        "f (\n\n) ->\n\n",
        "  x\n",
        "& ",
    ];
    let script = LINES.repeat((64 << 10) / LINES.len());
    let middle = script.len() / 2 / LINES.len() * LINES.len();
    let end = script.len() - LINES.len();
    let edits = [0, middle, end].into_iter().flat_map(|at| {
        let put = PUT_IN.map(|w| Edit::new(at, at, w.as_bytes()));
        let taken = Edit::new(at, at + LINES.len(), b"");
        put.into_iter().chain([taken])
    });
    let room = script.len() + 64;
    let lengths = Lengths {
        text: room,
        spare: room,
        lines: LINE_WORDS * room / 8,
        tokens: TOKEN_WORDS * room / 2,
    };
    each_within(lengths, script.as_bytes(), edits)
}

/// "1, the length": the calls on a text by itself, on one as long as it may be and on one longer.
pub fn long_texts_hold(library: &Library) -> Held {
    for length in [MAX_BYTES, MAX_BYTES + 1, MAX_BYTES + 70_000] {
        let text = vec![b'#'; length];
        let (mut lines, mut tokens) = ([WORD; 42], [WORD; 5]);
        let due = read_into(&text, &mut lines, &mut tokens);
        let (mut is_lines, mut is_tokens) = (Lent::filled(42, WORD), Lent::filled(5, WORD));
        let is = library.read(&text, is_lines.items_mut(), is_tokens.items_mut());
        same(format_args!("read of {length} bytes"), is, due)?;
        is_lines.holds("lines", &lines)?;
        is_tokens.holds("tokens", &tokens)?;
        let is = library.report(&text, &mut [BYTE; 8]);
        let due = report(&text, &mut [BYTE; 8]);
        same(format_args!("report of {length} bytes"), is, due)?;
        let is = library.panel_column(&text, length as u64);
        let due = panel_column(&text, length as u64);
        same(format_args!("column of {length} bytes"), is, due)?;
        let is = library.byte_value(&text);
        same(
            format_args!("value of {length} bytes"),
            is,
            byte_value(&text),
        )?;
        number_parts_hold(library, &text)?;
    }
    Ok(())
}
