//! Texts on which a call takes the most time for a byte, or would take more than linear time if a scan were repeated.

/// A text that reads, an edit of it, and a plain text of the same length.
pub struct Worst {
    pub name: &'static str,
    pub page: Vec<u8>,
    /// The bytes at..at + out become w. Where this is refused, the edited text fails, and it is the text that is read.
    pub at: usize,
    pub out: usize,
    pub w: &'static [u8],
    pub plain: Vec<u8>,
}

/// Parts in turn, each again and again up to its length.
fn repeated(parts: &[(&str, usize)]) -> Vec<u8> {
    let part = |(bytes, size): &(&str, usize)| bytes.bytes().cycle().take(*size).collect::<Vec<u8>>();
    parts.iter().flat_map(part).collect()
}

/// A text with an edit at its start, beside short statements, one in a line.
fn edited_at_start(name: &'static str, parts: &[(&str, usize)], w: &'static [u8]) -> Worst {
    let page = repeated(parts);
    let plain = repeated(&[("x := 4;\n", page.len())]);
    Worst {
        name,
        page,
        at: 0,
        out: 0,
        w,
        plain,
    }
}

/// One line, into which a space is put.
fn line(name: &'static str, parts: &[(&str, usize)]) -> Worst {
    edited_at_start(name, parts, b" ")
}

/// Many lines, each of which is read again below a bracket that is opened.
fn lines(name: &'static str, parts: &[(&str, usize)]) -> Worst {
    edited_at_start(name, parts, b"(\n")
}

/// One line, in which a byte becomes one with which the line fails.
fn failing(name: &'static str, parts: &[(&str, usize)], at: usize, w: &'static [u8]) -> Worst {
    let page = line(name, parts);
    Worst { at, out: 1, w, ..page }
}

/// Each text, of this many bytes: a multiple of 8, and at least 1,024.
pub fn texts(size: usize) -> Vec<Worst> {
    let half = size / 2;
    let ladder: String = (0..=16).map(|width| " ".repeat(width) + "a\n").collect();
    let (open, above) = (ladder.as_str(), ladder.len());
    vec![
        Worst {
            plain: repeated(&[("b'a'", half), (" ", half)]),
            ..line("byte literals, then CRs", &[("b'a'", half), ("\r", half)])
        },
        line("byte literals, then spaces", &[("b'a'", half), (" ", half)]),
        line("empty strings", &[("\"\"", size)]),
        line("minus signs", &[("-", size)]),
        line("numbers and points", &[("1.1.", size)]),
        line("blanks before a letter", &[(" ", size - 1), ("a", 1)]),
        line("a comment in letters of two bytes", &[("# ", 2), ("é", size - 2)]),
        lines("LFs", &[("\n", size)]),
        lines("LFs in 16 levels", &[(open, above), ("\n", size - above)]),
        lines("lines of one letter", &[("a\n", size)]),
        lines("a level opened and closed by turns", &[("a\n a\n", size)]),
        failing("a failure at a line's end", &[("a ", size)], size - 1, b"&"),
        failing(
            "an open string before CRs",
            &[("\"", 1), ("x", half - 2), ("\"", 1), ("\r", half)],
            half - 1,
            b"x",
        ),
    ]
}
