//! The fixed lists whose answers are recorded.

use super::edits::{each_on, every_range, history, Edit, History, AMPLE};
use super::{texts, utf8, Random};
use crate::case::Case;
use crate::examples;
use crate::kept::kept;
use crate::page::Lengths;
use crate::reading::{LINE_WORDS, MAX_BYTES, TOKEN_WORDS};
use std::collections::HashSet;

/// Document 01's examples and what stands beside them.
fn example_texts() -> Vec<Vec<u8>> {
    let lists = examples::ALL.iter().flat_map(|list| list.iter());
    let cases = lists.map(|example| example.text.to_vec());
    let values = examples::VALUES.iter().map(|(text, _)| text.to_vec());
    let levels = examples::level_limits().into_iter().map(|(text, _)| text);
    cases.chain(values).chain(levels).collect()
}

/// "one of 46 spellings", "Signs, longest first": each alone, cut short and with a letter behind.
fn spellings() -> Vec<Vec<u8>> {
    let all = texts::KEYWORDS.iter().chain(&texts::SIGNS);
    all.flat_map(|spelling| {
        let short = &spelling[..spelling.len() - 1];
        [
            spelling.to_string(),
            short.to_string(),
            format!("{spelling}a"),
        ]
    })
    .map(String::into_bytes)
    .collect()
}

/// The texts of the recorded list, each once.
pub fn recorded_texts() -> Vec<Vec<u8>> {
    let mut random = Random::new(1);
    let mut all = example_texts();
    all.push(feed_script());
    all.extend(spellings());
    all.extend(texts::single_bytes());
    all.extend(texts::sign_runs());
    all.extend(utf8::damaged());
    all.extend(texts::long_texts());
    all.extend(texts::every(texts::LAYOUT, 3));
    all.extend(texts::every(texts::LITERALS, 3));
    all.extend((0..600).map(|_| texts::small(&mut random)));
    all.extend(kept("texts").into_iter().filter_map(|case| match case {
        Case::Text(text) => Some(text),
        _ => None,
    }));
    let mut met = HashSet::new();
    all.retain(|text| met.insert(text.clone()));
    all
}

/// Texts with one of the fields that are recorded of them, to show that a wrong one is found: reply, line words, token words,
/// message, byte-literal value, panel columns.
pub const ALTERED: [(&[u8], usize); 6] = [
    (b"b'a'", 1),
    (b"b'a'", 2),
    (b"b'a'", 3),
    (b"a & b", 4),
    (b"b'a'", 5),
    (b"b'a'", 6),
];

/// A list of edits on a page with ample buffers.
fn listed(edits: &[(usize, usize, &[u8])]) -> History {
    let edit = |(a, b, w): &(usize, usize, &[u8])| Edit::new(*a, *b, w);
    History {
        lengths: AMPLE,
        edits: edits.iter().map(edit).collect(),
    }
}

/// "L10 in L2's page ...", and the counts of the stop rule.
fn counts() -> Vec<History> {
    let empty: &[u8] = b"";
    vec![
        listed(&[
            (0, 0, b"a\n  b\n"),
            (0, 1, b"cc"),
            (0, 2, b"a"),
            (0, 1, b"a("),
        ]),
        listed(&[
            (0, 0, b"a\nb\n"),
            (2, 2, empty),
            (4, 4, empty),
            (0, 0, empty),
        ]),
        listed(&[
            (0, 0, b"a\nb\nc\n"),
            (2, 4, empty),
            (2, 2, b"x\n"),
            (2, 2, b"x\n"),
        ]),
        listed(&[
            (0, 0, empty),
            (0, 0, b"\n"),
            (0, 1, empty),
            (0, 0, b"a"),
            (1, 1, b"\n"),
        ]),
    ]
}

/// A block of returned seconds below a line that changes: its levels must follow each time.
fn block_below_changed_line() -> History {
    const SCRIPT: &str = "\
fn blow(pen: u32)
  if pen == 4
    return 38
    return 45
  return 600
";
    const LINE: usize = 18;
    const END: usize = LINE + 13;
    let changes: [(usize, usize, &[u8]); 14] = [
        (END - 1, END, b"5"),
        (END, END, b" ->"),
        (END, END, b" -> # c"),
        (END, END, b" (\n)"),
        (END, END, b" ("),
        (END, END, b" )"),
        (LINE, LINE, b"#"),
        (LINE, LINE, b"  "),
        (LINE, LINE, b"    "),
        (LINE, LINE + 2, b""),
        (LINE, LINE + 2, b"   "),
        (LINE, LINE + 2, b"\t"),
        (LINE, END + 1, b""),
        (END, END + 1, b" "),
    ];
    each_on(
        SCRIPT.as_bytes(),
        changes.map(|(a, b, w)| Edit::new(a, b, w)),
    )
}

/// Ten lines of a script of the usual kind.
const FEED_BLOCK: &str = "\
System feed
# hose table
record 4 -> 7 = 38;
Pulse 6:15..9:40
fn blow(pen: u32) ->
  u32
  if pen == 4
    return 38 // \u{9BAD}
  else
    return 600
";

/// A script of sixty lines.
fn feed_script() -> Vec<u8> {
    FEED_BLOCK.repeat(6).into_bytes()
}

/// Edits near the start of a long script: a tail that moves far, and one that is read again.
fn long_script() -> History {
    let base = feed_script();
    let n = base.len();
    let second = n / 6;
    let changes: [(usize, usize, &[u8]); 13] = [
        (0, 1, b"s"),
        (0, 0, b"\n"),
        (0, 0, b"\n\n\n#\n"),
        (0, 0, b"("),
        (0, 0, b" "),
        (0, 12, b""),
        (11, 12, b""),
        (11, 11, b" ->"),
        (second, second, b"  "),
        (second, 2 * second, b""),
        (second, second, b"(\n)\n"),
        (0, n, b"a\n"),
        (n, n, b"  -> (\n"),
    ];
    each_on(&base, changes.map(|(a, b, w)| Edit::new(a, b, w)))
}

/// "5, buffer, least length": these edits with every buffer exactly long enough or one short.
fn narrow(exact: Lengths, edits: &[Edit]) -> impl Iterator<Item = History> + '_ {
    let shorter = move |text, spare, lines, tokens| Lengths {
        text: exact.text - text,
        spare: exact.spare - spare,
        lines: exact.lines - lines,
        tokens: exact.tokens - tokens,
    };
    (0..16)
        .map(move |short| shorter(short & 1, short >> 1 & 1, short >> 2 & 1, short >> 3))
        .map(|lengths| History {
            lengths,
            edits: edits.to_vec(),
        })
}

/// L2's page, and texts of its size that fail or are not well-formed.
fn narrow_pages() -> Vec<History> {
    let exact = Lengths {
        text: 6,
        spare: 6,
        lines: 3 * LINE_WORDS,
        tokens: 30,
    };
    let edits: Vec<Edit> = [&b"a\n  b\n"[..], b"a\n  &\n", b"a\n  \xFF\n", b"\n\n", b"a"]
        .iter()
        .flat_map(|w| [Edit::new(0, 0, w), Edit::new(0, w.len(), b"")])
        .collect();
    narrow(exact, &edits).collect()
}

/// Sixteen levels with records exactly long enough, and room for a line that would open another.
fn narrow_levels() -> Vec<History> {
    let (base, more) = (examples::levels(16), examples::levels(17));
    let n = base.len();
    let exact = Lengths {
        text: more.len(),
        spare: more.len(),
        lines: 18 * LINE_WORDS,
        tokens: 66 * TOKEN_WORDS,
    };
    let edits = [
        Edit::new(0, 0, &base),
        Edit::new(n, n, &more[n..]),
        Edit::new(n + 1, n, &more[n..]),
        Edit::new(0, n, b"a"),
    ];
    narrow(exact, &edits).collect()
}

/// "text, or edited text, over 1,048,576 bytes": a comment as long as a text may be, and one byte longer. A list holds the bytes of one.
fn byte_limit() -> Vec<History> {
    let comment = |length| vec![b'#'; length];
    let list = |(text, spare, lines, tokens), edits: &[Edit]| History {
        lengths: Lengths {
            text,
            spare,
            lines,
            tokens,
        },
        edits: edits.to_vec(),
    };
    let (most, whole) = (MAX_BYTES, Edit::new(0, 0, &comment(MAX_BYTES)));
    let longer = Edit::new(0, 0, &comment(most + 1));
    let at_most = [
        whole.clone(),
        Edit::new(most, most, b"#"),
        Edit::new(most - 1, most, b"/"),
        Edit::new(0, most + 1, b""),
        Edit::new(0, most, b""),
    ];
    let in_line = |a, b, length| [Edit::new(0, 0, b"a\n"), Edit::new(a, b, &comment(length))];
    vec![
        list((most, most, 42, 5), &at_most),
        list((most - 1, most, 42, 5), &[whole.clone()]),
        list((most, most - 1, 42, 5), &[whole.clone()]),
        list((most, most, 41, 5), &[whole.clone()]),
        list((most, most, 42, 4), &[whole]),
        list((most, most, 42, 5), &[longer.clone()]),
        list((0, 0, 21, 0), &[longer]),
        list((2, 2, 42, 10), &in_line(1, 1, most - 1)),
        list((2, 2, 42, 10), &in_line(1, 1, most - 2)),
        list((2, 2, 42, 10), &in_line(1, 2, most)),
        list((2, 2, 42, 10), &in_line(1, 3, most)),
    ]
}

/// "What comes first in a reply": every refusal that an edit can meet from the fresh page on, but 4, with each of the four buffers.
fn refusals() -> History {
    let lengths = Lengths {
        text: 8,
        spare: 7,
        lines: 3 * LINE_WORDS,
        tokens: 30,
    };
    let edits = vec![
        Edit::new(0, 0, b"a\n  b\n"),
        Edit::new(6, 6, &[b'#'; MAX_BYTES + 1]),
        Edit::new(4, 5, b"\xFF"),
        Edit::new(4, 5, b"&"),
        Edit::new(0, 0, b"aaa"),
        Edit::new(0, 0, b"aa"),
        Edit::new(6, 6, b"\n"),
        Edit::new(0, 1, b"b;"),
        Edit::new(6, 7, b""),
        Edit::new(0, 1, b"cc"),
    ];
    History { lengths, edits }
}

/// Lists in which answers are made wrong, to show that they are found: L10, every refusal.
pub fn altered_histories() -> Vec<History> {
    let mut all = counts();
    all.truncate(1);
    all.push(refusals());
    all.extend(narrow_levels().into_iter().take(1));
    all
}

/// "L11 sixteen levels read, a seventeenth gives 4", by edits.
fn levels() -> History {
    let base = examples::levels(16);
    let end = base.len();
    let seventeenth = [&[b' '; 17][..], b"a\n"].concat();
    let broken = [&[b' '; 17][..], b"&\n"].concat();
    let changes: [(usize, usize, &[u8]); 9] = [
        (end, end, &seventeenth),
        (end, end, &broken),
        (end, end, b"                 #\n"),
        (end - 2, end - 2, b" "),
        (end - 2, end - 1, b"->"),
        (end - 2, end - 1, b"("),
        (0, 0, b" "),
        (0, 2, b""),
        (2, 3, b""),
    ];
    each_on(&base, changes.map(|(a, b, w)| Edit::new(a, b, w)))
}

/// "not well-formed UTF-8": edits that split a scalar, join one, or do both at once.
fn scalars() -> History {
    let base = "#é\n\"鮭\"\n".as_bytes();
    let insertions: [&[u8]; 6] = [b"", b"\xC3", b"\xA9", b"\xAA", b"\xE9\xAE", b"\xC3\xA9"];
    every_range(base, &insertions)
}

/// The lists of edits of the recorded list.
pub fn recorded_histories() -> Vec<History> {
    let insertions: [&[u8]; 7] = [b"", b"\n", b"(", b" ", b"->", b"\"", b"\n  x"];
    let bases: [&[u8]; 5] = [
        b"a\n  b\n",
        b"f ->\n x\n",
        b"(\n a\n)",
        b" a\n  b\nc",
        b"\r\n\tb\r",
    ];
    let mut random = Random::new(2);
    let mut all = counts();
    all.push(block_below_changed_line());
    all.push(long_script());
    all.push(refusals());
    all.extend(narrow_pages());
    all.extend(narrow_levels());
    all.extend(byte_limit());
    all.push(levels());
    all.push(scalars());
    all.extend(bases.map(|base| every_range(base, &insertions)));
    all.extend((0..200).map(|_| history(&mut random, 12)));
    all.extend(kept("edits").into_iter().filter_map(|case| match case {
        Case::Edits(history) => Some(history),
        _ => None,
    }));
    all
}
