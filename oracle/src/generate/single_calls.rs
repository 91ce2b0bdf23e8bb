//! The calls by themselves whose answers are recorded.

use super::calls::page_of;
use super::numbers::filled;
use crate::call::Call;
use crate::examples;
use crate::numbers::SUFFIXES;
use crate::page::{message, Page, NAMES};
use crate::reading::{fresh_reading, LINE_WORDS, MAX_BYTES, TOKEN_WORDS};
use std::collections::HashSet;

/// Tokens of the names and of the text, levels, depth, an arrow and a scalar of two bytes.
const SCRIPT: &[u8] = b"if a (\n  \"\xC3\xA9\"\n)\n  f ->\n    x\n# c\ny\n";

/// Where it ends.
const END: u64 = SCRIPT.len() as u64;

/// What a word holds that nothing was written to.
const FILL: u32 = 0xAAAA_AAAA;

/// Numbers about which products with 5 go beyond a machine word, and the last one.
const FAR: [u64; 5] = [
    u32::MAX as u64 + 1,
    u64::MAX / 5,
    u64::MAX / 5 + 1,
    1 << 63,
    u64::MAX,
];

/// "1, the length", "2, length of the longest well-formed prefix", and where both are due.
fn refused_texts() -> Vec<Vec<u8>> {
    let last_is_cut = [&[b'#'; MAX_BYTES - 1][..], &[0xC3]].concat();
    vec![
        vec![b'#'; MAX_BYTES + 1],
        vec![0xFF; MAX_BYTES + 1],
        last_is_cut,
        b"a\xC3".to_vec(),
        b"\xED\xA0\x80".to_vec(),
    ]
}

/// "Panel column of an offset: scalars before it in its line, plus 1. Checks 1, 2, 6."
fn panel_columns() -> Vec<Call> {
    let call = |text: &[u8], offset: u64| Call::of("panel_column").number(offset).bytes(text);
    let mut all = Vec::new();
    for text in [&b""[..], b"\ta\xC3\xA9\r\n\xF0\x9F\x90\x9F b\n", SCRIPT] {
        let near = 0..=text.len() as u64 + 1;
        all.extend(near.chain(FAR).map(|offset| call(text, offset)));
    }
    let longest = vec![b'a'; MAX_BYTES];
    all.extend([0, 1].map(|past| call(&longest, MAX_BYTES as u64 + past)));
    all.extend(refused_texts().iter().map(|text| call(text, u64::MAX)));
    all
}

/// "Byte-literal value, after 1 and 2"
fn byte_values() -> Vec<Call> {
    let call = |text: &[u8]| Call::of("byte_value").bytes(text);
    let values = examples::VALUES.iter().map(|(text, _)| call(text));
    let refused = refused_texts();
    values
        .chain(refused.iter().map(|text| call(text)))
        .collect()
}

/// Numbers of both bases with each suffix, and with what is not quite one.
fn suffixed() -> Vec<Vec<u8>> {
    const FRONTS: [&str; 12] = [
        "0", "9", "00", "1_", "1.5", "1.5_", "0x", "0X", "0x_", "0X1", "0xf", "0XF_",
    ];
    const OTHERS: [&str; 14] = [
        "f", "x", "i", "i3", "u", "u3", "f6", "FX", "I32", "U32", "F64", "fxfx", "i64", "f32",
    ];
    let with = |front: &str| {
        let suffixes = SUFFIXES.into_iter().chain(OTHERS);
        let texts = suffixes.map(|suffix| [front, suffix].concat().into_bytes());
        texts.collect::<Vec<_>>()
    };
    FRONTS.into_iter().flat_map(with).collect()
}

/// Numbers in texts as long as they may be and longer, and before bytes that are not well-formed.
fn number_limits() -> Vec<Vec<u8>> {
    vec![
        filled(b"", b'1', b""),
        filled(b"1.", b'5', b"_f64"),
        filled(b"0X", b'f', b"64"),
        filled(b"0x", b'_', b"u32"),
        filled(b"7", b' ', b"\n"),
        filled(b"", b'a', b"1"),
        filled(b"", b'1', b"\xC3"),
        vec![b'1'; MAX_BYTES + 1],
        [&filled(b"", b'1', b"")[..], b"\xFF"].concat(),
        [&filled(b"", b'1', b"")[..], &[b'_'; 1_024]].concat(),
        b"38\xFF".to_vec(),
        b"0x\x80".to_vec(),
        b"1.\xC3".to_vec(),
        b"1i32 \xF4\x90\x80\x80".to_vec(),
        b"\xFF1".to_vec(),
    ]
}

/// "Digits and suffix told apart": also each byte at the front, behind a digit, behind a `.` and behind `0x`; each text once.
fn number_parts() -> Vec<Call> {
    let by_hand = examples::PARTS.iter().map(|(text, _)| text.to_vec());
    let none = examples::NO_NUMBERS.iter().map(|text| text.to_vec());
    let fronts = [&b""[..], b"1", b"1.", b"0x"].into_iter();
    let bytes = fronts.flat_map(|front| (0..=255).map(move |byte| [front, &[byte]].concat()));
    let short = by_hand.chain(none).chain(suffixed()).chain(bytes);
    let all = short.chain(number_limits()).chain(refused_texts());
    let mut met = HashSet::new();
    let once = all.filter(|text| met.insert(text.clone()));
    once.map(|text| Call::of("number_parts").bytes(&text))
        .collect()
}

/// Texts that read, that fail, that open too many levels, and those that are refused with 1 or 2.
fn read_texts() -> Vec<Vec<u8>> {
    let mut all = vec![Vec::new(), SCRIPT.to_vec(), examples::levels(16)];
    all.push(examples::SEVENTEEN_LEVELS.to_vec());
    all.extend(examples::MESSAGES.iter().map(|(text, _)| text.to_vec()));
    all.extend(refused_texts());
    all
}

/// "Report ... refuses 1, 2, 4, then 5 (out)": a buffer that is longer, one that is just long enough, a shorter one, none.
fn reports() -> Vec<Call> {
    let mut all = Vec::new();
    for text in read_texts() {
        let length = message(&text).map_or(0, |message| message.len());
        let mut rooms = vec![length + 9, length, length.saturating_sub(1), 0];
        rooms.dedup();
        let call = |room: usize| Call::of("report").bytes(&text).bytes(&vec![0xAA; room]);
        all.extend(rooms.into_iter().map(call));
    }
    all
}

/// "1, 2, then 3 or 4, 5 (lines), 5 (tokens)": buffers that are longer, just long enough, one word short, none.
fn readings() -> Vec<Call> {
    let mut all = Vec::new();
    for text in read_texts() {
        let page = page_of(&text);
        let (lines, tokens) = (page.lines.len(), page.tokens.len());
        let call = |lines: usize, tokens: usize| {
            let call = Call::of("read").bytes(&text);
            call.words(&vec![FILL; lines]).words(&vec![FILL; tokens])
        };
        all.push(call(lines + 9, tokens + 9));
        if fresh_reading(&text).is_ok() {
            all.push(call(lines, tokens));
            all.push(call(lines - 1, 0));
            all.push(call(lines, tokens.saturating_sub(1)));
            all.push(call(0, tokens));
        }
    }
    all
}

/// "The fresh page has header 0, 0, 0 and 21 zero line words; it needs 21."
fn fresh_pages() -> Vec<Call> {
    let lengths = (0..=LINE_WORDS + 1).chain([2 * LINE_WORDS]);
    let call = |length: usize| Call::of("fresh").words(&vec![FILL; length]);
    lengths.map(call).collect()
}

/// "each step gives a record and a next number one higher, or done, the number kept"
fn walk_steps() -> Vec<Call> {
    let tokens = page_of(SCRIPT).tokens;
    let call = |words: &[u32], next: u64| Call::of("walk_step").number(next).words(words);
    let last = (tokens.len() / TOKEN_WORDS) as u64;
    let near = (0..=last + 1).chain(FAR).map(|next| call(&tokens, next));
    let cut = [0, 4, 5, 6, 9].map(|length| &tokens[..length]);
    let cut = cut
        .iter()
        .flat_map(|words| [0, 1].map(|next| call(words, next)));
    near.chain(cut).collect()
}

/// The names, or as many bytes of them, or with more behind them.
fn names(length: usize) -> Vec<u8> {
    let more = std::iter::repeat(0xAA);
    NAMES.bytes().chain(more).take(length).collect()
}

/// "the kind alone decides which. Order: 7 (header), 6, 7 (token), 5 (names)."
fn token_texts() -> Vec<Call> {
    let call = |page: &Page, i: u64, room: usize| {
        let call = Call::of("token_text").page(page).number(i);
        call.bytes(&names(room))
    };
    let page = page_of(SCRIPT);
    let (last, room) = (u64::from(page.k), NAMES.len());
    let near = (0..=last + 1).chain(FAR).map(|i| call(&page, i, room));
    let mut all: Vec<Call> = near.collect();
    for room in [0, room - 1, room + 1] {
        all.extend([0, 2, last - 1, last].map(|i| call(&page, i, room)));
    }
    for unfit in unfit_pages(&page) {
        all.extend([0, last].map(|i| call(&unfit, i, room - 1)));
    }
    let n = page.n;
    for words in [
        [66, 0, 2],
        [92, 0, 2],
        [93, 0, 2],
        [45, 1, n],
        [45, 0, n],
        [90, n, 1],
        [45, u32::MAX, u32::MAX],
    ] {
        let mut other = page.clone();
        other.tokens[..3].copy_from_slice(&words);
        all.extend([room - 1, room].map(|room| call(&other, 0, room)));
    }
    all
}

/// "7: header needs more text, line words or token words than lent"
fn unfit_pages(page: &Page) -> Vec<Page> {
    let mut all = vec![page.clone(); 6];
    all[0].n += 1;
    all[1].m += 1;
    all[2].k += 1;
    all[3].n = u32::MAX;
    all[4].m = u32::MAX;
    all[5].k = u32::MAX;
    all
}

/// A page with one bit of its header or records another, for each number and each word of the first, a middle and the last record.
fn stale_pages(page: &Page) -> Vec<Page> {
    let mut all = vec![page.clone(); 3];
    all[0].n -= 1;
    all[1].m -= 1;
    all[2].k -= 1;
    for record in [0, page.m as usize / 2, page.m as usize] {
        for word in 0..LINE_WORDS {
            all.push(page.clone());
            all.last_mut().expect("a page").lines[LINE_WORDS * record + word] ^= 1;
        }
    }
    for record in [0, page.k as usize / 2, page.k as usize - 1] {
        for word in 0..TOKEN_WORDS {
            all.push(page.clone());
            all.last_mut().expect("a page").tokens[TOKEN_WORDS * record + word] ^= 1;
        }
    }
    all
}

/// A page with so much more in each buffer, of which a faithful page says nothing.
fn with_more(page: &Page, more: usize) -> Page {
    let mut page = page.clone();
    page.text.resize(page.text.len() + more, 0xFF);
    page.lines.resize(page.lines.len() + more, FILL);
    page.tokens.resize(page.tokens.len() + more, FILL);
    page
}

/// "Check: 7 for the header; otherwise yes exactly if header and records are faithful."
fn checks() -> Vec<Call> {
    let page = page_of(SCRIPT);
    let mut unread = page.clone();
    unread.text[0] = b'?';
    let mut malformed = page.clone();
    malformed.text[0] = 0xFF;
    let mut pages = vec![
        page_of(b""),
        page.clone(),
        with_more(&page, 3),
        unread,
        malformed,
    ];
    pages.push(page_of(&examples::levels(16)));
    pages.extend(unfit_pages(&page));
    pages.extend(stale_pages(&page));
    pages
        .iter()
        .map(|page| Call::of("check").page(page))
        .collect()
}

/// Edits of the script: accepted ones, then those that are refused with 3, 2 and 6.
const CHANGES: [(u64, u64, &[u8]); 16] = [
    (0, 0, b""),
    (END, END, b"z\n"),
    (0, 2, b"while"),
    (3, 4, b""),
    (7, 15, b""),
    (0, END, b""),
    (5, 6, b""),
    (16, 18, b""),
    (23, 27, b" "),
    (0, 0, b"& "),
    (0, 0, b"b'"),
    (10, 11, b""),
    (3, 3, b"\xFF"),
    (2, 1, b"a"),
    (END, END + 1, b""),
    (u64::MAX, u64::MAX, b""),
];

/// "Order for an edit: 7, 6, 1, 5 (text), 5 (spare), 2, then 3 or 4 ..., 5 (lines), 5 ...". Past 2 each page is faithful, since other
/// answers are free.
fn edits() -> Vec<Call> {
    let call = |page: &Page, a: u64, b: u64, w: &[u8]| {
        let call = Call::of("edit").page(page).number(a).number(b);
        call.bytes(&page.spare).bytes(w)
    };
    let mut exact = page_of(SCRIPT);
    exact.spare = vec![0xAA; SCRIPT.len() + 50];
    let ample = with_more(&exact, 50);
    let changed = CHANGES.iter().map(|(a, b, w)| call(&ample, *a, *b, w));
    let mut all: Vec<Call> = changed.collect();
    let long = vec![b'#'; MAX_BYTES - SCRIPT.len() + 1];
    all.extend([0, 1].map(|b| call(&ample, 0, b, &long)));
    let mut deep = with_more(&page_of(&examples::levels(16)), 50);
    deep.spare = vec![0xAA; deep.text.len()];
    let end = u64::from(deep.n);
    all.push(call(&deep, end, end, b"                 a\n"));
    let unfit = unfit_pages(&exact);
    all.extend(unfit.iter().map(|page| call(page, 2, 1, b"\xFF")));
    let narrow = narrow_pages(&ample);
    all.extend(narrow.iter().map(|page| call(page, END, END, b"f ->\n")));
    all
}

/// The page with each buffer just long enough for one line of two tokens and its Newline more, and one short of it.
fn narrow_pages(page: &Page) -> Vec<Page> {
    let mut enough = page.clone();
    enough.text.truncate(SCRIPT.len() + 5);
    enough.spare.truncate(SCRIPT.len() + 5);
    enough.lines.truncate(LINE_WORDS * (page.m as usize + 2));
    enough.tokens.truncate(TOKEN_WORDS * (page.k as usize + 3));
    let mut all = vec![enough; 5];
    all[1].text.pop();
    all[2].spare.pop();
    all[3].lines.pop();
    all[4].tokens.pop();
    all
}

/// The calls of the recorded list.
pub fn single_calls() -> Vec<Call> {
    [
        panel_columns(),
        byte_values(),
        number_parts(),
        reports(),
        readings(),
        fresh_pages(),
        walk_steps(),
        token_texts(),
        checks(),
        edits(),
    ]
    .concat()
}

/// Calls in which answers are made wrong, to show that they are found: the first of each function with each reply.
pub fn altered_calls() -> Vec<Call> {
    let mut all = single_calls();
    let mut met = HashSet::new();
    all.retain(|call| {
        let reply = call.clone().answer();
        let buffer = if reply[0] == 5 { reply[1] } else { 0 };
        met.insert((call.name, reply.len(), reply[0], buffer))
    });
    all
}
