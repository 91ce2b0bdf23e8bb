//! Texts: scripts by grammar, heaps of pieces, every short text over an alphabet, and limits.

use super::Random;

/// "one of 46 spellings of 45 kinds in `tokenize_line`"
#[rustfmt::skip]
pub const KEYWORDS: [&str; 46] = [
    "fn", "requires", "ensures", "invariant", "record", "schema", "enum", "const", "trait", "impl",
    "let", "for", "in", "guard", "if", "else", "is", "while", "loop", "break", "continue", "where",
    "with", "return", "match", "true", "false", "System", "Entity", "Law", "when", "Pulse",
    "Profile", "Import", "ref", "quad", "bool", "i32", "u32", "fx", "f64", "N", "F", "T", "S",
    "When",
];

/// "Signs, longest first: ..."
#[rustfmt::skip]
pub const SIGNS: [&str; 41] = [
    "..=", "&&=", "||=", "::", ":=", "..", "!=", "==", "=>", "<=", ">=", "&&", "||", "|>", "+=",
    "*=", "%=", "/=", "->", "-=", "{", "}", "(", ")", "[", "]", ";", ",", ":", ".", "_", "!", "=",
    "<", ">", "|", "+", "*", "%", "/", "-",
];

#[rustfmt::skip]
const WORDS: [&str; 12] = [
    "a", "b", "x1", "pen_4", "seconds", "lets", "Whens", "fnn", "b2", "fx1", "Z", "e",
];

#[rustfmt::skip]
const NUMBERS: [&str; 26] = [
    "0", "7", "38", "600", "1_000", "1_", "0x", "0X", "0x_", "0x1f64", "0xfx", "0xFFu32", "0xi32",
    "1.5", "1.5fx", "1_.5_", "1.e", "1..2", "1f642", "38i32", "4u32", "9f64", "3fx", "00x1",
    "1.2.3", "0b'a'",
];

#[rustfmt::skip]
const STRINGS: [&str; 7] = [
    "\"\"", "\"ab\"", "\"a\\\"", "\"#//\"", "\"é\"", "\"\r\"", "\"鮭 -> (\"",
];

#[rustfmt::skip]
const BYTE_LITERALS: [&str; 10] = [
    "b'a'", "b' '", "b'~'", r"b'\0'", r"b'\''", r"b'\\'", r#"b'\"'"#, r"b'\x00'", r"b'\x7F'",
    "b'#'",
];

#[rustfmt::skip]
const COMMENTS: [&str; 8] = [
    "#", "//", "# ->", "// (", "#é", "//\u{85}", "# b'", "//\u{2028}\"",
];

/// One or more pieces for each of the details 1 to 12 but 4.
#[rustfmt::skip]
const BROKEN: [&str; 34] = [
    "'", "\\", "@", "é", "鮭", "🐟", "\u{feff}", "\u{85}", "\0", "\u{7f}", "&", "&&&", "\"",
    "\"ab", "b'", "b'\\", "b'\\x", "b'\\x7", "b'a", "b''", "b'''", "b'\\x80'", "b'\\xF",
    "b'\\xg0'", "b'\\x7é'", "b'\\q'", "b'\\é'", "b'\t'", "b'\u{1f}'", "b'\r'", "b'é'", "b'🐟",
    "b'ab'", "b'a鮭",
];

#[rustfmt::skip]
const INDENTATIONS: [&str; 12] = [
    " ", "  ", "    ", "\t", " \t", "\t ", "\r", "\r ", " \r", "   ", "        ", "\t\t",
];

/// One token, one time in `broken` one that fails.
pub fn item(random: &mut Random, broken: usize) -> &'static str {
    if random.one_in(broken) {
        return random.pick(&BROKEN);
    }
    match random.below(16) {
        0..=2 => random.pick(&KEYWORDS),
        3..=5 => random.pick(&WORDS),
        6..=7 => random.pick(&NUMBERS),
        8 => random.pick(&STRINGS),
        9 => random.pick(&BYTE_LITERALS),
        10 => random.pick(&["(", ")"]),
        _ => random.pick(&SIGNS),
    }
}

/// Indentation as a careful writer keeps it, now and then not.
fn indentation(random: &mut Random, open: &mut Vec<String>) -> String {
    let innermost = open.last().cloned().unwrap_or_default();
    match random.below(12) {
        0..=5 => innermost,
        6..=8 => {
            let deeper = innermost + random.pick(&[" ", "  ", "\t", "    "]);
            open.push(deeper.clone());
            deeper
        }
        9..=10 => {
            open.truncate(random.below(open.len() + 1));
            open.last().cloned().unwrap_or_default()
        }
        _ => random.pick(&INDENTATIONS).to_string(),
    }
}

/// The inside of a line, without its LF.
pub fn line(random: &mut Random, broken: usize) -> String {
    let mut line = String::new();
    for _ in 0..random.below(5) {
        line += item(random, broken);
        line += random.pick(&[" ", " ", " ", "", "\t", "\r"]);
    }
    match random.below(12) {
        0 | 1 => line += "->",
        2 => line += "(",
        3 => line += ")",
        4 => line += random.pick(&COMMENTS),
        5 => line += "\r",
        _ => {}
    }
    line
}

/// Some lines of a script, the last one often without its LF.
pub fn script(random: &mut Random, broken: usize) -> Vec<u8> {
    let mut text = String::new();
    let mut open = Vec::new();
    for _ in 0..1 + random.below(6) {
        text += &indentation(random, &mut open);
        text += &line(random, broken);
        text += "\n";
    }
    if random.one_in(2) {
        text.pop();
    }
    text.into_bytes()
}

/// Pieces without any order between them.
fn heap(random: &mut Random) -> Vec<u8> {
    let mut text = String::new();
    for _ in 0..random.below(12) {
        text += match random.below(8) {
            0 => "\n",
            1 => random.pick(&INDENTATIONS),
            2 => random.pick(&COMMENTS),
            3 => random.pick(&["b'", "'", "\\", "x", "\"", "0", "8", "."]),
            _ => item(random, 12),
        };
    }
    text.into_bytes()
}

/// One byte changed, put in or taken out.
pub fn damage(random: &mut Random, text: &mut Vec<u8>) {
    const BYTES: &[u8] = b"\n\r\t (->)#/\"b'\\x078&|_.a\0\x7F\x80\xBF\xC2\xE2\xED\xF0\xF4\xFF";
    let at = random.below(text.len() + 1);
    let byte = random.pick(BYTES);
    match random.below(3) {
        0 => text.insert(at, byte),
        _ if at == text.len() => text.push(byte),
        1 => text[at] = byte,
        _ => drop(text.remove(at)),
    }
}

/// The most bytes of a small text, but for a ladder.
const SMALL: usize = 40;

/// Any small text: a script, a heap, either damaged, or a ladder of levels.
pub fn small(random: &mut Random) -> Vec<u8> {
    if random.one_in(100) {
        return ladder(random);
    }
    let mut text = match random.below(8) {
        0..=4 => script(random, 60),
        5 => script(random, 8),
        _ => heap(random),
    };
    if random.one_in(8) {
        damage(random, &mut text);
    }
    text.truncate(SMALL);
    text
}

/// A piece again and again: a word, blanks, a comment, a string or signs longer than other lines have.
fn run(random: &mut Random) -> String {
    let pieces = [
        "a", "x_1", " ", "\t", "\r", "1_", "é", "鮭", "(", ")", "# ", "|", "let ", "\n",
    ];
    let run = random.pick(&pieces).repeat(1 + random.below(70));
    match random.below(6) {
        0 => format!("\"{run}\""),
        1 => format!("#{run}"),
        2 => format!("//{run}"),
        3 => format!("\"{run}"),
        _ => run,
    }
}

/// Some scripts one after another, and runs between their lines.
pub fn long(random: &mut Random) -> Vec<u8> {
    let mut text = Vec::new();
    for _ in 0..2 + random.below(6) {
        text.extend(script(random, 1_000));
        if random.one_in(2) {
            text.extend(run(random).bytes());
        }
        text.extend(random.pick(&["\n", "\n", "\r\n", " "]).bytes());
    }
    if random.one_in(8) {
        damage(random, &mut text);
    }
    text
}

/// Fifteen to eighteen levels, in spaces and tabs, and a last line that may fail.
pub fn ladder(random: &mut Random) -> Vec<u8> {
    let mut text = String::new();
    let mut width = 0;
    for _ in 0..15 + random.below(4) {
        width += random.pick(&[1, 1, 2, 4]);
        text += &blanks(random, width);
        text += "a\n";
    }
    width += random.below(3);
    text += &blanks(random, width);
    text += &line(random, 6);
    text.into_bytes()
}

/// "leading spaces count 1, tabs 4": this width in tabs, as many as it happens, and spaces.
fn blanks(random: &mut Random, width: usize) -> String {
    let tabs = random.below(width / 4 + 1);
    "\t".repeat(tabs) + &" ".repeat(width - 4 * tabs)
}

/// Layout, brackets, arrows, comments and strings, byte by byte.
pub const LAYOUT: &[&str] = &[
    "a", " ", "\t", "\n", "\r", "(", ")", "-", ">", "#", "/", "\"",
];

/// Byte literals, numbers and signs, byte by byte.
pub const LITERALS: &[&str] = &["b", "'", "\\", "x", "7", "8", "0", ".", "_", "f", "&", "|"];

/// What changes the state before a line.
pub const STATES: &[&str] = &["a", " ", "\n", "(", ")", "->", "#"];

/// Every text of at most `most` pieces.
pub fn every(pieces: &'static [&'static str], most: u32) -> impl Iterator<Item = Vec<u8>> {
    (0..=most).flat_map(move |length| exactly(pieces, length))
}

/// Every text of so many pieces.
fn exactly(pieces: &'static [&'static str], length: u32) -> impl Iterator<Item = Vec<u8>> {
    let base = pieces.len();
    (0..base.pow(length)).map(move |number| {
        let places = (0..length).rev();
        let digits = places.map(|place| number / base.pow(place) % base);
        digits.flat_map(|digit| pieces[digit].bytes()).collect()
    })
}

/// "text, or edited text, over 1,048,576 bytes": a unit repeated to this length, then spaces.
pub fn repeated(unit: &str, length: usize) -> Vec<u8> {
    let mut text = unit.repeat(length / unit.len()).into_bytes();
    text.resize(length, b' ');
    text
}

/// Lines longer, or more of them, than the other texts have.
pub fn long_texts() -> Vec<Vec<u8>> {
    let units = [
        ("a", 700),
        (" ", 700),
        ("\t", 300),
        ("(", 300),
        (")", 300),
        ("\r", 300),
        ("1_", 300),
        ("a ", 200),
        ("->", 200),
        ("b'x'", 150),
        ("\n", 120),
        (" a\na\n", 60),
        ("#é", 200),
        ("(\n", 100),
        ("|||=", 80),
    ];
    let mut texts = Vec::new();
    for (unit, count) in units {
        let long = unit.repeat(count);
        texts.push(format!("{long}\n"));
        texts.push(format!("{long}&"));
        texts.push(format!("a\n  {long}\n  b"));
    }
    texts.push(format!("\"{}", "é".repeat(300)));
    texts.push(format!("\"{}\" ?", "é".repeat(300)));
    texts.push(format!("{}?", "\n".repeat(98)));
    texts.push(format!("{}?", "\n".repeat(99)));
    texts.push(format!("{}?", "\n".repeat(999)));
    texts.into_iter().map(String::into_bytes).collect()
}

/// "The 256 byte values fall into classes": each byte alone, within a line, and in a byte literal.
pub fn single_bytes() -> impl Iterator<Item = Vec<u8>> {
    let around: [(&[u8], &[u8]); 6] = [
        (b"", b""),
        (b"a ", b" b"),
        (b"b'", b"'"),
        (b"b'\\", b"'"),
        (b"b'\\x", b"0'"),
        (b"b'\\x4", b"'"),
    ];
    around
        .into_iter()
        .flat_map(|(before, after)| (0..=255u8).map(move |byte| [before, &[byte], after].concat()))
}

/// "Signs, longest first": every pair of sign bytes, and triples where longer signs begin.
pub fn sign_runs() -> impl Iterator<Item = Vec<u8>> {
    const PAIRS: &[&str] = &[
        "{", "}", "(", ")", "[", "]", ";", ",", ":", ".", "_", "!", "=", "<", ">", "|", "+", "*",
        "%", "/", "-", "&",
    ];
    const TRIPLES: &[&str] = &[".", "=", "&", "|", ">", "-", ":"];
    exactly(PAIRS, 2).chain(exactly(TRIPLES, 3))
}
